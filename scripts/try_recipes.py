#!/usr/bin/env python3
"""Runs the recipes of docs/RECIPES.md over files of generated rows, and says where one prints something else than one run of group_tool over all files, asked by the kept keys in their order.

usage: scripts/try_recipes.py [ROLLUP_TOOL [GROUP_TOOL]], which are ~/.local/bin/rollup_tool and ~/.local/bin/group_tool if they are left out.
It wants GNU parallel, and dask.distributed for /usr/bin/python3. The array of Slurm is run task by task, without Slurm.
"""

import glob
import json
import os
import random
import shutil
import subprocess
import sys
import tempfile

EXAMPLES = os.path.join(os.path.dirname(os.path.dirname(os.path.abspath(__file__))), "examples")
SHIPPED = ["~/.local/bin/rollup_tool", "~/.local/bin/group_tool"]
SCHEMA = [["host", "String"], ["code", "Int64"], ["bytes", "Int64"], ["took", "Int32"]]
KEYS = ["host", "code"]
AGGS = [("sum", "bytes"), ("mean", "bytes"), ("count", "took"), ("len", None), ("min", "took"), ("max", "took"), ("first", "bytes"), ("last", "took")]
# Of which keys each recipe is asked, and how many rows the files have: one has none, and one has two chunks.
KEPT = [["host"], ["code"], ["code", "host"], ["host", "code"]]
ROWS = [900, 0, 50001, 1, 4000]


def query_by(keys):
    aggs = [{"alias": [{agg: column}, f"{agg}_{column}"]} for agg, column in AGGS]
    return json.dumps({"schema": SCHEMA, "keys": keys, "aggs": aggs})


def made_files(folder):
    """Files of generated rows, some of whose values are null; their names have a space and are in order."""
    chance = random.Random(39)
    os.makedirs(os.path.join(folder, "logs"))
    for number, rows in enumerate(ROWS):
        lines = [",".join(name for name, _ in SCHEMA)]
        for _ in range(rows):
            size = "" if chance.random() < 0.1 else chance.randrange(-(2**62), 2**62)
            took = "" if chance.random() < 0.1 else chance.randrange(-50, 50)
            lines.append(f"h{chance.randrange(7)},{chance.choice(['', 200, 404, 500])},{size},{took}")
        path = os.path.join("logs", f"hour {number:02}.csv")
        with open(os.path.join(folder, path), "w", encoding="ascii") as file:
            file.write("\n".join(lines) + "\n")
        yield path


def by_parallel(folder, tool, query, keys, files):
    return [os.path.join(EXAMPLES, "rollup_parallel.sh"), query, keys, "states", *files]


def by_dask(folder, tool, query, keys, files):
    return [os.path.join(EXAMPLES, "rollup_dask.py"), query, keys, "states", *files]


def by_array(folder, tool, query, keys, files):
    """The tasks of the array, the last one first; the states are rolled up in no order."""
    with open(os.path.join(folder, "query.json"), "w", encoding="ascii") as file:
        file.write(query)
    for task in reversed(range(len(files))):
        subprocess.run(["bash", os.path.join(EXAMPLES, "rollup_slurm.sh")], check=True, cwd=folder, env={**os.environ, "SLURM_ARRAY_TASK_ID": str(task)})
    return [tool, "roll", query, keys, *sorted(glob.glob("states/*", root_dir=folder), reverse=True)]


def in_turn(folder, tool, query, keys, files):
    """Each state goes on where the one before it ends."""
    os.makedirs(os.path.join(folder, "states"))
    with open(os.path.join(folder, "states", "0"), "wb") as state:
        subprocess.run([tool, "save", query, "0", files[0]], check=True, cwd=folder, stdout=state)
    for number, file in enumerate(files[1:], 1):
        words = [os.path.join(EXAMPLES, "rollup_next.sh"), query, f"states/{number - 1}", file]
        with open(os.path.join(folder, "states", str(number)), "wb") as state:
            subprocess.run(words, check=True, cwd=folder, stdout=state)
    return [tool, "roll", query, keys, *(f"states/{number}" for number in range(len(files)))]


RECIPES = [by_parallel, by_dask, by_array, in_turn]


def main():
    tool, group_tool = (os.path.abspath(os.path.expanduser(path)) for path in sys.argv[1:] + SHIPPED[len(sys.argv) - 1:])
    os.environ.update(ROLLUP_TOOL=tool, LC_ALL="C")
    tried = wrong = 0
    with tempfile.TemporaryDirectory() as folder:
        files = list(made_files(folder))
        for keys in KEPT:
            due = subprocess.run([group_tool, query_by(keys), *files], check=True, capture_output=True, cwd=folder).stdout
            for recipe in RECIPES:
                words = recipe(folder, tool, query_by(KEYS), json.dumps(keys), files)
                done = subprocess.run(words, capture_output=True, cwd=folder, check=False)
                shutil.rmtree(os.path.join(folder, "states"), ignore_errors=True)
                tried += 1
                if (done.stdout, done.returncode) != (due, 0):
                    wrong += 1
                    print(f"{recipe.__name__} by {keys}: status {done.returncode}, {done.stdout[:300]!r}, {done.stderr[:300]!r}; due {due[:300]!r}")
    print(f"try_recipes: {tried} runs of recipes, {wrong} of which gave something else", file=sys.stderr)
    return 1 if wrong else 0


if __name__ == "__main__":
    sys.exit(main())
