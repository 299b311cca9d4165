#!/usr/bin/env python3
"""Runs the commands of README.md and docs/FORMATS.md with built programs, and the recipes and the table of docs/RECIPES.md, and says where one prints something else than its page says.

usage: scripts/try_examples.py [PROGRAM..], which are those of ~/.local/bin if none is named. What asks for another program is left out.
A command is a block of the page that names its program in ~/.local/bin, with the block that it prints behind it; or one with an X for each row of the tables behind it.
A recipe is a script of examples/ with its words beside it, one a line. The table wants sqlite3, miller, r-cran-data.table, and python3-pandas for /usr/bin/python3.
"""

import csv
import io
import json
import os
import re
import shlex
import shutil
import subprocess
import sys
import tempfile
from decimal import Decimal, InvalidOperation

ROOT = os.path.dirname(os.path.dirname(os.path.abspath(__file__)))
EXAMPLES = os.path.join(ROOT, "examples")
PAGES = ["README.md", "docs/FORMATS.md"]
RECIPES = "docs/RECIPES.md"
NAMES = ["group_tool", "lavzimo", "rollup_tool", "summary_tool"]
SHIPPED = "~/.local/bin/"
BUILDS = re.compile(r"scripts/build\.sh( \S+)* && ")


# ---- pages


def read(path):
    with open(os.path.join(ROOT, path), encoding="utf-8") as file:
        return file.read()


def cells(line):
    return [cell.strip() for cell in line.strip()[1:-1].split("|")]


def spans(cell):
    """The pieces of code of a cell."""
    return [code for _, code in re.findall(r"(`+)(.+?)\1(?!`)", cell)]


def blocks(lines):
    """Each block of a page between fences: its language, its first line's number, its lines, and where it ends."""
    at = 0
    while at < len(lines):
        if lines[at].startswith("```"):
            end = next(i for i in range(at + 1, len(lines)) if lines[i].startswith("```"))
            yield lines[at][3:], at + 2, lines[at + 1:end], end
            at = end
        at += 1


def rows_behind(lines, end, first):
    """The rows of the tables behind a line, up to the next block or section, whose first column has a name: the head, the line's number and the cells."""
    head = None
    for number in range(end + 1, len(lines)):
        line = lines[number]
        if line.startswith("```") or line.startswith("## "):
            return
        if not line.startswith("|"):
            head = None
        elif head is None:
            head = cells(line)
        elif head[0] == first and not line.startswith("|---"):
            yield head, number + 1, cells(line)


# ---- commands of pages


def is_null(text):
    return "" if text == "null" else text


def wanted(head, row, refused):
    """What a row of a table says: the text without the first column's name, the line on standard error, the status."""
    if head[1] == "line":
        return None, spans(row[1])[0] + "\n", refused
    if head[1] == "lines":
        return "\n".join(spans(row[1])) + "\n", "", 0
    lines = ["," + row[1]]
    for title, cell in zip(head[2:], row[2:]):
        lines.append(",".join([title.split()[-1]] + [is_null(part) for part in cell.split(",")]))
    return "\n".join(lines) + "\n", "", 0


def without_first_name(text):
    return re.sub(r"^[^,\n]*", "", text, count=1)


def examples():
    """The page and line of each example, its command, and what it gives."""
    for page in PAGES:
        lines = read(page).splitlines()
        found = list(blocks(lines))
        for at, (language, number, block, end) in enumerate(found):
            command = "\n".join(block)
            if language != "sh" or SHIPPED not in command or not re.search("printf|--generate", command):
                continue
            in_json, in_words = re.search(r"[\[:]X[\]}]", command), command.endswith(" X")
            for head, line, row in rows_behind(lines, end, "X") if in_json or in_words else []:
                text, told, status = wanted(head, row, 3 if in_json else 2)
                written = re.sub(r"(?<=[\[:])X(?=[\]}])|(?<= )X$", lambda _: spans(row[0])[0], command)
                yield f"{page}:{line}", written, text, told, status, bool(in_json)
            if not in_json and not in_words:
                yield f"{page}:{number}", command, "\n".join(found[at + 1][2]) + "\n", "", 0, False


def differences_of_pages(programs, room):
    """For each command the line that tells what it printed, or None."""
    for where, command, text, told, status, any_name in examples():
        run = BUILDS.sub("", command)
        asked = re.findall(re.escape(SHIPPED) + r"(\w+)", run)
        if not set(asked) <= set(programs):
            continue
        for name in asked:
            run = run.replace(SHIPPED + name, shlex.quote(programs[name]))
        done = subprocess.run(["bash", "-c", run], capture_output=True, text=True, cwd=room, check=False)
        printed = without_first_name(done.stdout) if any_name and text is not None else done.stdout
        same = (printed, done.stderr, done.returncode) == (text or "", told, status)
        yield None if same else f"{where}: printed {done.stdout!r} and {done.stderr!r} with status {done.returncode}: {command}"


# ---- recipes


def words_of(name):
    with open(os.path.join(EXAMPLES, name + ".args"), encoding="utf-8") as file:
        return file.read().splitlines()


def script_of(name):
    """The script of a recipe, and which of our programs it names."""
    path = next(path for path in (os.path.join(EXAMPLES, name + ending) for ending in (".sh", ".py")) if os.path.exists(path))
    return path, {program for program in NAMES if re.search(rf"\b{program}\b", read(path))}


def differences_of_recipes(programs, room):
    """For each recipe the line that tells what it printed, or None."""
    for name in sorted(file.removesuffix(".args") for file in os.listdir(EXAMPLES) if file.endswith(".args")):
        script, asked = script_of(name)
        if not asked <= set(programs):
            continue
        done = subprocess.run([script, *words_of(name)], capture_output=True, text=True, cwd=room, check=False)
        with open(os.path.join(EXAMPLES, name + ".out"), encoding="utf-8") as file:
            same = (done.stdout, done.stderr, done.returncode) == (file.read(), "", 0)
        yield None if same else f"{name}: printed {done.stdout!r} and {done.stderr!r} with status {done.returncode}"


# ---- the table from what people know

DATA = "data/access.csv"
TABLE = """
.mode csv
.import data/access.csv raw
CREATE TABLE log AS SELECT NULLIF(user, '') AS user, NULLIF(path, '') AS path, status, hour,
    CAST(NULLIF(bytes, '') AS INTEGER) AS bytes, CAST(NULLIF(latency, '') AS INTEGER) AS latency FROM raw;
"""
PANDAS = """
import sys, pandas
texts = dict.fromkeys(["user", "path", "status", "hour"], str)
log = pandas.read_csv("data/access.csv", dtype={**texts, "bytes": "Int64", "latency": "Int64"}, keep_default_na=False, na_values={"bytes": "", "latency": ""})
found = eval(sys.argv[1])
if isinstance(found, list):
    found = pandas.DataFrame([found])
found.to_csv(sys.stdout, index=found.index.names != [None])
"""
DATATABLE = """
suppressMessages(library(data.table))
log <- fread("data/access.csv", colClasses = list(character = c("user", "path", "status", "hour")))
fwrite(%s, "")
"""


def in_sql(code):
    return ["sqlite3", "-csv", "-header", "log.db", code]


def in_pandas(code):
    return ["/usr/bin/python3", "-c", PANDAS, code]


def in_mlr(code):
    return ["mlr", "--icsv", "--ocsv", *shlex.split(code), DATA]


def in_datatable(code):
    return ["Rscript", "-e", DATATABLE % code]


def in_lavzimo(code):
    return ["lavzimo", *shlex.split(code), DATA]


WAYS = {"SQL": in_sql, "pandas": in_pandas, "mlr": in_mlr, "data.table": in_datatable, "lavzimo": in_lavzimo}


def plain(text):
    """A number in six places, as it is mostly written; any other text as it is."""
    try:
        return format(round(Decimal(text), 6).normalize(), "f")
    except InvalidOperation:
        return text


def answer_of(words, room, is_ordered):
    """The rows that a command prints behind its line of names, in their order or in one of their own; or what it says."""
    done = subprocess.run(words, capture_output=True, text=True, cwd=room, check=False)
    if done.returncode:
        return done.stderr
    rows = [[plain(text) for text in row] for row in csv.reader(io.StringIO(done.stdout))][1:]
    return rows if is_ordered else sorted(rows)


def differences_of_table(room):
    """For each cell of the table the line that tells where its answer differs from that of lavzimo, or None."""
    lines = read(RECIPES).splitlines()
    start = next(i for i, line in enumerate(lines) if line.startswith("| question |")) - 1
    for head, number, row in rows_behind(lines, start, "question"):
        codes = dict(zip(head[1:], (spans(cell)[0] for cell in row[1:])))
        is_ordered = "--order" in codes["lavzimo"]
        due = answer_of(in_lavzimo(codes["lavzimo"]), room, is_ordered)
        for name, code in codes.items():
            found = answer_of(WAYS[name](code), room, is_ordered)
            same = found == due and isinstance(due, list)
            yield None if same else f"{RECIPES}:{number}: {name} answers {found}, and lavzimo {due}"


# ---- all of them


def room_for(programs, room):
    """A folder with the data of the examples, and the programs in a folder of PATH."""
    shutil.copytree(os.path.join(EXAMPLES, "data"), os.path.join(room, "data"))
    os.mkdir(os.path.join(room, "bin"))
    for name, path in programs.items():
        os.symlink(path, os.path.join(room, "bin", name))
    os.environ.update(PATH=os.path.join(room, "bin") + os.pathsep + os.environ["PATH"], LC_ALL="C.UTF-8")


def main():
    paths = sys.argv[1:] or [path for path in (os.path.expanduser(SHIPPED + name) for name in NAMES) if os.path.exists(path)]
    programs = {os.path.basename(path): os.path.abspath(path) for path in paths}
    with tempfile.TemporaryDirectory() as room:
        room_for(programs, room)
        subprocess.run(["sqlite3", "log.db"], input=TABLE, text=True, cwd=room, check=True)
        told = [*differences_of_pages(programs, room), *differences_of_recipes(programs, room)]
        told += differences_of_table(room) if "lavzimo" in programs else []
    for line in filter(None, told):
        print(line)
    wrong = sum(map(bool, told))
    print(f"try_examples: {len(told)} examples, {wrong} of which gave something else", file=sys.stderr)
    return 1 if wrong else 0


if __name__ == "__main__":
    sys.exit(main())
