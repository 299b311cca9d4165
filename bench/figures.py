#!/usr/bin/env python3
"""Times lavzimo and the usual tools over the same CSV, and writes the figures that bench/plot.py draws.

usage: bench/figures.py LAVZIMO FIGURES [ROUNDS]
Each workload is a million rows: a sum and a count by whole numbers of 10 to a million values, by texts, and by two keys. In each of ROUNDS rounds, seven if it is left out, each tool runs once, over a file that is in memory; the figures are medians, and the greatest memory of one process. A tool whose answer is another one is an error. It wants /usr/bin/time; those of mawk, mlr, sqlite3, Rscript with data.table, and pandas for /usr/bin/python3 that aren't there are left out.
"""

import csv
import datetime
import os
import random
import shutil
import statistics
import subprocess
import sys
import tempfile
import time

ROWS = 1_000_000
WORKLOADS = [("by number", 10), ("by number", 1000), ("by number", 100_000), ("by number", 1_000_000), ("by text", 10_000), ("by two keys", 10_000)]
SLOWEST = 60

PANDAS = """
import sys, pandas
rows = pandas.read_csv(sys.argv[1], dtype={key: str for key in sys.argv[2:]}, na_filter=False)
rows.groupby(sys.argv[2:], sort=False).v.agg(["sum", "count"]).to_csv(sys.stdout, header=False)
"""
DATATABLE = """
library(data.table)
words <- commandArgs(TRUE)
rows <- fread(words[1], showProgress = FALSE, colClasses = list(character = words[-1]))
fwrite(rows[, .(sum(v), .N), by = c(words[-1])], "", col.names = FALSE)
"""


def write_rows(path, kind, groups):
    """A CSV of a million rows, with keys in no order; its keys' names."""
    chance = random.Random(groups)
    keys = ["k", "l"] if kind == "by two keys" else ["k"]
    with open(path, "w", encoding="ascii") as file:
        file.write(",".join(keys + ["v"]) + "\n")
        for _ in range(ROWS):
            key = chance.randrange(groups)
            text = {"by number": f"{1_000_000_000 + key}", "by text": f"customer_{key}", "by two keys": f"{key // 100},p{key % 100}"}[kind]
            file.write(f"{text},{chance.randrange(100_000)}\n")
    return keys


def commands(lavzimo, path, keys):
    """The command of each tool that is there."""
    fields = ' "," '.join(f"${i + 1}" for i in range(len(keys)))
    value = f"${len(keys) + 1}"
    names = ",".join(keys)
    types = ", ".join(f"{key} TEXT" for key in keys)
    words = {
        "lavzimo": [lavzimo, "--by", names, "--sum", "v", "--count", path],
        "mawk": ["mawk", "-v", "CONVFMT=%.0f", "-v", "OFMT=%.0f", "-F,", f'NR > 1 {{ k = {fields}; s[k] += {value}; n[k]++ }} END {{ for (k in s) print k "," s[k] "," n[k] }}', path],
        "mlr": ["mlr", "--icsv", "--ocsv", "--headerless-csv-output", "stats1", "-a", "sum,count", "-f", "v", "-g", names, path],
        "sqlite3": ["sqlite3", ":memory:", f"CREATE TABLE rows ({types}, v INTEGER)", ".mode csv", f".import --skip 1 {path} rows", f"SELECT {names}, sum(v), count(*) FROM rows GROUP BY {names}"],
        "pandas": ["/usr/bin/python3", "-c", PANDAS, path, *keys],
        "data.table": ["Rscript", "-e", DATATABLE, path, *keys],
    }
    return {name: command for name, command in words.items() if shutil.which(command[0]) and is_there(name)}


def is_there(name):
    tries = {"pandas": ["/usr/bin/python3", "-c", "import pandas"], "data.table": ["Rscript", "-e", "library(data.table)"]}
    return name not in tries or subprocess.run(tries[name], capture_output=True, check=False).returncode == 0


def run(command, out):
    """Seconds and megabytes of a command, which writes to a file."""
    # The memory is asked of `time`, since a process that is begun here counts what this one holds.
    timed = ["/usr/bin/time", "-f", "%M", "-o", out + ".memory", *command]
    begin = time.perf_counter()
    with open(out, "wb") as file:
        done = subprocess.run(timed, stdout=file, stdin=subprocess.DEVNULL, check=False)
    seconds = time.perf_counter() - begin
    if done.returncode:
        sys.exit(f"figures.py: {command[0]} failed")
    with open(out + ".memory", encoding="ascii") as file:
        return seconds, int(file.read()) / 1024


def answer(out, has_names):
    with open(out, encoding="utf-8", newline="") as file:
        return sorted(list(csv.reader(file))[1 if has_names else 0:])


def measure(lavzimo, kind, groups, rounds, folder):
    """For each tool its seconds and megabytes."""
    path, out = os.path.join(folder, "rows.csv"), os.path.join(folder, "out")
    tools = commands(lavzimo, path, write_rows(path, kind, groups))
    found, due = {name: [] for name in tools}, None
    for turn in range(rounds):
        for name, command in tools.items():
            if sum(seconds for seconds, _ in found[name]) > SLOWEST:
                continue
            found[name].append(run(command, out))
            if turn == 0:
                told = answer(out, name == "lavzimo")
                due = due or told
                if told != due:
                    sys.exit(f"figures.py: {name} answers something else {kind}, {groups} groups")
    return {name: (statistics.median(s for s, _ in runs), max(m for _, m in runs)) for name, runs in found.items()}


def machine():
    with open("/proc/cpuinfo", encoding="utf-8") as file:
        model = next((line.partition(":")[2].strip() for line in file if line.startswith("model name")), "a processor")
    return f"{model}, {os.cpu_count()} processors"


def main():
    if len(sys.argv) not in (3, 4):
        sys.exit(__doc__)
    lavzimo, figures = sys.argv[1:3]
    rounds = int(sys.argv[3]) if len(sys.argv) == 4 else 7
    with tempfile.TemporaryDirectory() as folder, open(figures, "w", encoding="utf-8", newline="") as file:
        runs = "one run each" if rounds == 1 else f"medians of {rounds} runs"
        file.write(f"# A million rows; {runs}. {machine()}; {datetime.date.today()}.\n")
        table = csv.writer(file, lineterminator="\n")
        table.writerow(["workload", "groups", "tool", "seconds", "megabytes"])
        for kind, groups in WORKLOADS:
            for name, (seconds, megabytes) in measure(lavzimo, kind, groups, rounds, folder).items():
                table.writerow([f"{kind}, {groups} groups", groups, name, f"{seconds:.3f}", f"{megabytes:.0f}"])
            file.flush()


if __name__ == "__main__":
    main()
