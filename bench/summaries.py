#!/usr/bin/env python3
"""Times additions to a summary and its answer beside the roll-up of the same states, on one processor.

usage: bench/summaries.py [PROGRAMS [FOLDER]]

PROGRAMS is the folder of rollup_tool, summary_tool, summary_compact and state_times, ~/.local/bin by default. What is read is
made in FOLDER, and stays there for the next run; without one it is made anew. Five runs of each, interleaved, medians:

add     10,000 rows of 10,000 groups to a log of 1,000 frames of 1,000 groups each; beside it, that these rows are saved, and
        that the states of all frames are read, by read_state alone
show    a log of 100 frames, each of the same 10,000 groups; beside it, that the same states are rolled up by all keys
one     that log made one frame; beside it, that the state of one file of these is rolled up
"""

import os
import shutil
import statistics
import subprocess
import sys
import tempfile
import time

QUERY = '{"schema":[["k","Int64"],["v","Int64"]],"keys":["k"],"aggs":[{"alias":[{"sum":"v"},"s"]},{"alias":[{"count":"v"},"c"]}]}'
RUNS = 5
# A name, how many frames, and of how many rows each, a group a row.
LOGS = [("add", 1000, 1000), ("show", 100, 10_000)]


def run(words, folder, out=subprocess.DEVNULL):
    """Runs a program in a folder on one processor, and answers how many seconds it took."""
    start = time.perf_counter()
    subprocess.run(["taskset", "-c", "0", *words], cwd=folder, stdin=subprocess.DEVNULL, stdout=out, check=True)
    return time.perf_counter() - start


def write_rows(path, first, rows):
    """Writes rows whose keys are the numbers from 0 on, in another order."""
    with open(path, "w", encoding="ascii") as file:
        file.write("k,v\n")
        file.writelines(f"{at * 7919 % rows},{first + at}\n" for at in range(rows))


def make_log(programs, folder, frames, rows):
    """Makes the states of files of rows, whose positions follow one another, and the log of them."""
    os.makedirs(folder)
    with open(f"{folder}/summary.log", "wb") as log:
        for frame in range(frames):
            write_rows(f"{folder}/rows.csv", frame, rows)
            with open(f"{folder}/{frame}.state", "wb") as state:
                run([f"{programs}/rollup_tool", "save", QUERY, str(frame), "rows.csv"], folder, state)
            with open(f"{folder}/{frame}.state", "rb") as state:
                text = state.read()
            log.write(len(text).to_bytes(8, "big") + text)
    write_rows(f"{folder}/rows.csv", frames, 10_000)


def make_all(programs, folder):
    for name, frames, rows in LOGS:
        if not os.path.exists(f"{folder}/{name}"):
            make_log(programs, f"{folder}/.{name}", frames, rows)
            os.rename(f"{folder}/.{name}", f"{folder}/{name}")
    if not os.path.exists(f"{folder}/one"):
        os.makedirs(f"{folder}/.one")
        shutil.copy(f"{folder}/show/summary.log", f"{folder}/.one")
        shutil.copy(f"{folder}/show/0.state", f"{folder}/.one")
        run([f"{programs}/summary_compact", QUERY], f"{folder}/.one")
        os.rename(f"{folder}/.one", f"{folder}/one")


def add_time(programs, folder):
    """Adds rows to a copy of a log."""
    shutil.copy(f"{folder}/summary.log", f"{folder}/kept.log")
    try:
        return run([f"{programs}/summary_tool", "add", QUERY, "rows.csv"], folder)
    finally:
        os.replace(f"{folder}/kept.log", f"{folder}/summary.log")


def read_time(programs, folder):
    """What read_state takes for all frames of a log."""
    with open(f"{folder}/times", "w+", encoding="ascii") as out:
        run([f"{programs}/state_times", "1", QUERY, "summary.log"], folder, out)
        out.seek(0)
        return int(out.read().removeprefix("read_states ")) / 1e6


def roll_time(programs, folder, files, out):
    with open(f"{folder}/{out}", "wb") as file:
        return run([f"{programs}/rollup_tool", "roll", QUERY, '["k"]', *files], folder, file)


def show_time(programs, folder, out):
    with open(f"{folder}/{out}", "wb") as file:
        return run([f"{programs}/summary_tool", "show", QUERY], folder, file)


def same(folder, one, other):
    """Ends where two answers differ."""
    with open(f"{folder}/{one}", "rb") as first, open(f"{folder}/{other}", "rb") as second:
        if first.read() != second.read():
            sys.exit(f"summaries.py: {one} and {other} of {folder} differ")


def measure(programs, folder):
    times = {}
    states = [f"{number}.state" for number in range(LOGS[1][1])]
    for _ in range(RUNS):
        for name, took in [
            ("add", add_time(programs, f"{folder}/add")),
            ("save", run([f"{programs}/rollup_tool", "save", QUERY, "1000", "rows.csv"], f"{folder}/add")),
            ("read_state", read_time(programs, f"{folder}/add")),
            ("show", show_time(programs, f"{folder}/show", "shown")),
            ("roll", roll_time(programs, f"{folder}/show", states, "rolled")),
            ("show of one", show_time(programs, f"{folder}/one", "shown")),
            ("roll of one", roll_time(programs, f"{folder}/one", ["0.state"], "rolled")),
        ]:
            times.setdefault(name, []).append(took)
    same(f"{folder}/show", "shown", "rolled")
    shutil.copy(f"{folder}/show/shown", f"{folder}/one/all")
    same(f"{folder}/one", "shown", "all")
    return times


def main():
    programs = os.path.abspath(sys.argv[1]) if len(sys.argv) > 1 else os.path.expanduser("~/.local/bin")
    with tempfile.TemporaryDirectory() as room:
        folder = os.path.abspath(sys.argv[2]) if len(sys.argv) > 2 else room
        os.makedirs(folder, exist_ok=True)
        make_all(programs, folder)
        times = measure(programs, folder)
    medians = {name: statistics.median(took) for name, took in times.items()}
    for name, took in times.items():
        print(f"{name}: median {medians[name] * 1000:.1f} ms of " + " ".join(f"{it * 1000:.1f}" for it in took))
    allowed = 1.5 * medians["save"] + 1.2 * medians["read_state"]
    print(f"add by 1.5 save and 1.2 read_state: {medians['add'] / allowed:.2f}")
    print(f"show by roll: {medians['show'] / medians['roll']:.2f}")
    print(f"show of one by roll of one: {medians['show of one'] / medians['roll of one']:.2f}")


main()
