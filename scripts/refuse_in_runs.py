#!/usr/bin/env python3
"""Refuses each allocation of two runs of the program in turn, and says what each ended with.

usage: scripts/refuse_in_runs.py. One run spills two of its three rows, the other reads two files up to a limit of rows.
The program is built once, without a proof (`refused_program.py` says how). A run must end with the right answer, or with status 10, a front of the right text and a front of the line that says so.
A run is done where it gave the right answer at so many numbers on end as ENOUGH says: the allocations are then behind us.
"""

import os
import subprocess
import sys
import tempfile

from refused_program import built, refuse, spans

MOST = 20000
ENOUGH = 300
RIGHT, WANT = "the right answer", "out of memory"
SUM = '{"schema":[["k","Int64"],["v","Int64"]],"keys":["k"],"aggs":[{"alias":[{"sum":"v"},"s"]}]}'
SUM_AND_COUNT = '{"schema":[["k","Int64"],["v","Int64"]],"keys":["k"],"aggs":[{"alias":[{"sum":"v"},"s"]},{"alias":[{"count":"v"},"c"]}]}'
FILES = {"a.csv": "k,v\n1,5\n2,6\n", "b.csv": "k,v\n1,7\n9,9\n"}
# the name of a run, its words, its standard input, and its answer
RUNS = [
    ("one spill", ["--spill-size", "0", "--buffer", "1", "--payloads", "0", "--actions", "d", SUM], "k,v\n1,5\n2,6\n2,7\n", "k,s\n1,5\n2,13\n"),
    ("two files", ["--rows", "3", SUM_AND_COUNT, "a.csv", "b.csv"], "", "k,s,c\n1,12,2\n2,6,1\n"),
    ("two files as JSON", ["--rows", "3", "--format", "json", SUM_AND_COUNT, "a.csv", "b.csv"], "", '{"k":1,"s":12,"c":2}\n{"k":2,"s":6,"c":1}\n'),
]


def ended(program, folder, words, text, due):
    """What a run ended with, in a folder with the two files."""
    try:
        run = subprocess.run([program, *words], cwd=folder, input=text, capture_output=True, text=True, errors="replace", timeout=60)
    except subprocess.TimeoutExpired:
        return "another end: none in 60 seconds"
    if (run.returncode, run.stdout, run.stderr) == (0, due, ""):
        return RIGHT
    if run.returncode == 10 and due.startswith(run.stdout) and "out of memory\n".startswith(run.stderr):
        return WANT
    return f"another end: status {run.returncode}, {run.stdout!r}, {run.stderr[:200]!r}"


def ends_of(program, places, folder, words, text, due):
    """What a run ended with by the number of the refused allocation, from 1 on."""
    ends = []
    while len(ends) < ENOUGH or len(ends) < MOST and set(ends[-ENOUGH:]) != {RIGHT}:
        refuse(program, places, len(ends) + 1)
        ends.append(ended(program, folder, words, text, due))
    return ends


def main():
    wrong = 0
    with tempfile.TemporaryDirectory() as made, tempfile.TemporaryDirectory() as folder:
        for name, text in FILES.items():
            with open(os.path.join(folder, name), "w", encoding="ascii") as file:
                file.write(text)
        program, places = built("group_tool", made, [])
        for name, words, text, due in RUNS:
            ends = ends_of(program, places, folder, words, text, due)
            wrong += sum(end not in (RIGHT, WANT) for end in ends) + (ends[-1] != RIGHT) + (WANT not in ends)
            for span in spans(ends):
                print(f"{name}: allocation {span}", flush=True)
    print(f"refuse_in_runs: {len(RUNS)} runs, {wrong} ends that are neither right nor want of memory", file=sys.stderr)
    return 1 if wrong else 0


sys.exit(main())
