#!/usr/bin/env python3
"""Refuses each allocation of the memory tests in turn, and says what each run ended with.

usage: scripts/refuse_allocations.py [CRATE..], where the crates are those with a file src/memory_tests.rt or src/plan_tests.rt if none is named.
The tests of a crate are built once, without a proof (`refused_program.py` says how), and each of the memory tests runs by itself.
A test of memory_tests, plan_tests or kept_tests may then end with the right answer, with an error that says that the call `wants memory`, or with one of an allocation that prepared the call; another answer fails the script.
A test is done where it gave the right answer at so many numbers on end as ENOUGH says: the allocations are then behind us. A test that makes a refused call again gives the right answer at the allocations of that call too, of which no call has as many.
"""

import os
import re
import subprocess
import sys
import tempfile

from refused_program import ROOT, built, refuse, spans

MOST = 20000
ENOUGH = 500
RIGHT, WANT, PREPARED = "the right answer", "want of memory", "want of memory before the call"


def memory_tests(program):
    """The names of the memory tests in a program."""
    told = subprocess.run([program, "--list"], stdin=subprocess.DEVNULL, capture_output=True, text=True, check=True).stdout
    return re.findall(r"^((?:memory|plan|kept)_tests::\w+): test$", told, re.M)


def ended(program, test):
    """What a test of a program ended with, in an empty folder."""
    with tempfile.TemporaryDirectory() as empty:
        try:
            run = subprocess.run([program, test], cwd=empty, stdin=subprocess.DEVNULL, capture_output=True, text=True, errors="replace", timeout=60)
        except subprocess.TimeoutExpired:
            return "another answer: none in 60 seconds"
    if run.returncode == 0:
        return RIGHT
    error = re.search(r"^error: (.*)$", run.stderr, re.M)
    if error and re.search(r'wants memory"?$', error.group(1)):
        return WANT
    if error and re.match(r"(AllocError|AllocFailed \{ \.\. \})$", error.group(1)):
        return PREPARED
    return "another answer: " + (error.group(1) if error else " ".join(run.stderr.split()) or f"status {run.returncode}")


def answers_of(program, places, test):
    """What a test ended with by the number of the refused allocation, from 1 on."""
    answers = []
    while len(answers) < ENOUGH or len(answers) < MOST and set(answers[-ENOUGH:]) != {RIGHT}:
        refuse(program, places, len(answers) + 1)
        answers.append(ended(program, test))
    return answers


def try_crate(crate):
    wrong = 0
    with tempfile.TemporaryDirectory() as folder:
        program, places = built(crate, folder, ["--test"])
        tests = memory_tests(program)
        if not tests:
            sys.exit(f"{crate}: no memory test")
        for test in tests:
            answers = answers_of(program, places, test)
            wrong += sum(answer not in (RIGHT, WANT, PREPARED) for answer in answers)
            if answers[-1] != RIGHT:
                wrong += 1
                answers.append(f"another answer: not the right one where allocation {len(answers)} is refused")
            for span in spans(answers):
                print(f"{crate} {test}: allocation {span}", flush=True)
            if WANT not in answers and PREPARED not in answers:
                wrong += 1
                print(f"{crate} {test}: no refused allocation made it want memory")
    return wrong


def main():
    crates = os.path.join(ROOT, "crates")
    named = sys.argv[1:] or sorted(c for c in os.listdir(crates) if any(os.path.exists(os.path.join(crates, c, "src", it)) for it in ("memory_tests.rt", "plan_tests.rt")))
    wrong = sum(try_crate(crate) for crate in named)
    print(f"refuse_allocations: {len(named)} crates, {wrong} answers that are neither right nor want of memory", file=sys.stderr)
    return 1 if wrong else 0


sys.exit(main())
