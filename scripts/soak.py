"""Runs one query over one made file again and again, with random limits and 1 to 8 workers, and compares the outputs.

usage: scripts/soak.py RUNS [PROGRAM]. It ends with 1 at the first output that differs from another run's with as many
partitions byte by byte, or whose lines aren't those of the answer, which Python reckons by itself.
"""

import os
import random
import sys
import tempfile
import time

from trial_runs import is_answer, made_input, program_of, run

# Some of these files have more than a megabyte, which several threads read in parts and look over in pieces.
LEAST_ROWS, MOST_ROWS = 20_000, 250_000

# Few groups, or so many that a partition's lines are made in several pieces.
KEYS = [3000, 20_000]


def random_actions(chance, workers):
    """A list of letters for each worker, every other with a star behind it; or one list with a star, which is every worker's."""
    if chance.random() < 0.2:
        return "".join(chance.choices("nmd", k=chance.randint(1, 5))) + "*"
    lists = ["".join(chance.choices("nmd", k=chance.randint(0, 40))) for _ in range(workers)]
    return ",".join(letters + "*" if letters and chance.random() < 0.5 else letters for letters in lists)


def random_options(chance, folder):
    """Limits from small to large, actions and rules, and for half of the runs a folder for the spills."""
    workers = chance.randint(1, 8)
    options = {
        "workers": workers,
        "partitions": chance.choice([1, 2, 7, 16]),
        "spill-size": chance.choice([0, 3, 100, 5000, 2**64 - 1]),
        "buffer": chance.choice([1, 5, 64, 2048]),
        "payloads": chance.choice([0, 1, 9, 64]),
        "chunk": chance.choice([100, 999, 5000, 50_000]),
    }
    if chance.random() < 0.7:
        options["actions"] = random_actions(chance, workers)
    if chance.random() < 0.5:
        options["spill-dir"] = folder
    return options


def main():
    runs = int(sys.argv[1])
    program = program_of(sys.argv[2:])
    seed = random.randrange(2**32)
    chance = random.Random(seed)
    print(f"seed {seed}", flush=True)
    outputs, begun = {}, time.monotonic()
    with tempfile.TemporaryDirectory() as folder:
        path, spills = os.path.join(folder, "in.csv"), os.path.join(folder, "spills")
        os.mkdir(spills)
        due = made_input(path, chance.randint(LEAST_ROWS, MOST_ROWS), chance.choice(KEYS), seed)
        for number in range(runs):
            options = random_options(chance, spills)
            words = [word for name, value in options.items() for word in (f"--{name}", str(value))]
            status, text, fault = run(program, words, path)
            alike = outputs.setdefault(options["partitions"], text) == text
            if status != 0 or fault or not alike or not is_answer(text, due):
                print(f"run {number} with {' '.join(words)}: status {status}, {fault.strip() or 'another output'}")
                return 1
            for name in os.listdir(spills):
                os.remove(os.path.join(spills, name))
    print(f"{runs} runs, all alike, in {time.monotonic() - begun:.0f} s")
    return 0


sys.exit(main())
