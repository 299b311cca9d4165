#!/usr/bin/env python3
"""Ends runs of lavzimo at random while they spill, and runs two at once in one folder; says each fault in a line.

usage: scripts/kill_lavzimo.py [LAVZIMO [RUNS]], which are ~/.local/bin/lavzimo and 50 if they are left out.
ROWS in the environment is another number of rows than two million.
A killed run leaves no file in its folder, but for one without a byte where it was killed between making and removing it. Two runs in one folder both print what they print without one, and leave nothing.
"""

import os
import random
import signal
import subprocess
import sys
import tempfile
import time

SHIPPED = "~/.local/bin/lavzimo"
RUNS = 50
PAIRS = 5
# So few partitions that much more waits in each than a worker keeps before it spills.
WORDS = ["--by", "k", "--count", "--sum", "n", "--order", "-sum_n", "--limit", "1000", "--partitions", "2"]


def made_rows(path, rows, step):
    """Rows of keys that are almost all different, in no order."""
    with open(path, "w", encoding="ascii") as file:
        file.write("k,n\n")
        file.writelines(f"key-{row * step % 4000037},{row}\n" for row in range(rows))


def spilled_files(process, folder):
    """The files of the folder that the process holds open, with or without a name."""
    held = []
    try:
        for number in os.listdir(f"/proc/{process.pid}/fd"):
            path = os.readlink(f"/proc/{process.pid}/fd/{number}")
            held += [path] if path.startswith(folder + "/") else []
    except OSError:
        pass
    return held


def left_in(folder):
    """What lies in a folder: each file with its size, and whether it has a byte."""
    return [(name, os.path.getsize(os.path.join(folder, name))) for name in sorted(os.listdir(folder))]


def killed(words, folder, seconds):
    """Kills a run after some time: whether it held spilled rows then, whether it was over before, and what it left."""
    process = subprocess.Popen(words, stdout=subprocess.DEVNULL, stderr=subprocess.DEVNULL)
    time.sleep(seconds)
    spills = bool(spilled_files(process, folder))
    over = process.poll() is not None
    process.send_signal(signal.SIGKILL)
    process.wait()
    return spills, over, left_in(folder)


def killed_at_random(lavzimo, file, folder, runs, length):
    """Kills runs one after another. Answers how many of them spilled, and the lines of faults."""
    chance, spilled, between, faults = random.Random(), 0, 0, []
    words = [lavzimo, *WORDS, "--spill-dir", folder, file]
    for _ in range(runs):
        seconds = chance.uniform(0, length)
        spills, over, left = killed(words, folder, seconds)
        spilled += spills and not over
        for name, size in left:
            os.remove(os.path.join(folder, name))
            between += size == 0
            if size:
                faults.append(f"killed after {seconds:.3f} s: left {name} of {size} bytes")
    print(f"kill_lavzimo: {runs} runs were killed, {spilled} of them while they held spilled rows; {between} files were left between making and removing", file=sys.stderr)
    if spilled < runs // 4:
        faults.append(f"only {spilled} of {runs} runs held spilled rows when they were killed; ROWS makes more")
    if between > max(1, runs // 10):
        faults.append(f"{between} files without a byte were left")
    return faults


def two_at_once(lavzimo, files, folder):
    """Two runs in one folder, over two files, and what each of them prints by itself without a folder."""
    alone = [subprocess.run([lavzimo, *WORDS, file], check=True, stdout=subprocess.PIPE).stdout for file in files]
    for number in range(PAIRS):
        both = [subprocess.Popen([lavzimo, *WORDS, "--spill-dir", folder, file], stdout=subprocess.PIPE) for file in files]
        for file, process, due in zip(files, both, alone):
            found = process.communicate()[0]
            if process.returncode or found != due:
                yield f"pair {number}, {os.path.basename(file)}: status {process.returncode}, and {'the same' if found == due else 'another'} answer"
        for name, size in left_in(folder):
            os.remove(os.path.join(folder, name))
            yield f"pair {number}: left {name} of {size} bytes"


def main():
    lavzimo = os.path.abspath(os.path.expanduser((sys.argv[1:] + [SHIPPED])[0]))
    runs = int(sys.argv[2]) if len(sys.argv) > 2 else RUNS
    rows = int(os.environ.get("ROWS", "2000000"))
    with tempfile.TemporaryDirectory() as room:
        folder = os.path.join(os.path.realpath(room), "spill")
        files = [os.path.join(room, name) for name in ("a.csv", "b.csv")]
        os.mkdir(folder)
        for file, step in zip(files, (7919, 104729)):
            made_rows(file, rows, step)
        start = time.perf_counter()
        subprocess.run([lavzimo, *WORDS, "--spill-dir", folder, files[0]], check=True, stdout=subprocess.DEVNULL)
        length = time.perf_counter() - start
        faults = [f"an undisturbed run left {name}" for name, _ in left_in(folder)]
        faults += killed_at_random(lavzimo, files[0], folder, runs, length)
        faults += two_at_once(lavzimo, files, folder)
    for line in faults:
        print(line)
    print(f"kill_lavzimo: {len(faults)} faults" if faults else "kill_lavzimo: ok", file=sys.stderr)
    return 1 if faults else 0


if __name__ == "__main__":
    sys.exit(main())
