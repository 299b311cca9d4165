"""Runs the program with its spills on small file systems that fill up, and kills it while it spills.

usage: scripts/full_disk.py [PROGRAM [KILLS]]. Each run on a small disk must end with the right answer, or with status 8 and
its line and nothing written; after each kill the next run over the same folder must answer rightly. Only root can mount: else
it says that it was left out.
"""

import os
import random
import re
import signal
import subprocess
import sys
import tempfile
import time

from trial_runs import QUERY, is_answer, made_input, program_of, run

SIZES = ["4k", "16k", "64k", "256k", "1m", "16m"]
SPILLING = ["--chunk", "500", "--buffer", "16", "--spill-size", "0", "--payloads", "0", "--partitions", "4"]


def options_of(workers, folder):
    return [*SPILLING, "--workers", str(workers), "--actions", "d*", "--spill-dir", folder]


def emptied(folder):
    for name in os.listdir(folder):
        os.remove(os.path.join(folder, name))


def small_disks(program, path, due, folder):
    """One run for each size and number of workers; it gives how many ended with the answer, and how many with status 8."""
    answered = refused = 0
    for size in SIZES:
        disk = os.path.join(folder, f"disk-{size}")
        os.mkdir(disk)
        subprocess.run(["mount", "-t", "tmpfs", "-o", f"size={size}", "tmpfs", disk], check=True)
        try:
            for workers in (1, 2, 4):
                status, text, fault = run(program, options_of(workers, disk), path)
                emptied(disk)
                if status == 0 and is_answer(text, due) and not fault:
                    answered += 1
                elif status == 8 and not text and re.fullmatch(r"store \d+ failed\n", fault):
                    refused += 1
                else:
                    raise SystemExit(f"a disk of {size}, {workers} workers: status {status}, {fault.strip()}")
        finally:
            subprocess.run(["umount", disk], check=True)
    return answered, refused


def killed_runs(program, path, due, folder, kills):
    """Kills a run at a random moment, and runs again over what it left."""
    begun = time.monotonic()
    status, text, fault = run(program, options_of(2, folder), path)
    whole = time.monotonic() - begun
    if status != 0 or not is_answer(text, due):
        raise SystemExit(f"a run that nothing disturbs: status {status}, {fault.strip()}")
    for number in range(kills):
        words = [program, *options_of(2, folder), QUERY, path]
        running = subprocess.Popen(words, stdout=subprocess.DEVNULL, stderr=subprocess.DEVNULL)
        time.sleep(random.random() * whole)
        running.send_signal(signal.SIGKILL)
        running.wait()
        status, text, fault = run(program, options_of(2, folder), path)
        if status != 0 or not is_answer(text, due):
            raise SystemExit(f"after kill {number}: status {status}, {fault.strip()}")


def main():
    if os.geteuid() != 0:
        print("full_disk: left out, since only root can mount")
        return
    program = program_of(sys.argv[1:])
    kills = int(sys.argv[2]) if len(sys.argv) > 2 else 20
    with tempfile.TemporaryDirectory() as folder:
        path, spills = os.path.join(folder, "in.csv"), os.path.join(folder, "spills")
        os.mkdir(spills)
        due = made_input(path, 30_000, 2000, 1)
        answered, refused = small_disks(program, path, due, folder)
        print(f"full_disk: {answered} runs answered, {refused} ended with status 8")
        killed_runs(program, path, due, spills, kills)
        print(f"full_disk: {kills} runs killed, each run after them answered")


main()
