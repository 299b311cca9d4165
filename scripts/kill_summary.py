#!/usr/bin/env python3
"""Kills `summary_tool add` at random moments, cuts its log at every byte of the last frame, and adds twice at once.

usage: scripts/kill_summary.py [PROGRAM [KILLS]], where PROGRAM is ~/.local/bin/summary_tool and KILLS is 200 if they are left out.
After each kill `show` must give the answer over all additions that ended with 0, or over these and the one that was killed. Of a log
that was cut it must give the answer over all additions but the last, and of two additions at once both must be in, or one must have
ended with status 8.
"""

import os
import random
import signal
import subprocess
import sys
import tempfile
import time

QUERY = '{"schema":[["k","Int64"],["v","Int64"]],"keys":["k"],"aggs":[{"alias":[{"sum":"v"},"s"]},{"alias":[{"count":"v"},"c"]}]}'
SHIPPED = "~/.local/bin/summary_tool"
LOG = "summary.log"
ROWS = 3000
KEYS = 500
LENGTH_BYTES = 8


def made_file(folder, number):
    """Writes a file of random rows, and gives its name and its rows."""
    chance = random.Random(number)
    rows = [(chance.randrange(KEYS), chance.randrange(-1000, 1000)) for _ in range(ROWS)]
    name = f"{number}.csv"
    with open(os.path.join(folder, name), "w", encoding="ascii") as file:
        file.write("k,v\n" + "".join(f"{k},{v}\n" for k, v in rows))
    return name, rows


def answer_over(additions):
    """What `show` prints over the rows of some additions."""
    groups = {}
    for rows in additions:
        for k, v in rows:
            total, count = groups.get(k, (0, 0))
            groups[k] = (total + v, count + 1)
    return "k,s,c\n" + "".join(f"{k},{s},{c}\n" for k, (s, c) in sorted(groups.items()))


def begin(program, folder, *words):
    return subprocess.Popen([program, *words], cwd=folder, stdin=subprocess.DEVNULL, stdout=subprocess.PIPE, stderr=subprocess.PIPE, text=True)


def run(program, folder, *words):
    """A run's status, its output and its line of fault."""
    running = begin(program, folder, *words)
    text, fault = running.communicate()
    return running.returncode, text, fault


def shown(program, folder, what):
    status, text, fault = run(program, folder, "show", QUERY)
    if status != 0:
        raise SystemExit(f"{what}: show ends with status {status}, {fault.strip()}")
    return text


def added(program, folder, name):
    """Adds a file where nothing disturbs it, and gives the seconds that it took."""
    begun = time.monotonic()
    status, _, fault = run(program, folder, "add", QUERY, name)
    if status != 0:
        raise SystemExit(f"adding {name}: status {status}, {fault.strip()}")
    return time.monotonic() - begun


def kill_runs(program, folder, kills):
    """Kills additions at random moments, and gives how many of them were in nevertheless, and the additions that are."""
    name, rows = made_file(folder, 0)
    whole, held, survived = added(program, folder, name), [rows], 0
    for number in range(1, kills + 1):
        name, rows = made_file(folder, number)
        running = begin(program, folder, "add", QUERY, name)
        time.sleep(random.random() * whole * 1.2)
        running.send_signal(signal.SIGKILL)
        running.communicate()
        ended, text = running.returncode == 0, shown(program, folder, f"after kill {number}")
        if text == answer_over([*held, rows]):
            held.append(rows)
            survived += 1
        elif ended or text != answer_over(held):
            raise SystemExit(f"after kill {number}: show gives another answer")
        os.remove(os.path.join(folder, name))
    return survived, held


def last_frame(log):
    """Where the entry of the last frame of a log begins."""
    at = begun = 0
    while at < len(log):
        begun, at = at, at + LENGTH_BYTES + int.from_bytes(log[at : at + LENGTH_BYTES], "big")
    return begun


def cut_logs(program, folder):
    """Cuts a log at every byte of its last frame, and gives how many cuts there were."""
    rows = [[(1, 5), (2, 6)], [(1, 7)]]
    for number, some in enumerate(rows):
        with open(os.path.join(folder, "few.csv"), "w", encoding="ascii") as file:
            file.write("k,v\n" + "".join(f"{k},{v}\n" for k, v in some))
        added(program, folder, "few.csv")
    path = os.path.join(folder, LOG)
    with open(path, "rb") as file:
        log = file.read()
    begun = last_frame(log)
    for end in range(begun, len(log)):
        with open(path, "wb") as file:
            file.write(log[:end])
        if shown(program, folder, f"cut at byte {end}") != answer_over(rows[:1]):
            raise SystemExit(f"cut at byte {end}: show gives another answer")
        if os.path.getsize(path) != begun:
            raise SystemExit(f"cut at byte {end}: the torn end is left")
    return len(log) - begun


def both_at_once(program, folder, turns):
    """Adds twice at once, and gives how often both were in."""
    held, both = [], 0
    for turn in range(turns):
        made = [made_file(folder, 2 * turn + part) for part in range(2)]
        running = [begin(program, folder, "add", QUERY, name) for name, _ in made]
        faults = [it.communicate()[1] for it in running]
        ended = [it.returncode for it in running]
        if any(status not in (0, 8) for status in ended) or 0 not in ended:
            raise SystemExit(f"two additions at once end with {ended}, {faults}")
        done = [rows for (_, rows), status in zip(made, ended) if status == 0]
        held += done
        both += len(done) == 2
        if shown(program, folder, "two additions at once") != answer_over(held):
            raise SystemExit("two additions at once: show gives another answer")
    return both


def main():
    program = os.path.abspath(sys.argv[1] if len(sys.argv) > 1 else os.path.expanduser(SHIPPED))
    if not os.access(program, os.X_OK):
        raise SystemExit(f"{program} is no program; scripts/build.sh builds and installs it")
    kills = int(sys.argv[2]) if len(sys.argv) > 2 else 200
    with tempfile.TemporaryDirectory() as folder:
        survived, held = kill_runs(program, folder, kills)
        print(f"kill_summary: {kills} additions killed, {survived} of them were in; each show after them gave the answer of {len(held)} at the end")
    with tempfile.TemporaryDirectory() as folder:
        print(f"kill_summary: a log cut at each of {cut_logs(program, folder)} bytes gave the answer without the last addition")
    with tempfile.TemporaryDirectory() as folder:
        turns = 40
        print(f"kill_summary: {turns} times two additions at once, both in {both_at_once(program, folder, turns)} times")


main()
