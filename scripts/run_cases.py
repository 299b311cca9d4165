#!/usr/bin/env python3
"""Runs the cases below cases/ on built programs, and says in a line each where a run differs from what its case says.

usage: scripts/run_cases.py [PROGRAM..], where the programs are those that `rt ci` leaves in the folders crates/NAME/out if none is named.
cases/README.md says what a case is. A case is run on the programs of its name alone, with or without an ending such as `.by-rattle`.
Each run has a fresh folder, and is nobody's where this script is root's.
"""

import contextlib
import os
import shutil
import subprocess
import sys
import tempfile
import threading
from concurrent.futures import ThreadPoolExecutor

ROOT = os.path.dirname(os.path.dirname(os.path.abspath(__file__)))
CASES = os.path.join(ROOT, "cases")
NAMES = ["group_tool", "rollup_tool", "lavzimo", "summary_tool"]
BUILT = [os.path.join(ROOT, "crates", name, "out", name + ending) for name in NAMES for ending in ("", ".by-rattle")]
CHOSEN = os.path.join(ROOT, "bench/chosen_keys.py")
PARTS = {"program", "args", "options", "stdin", "chosen", "seconds", "stdout", "stderr", "status", "files", "made", "fed", "left", "unread"}
NOBODY = 65534
AS_NOBODY = ["setpriv", f"--reuid={NOBODY}", f"--regid={NOBODY}", "--clear-groups", "--no-new-privs"]
SECONDS = 60
LONGEST = 200
MEGABYTE = 1 << 20


# ---- what a case says


def read(path):
    """The bytes of a part of a case, none where it isn't there."""
    if not os.path.exists(path):
        return b""
    with open(path, "rb") as file:
        return file.read()


def lines(path):
    """The lines of a part of a case, each without its end."""
    text = read(path)
    return text.removesuffix(b"\n").split(b"\n") if text else []


def files_below(folder):
    """The plain files below a folder, by their names there, with their bytes."""
    found = {}
    for at, _, names in os.walk(folder):
        for path in (os.path.join(at, name) for name in names):
            if os.path.isfile(path):
                found[os.path.relpath(path, folder)] = read(path)
    return found


def all_cases():
    """The folders of the cases, cases/SUBJECT/NAME."""
    subjects = [entry.path for entry in os.scandir(CASES) if entry.is_dir()] if os.path.isdir(CASES) else []
    return sorted(entry.path for subject in subjects for entry in os.scandir(subject) if entry.is_dir())


def program_of(case):
    """The name of the program that a case is for."""
    return read(os.path.join(case, "program")).decode().strip() or NAMES[0]


def fault_of(case):
    """What is wrong with a case itself, if anything is."""
    parts = set(os.listdir(case))
    if program_of(case) not in NAMES:
        return f"it is for {program_of(case)}, which is no program"
    if "args" not in parts:
        return "it has no args"
    if parts - PARTS:
        return f"it has a part of no known name, {', '.join(sorted(parts - PARTS))}"
    return None


# ---- one run


def feed(path, text, count):
    """Writes a text into a named pipe, once it is opened to be read, and behind it blanks up to so many bytes."""
    try:
        with open(os.open(path, os.O_WRONLY), "wb") as pipe:
            pipe.write(text)
            for done in range(len(text), count, MEGABYTE):
                pipe.write(b" " * min(MEGABYTE, count - done))
    except BrokenPipeError:
        pass


def make(case, folder):
    """Lays a case's files into the folder of a run, and answers who feed its named pipes, and which files get a mode; of how many bytes those are that are made, which aren't among what is left."""
    feeders, modes = {}, []
    if os.path.isdir(os.path.join(case, "files")):
        shutil.copytree(os.path.join(case, "files"), folder, dirs_exist_ok=True)
    for line in lines(os.path.join(case, "made")):
        kind, name = line.decode().split(" ", 1)
        path = os.path.join(folder, name)
        if kind == "folder":
            os.mkdir(path)
        elif kind in ("pipe", "long"):
            count, name = name.split(" ", 1) if kind == "long" else (0, name)
            path = os.path.join(folder, name)
            os.mkfifo(path)
            feeders[path] = threading.Thread(target=feed, args=(path, read(os.path.join(case, "fed", name)), int(count)))
        elif kind == "closed":
            os.close(os.open(path, os.O_CREAT, 0o600))
            modes.append((path, 0, 0))
        elif kind == "fixed":
            modes.append((path, 0o444, None))
        elif kind == "sparse":
            count, name = name.split(" ", 1)
            path = os.path.join(folder, name)
            with open(path, "wb") as file:
                file.truncate(int(count))
            modes.append((path, 0o600, int(count)))
        else:
            raise SystemExit(f"{case}: made has the line {line.decode()!r}")
    return feeders, modes


def give_to_nobody(folder):
    for at, _, names in os.walk(folder):
        for path in (at, *(os.path.join(at, name) for name in names)):
            os.chown(path, NOBODY, NOBODY)


def pipe_without_a_reader(opened):
    """The end of a pipe into which is written, and whose other end is closed."""
    reader, writer = os.pipe()
    os.close(reader)
    opened.callback(os.close, writer)
    return writer


def ended(words, folder, given, seconds, unread):
    """What a run ends with: its status, its output and its line of fault. It is given the bytes of a pipe, or a file's name, and some time."""
    environment = {"PATH": os.environ["PATH"], "HOME": folder, "TMPDIR": folder, "LANG": "C.UTF-8"}
    with contextlib.ExitStack() as opened:
        how = {"input": given} if isinstance(given, bytes) else {"stdin": opened.enter_context(open(given, "rb"))}
        how["stdout"] = pipe_without_a_reader(opened) if unread else subprocess.PIPE
        try:
            run = subprocess.run(words, cwd=folder, stderr=subprocess.PIPE, env=environment, timeout=seconds, check=False, **how)
        except subprocess.TimeoutExpired:
            return f"none in {seconds} seconds", b"", b""
    return run.returncode, run.stdout or b"", run.stderr


def end_in(case, folder, words, given):
    """What a run in a folder ends with, and the files that lie there then."""
    feeders, modes = make(case, folder)
    prefix = []
    if os.geteuid() == 0:
        give_to_nobody(folder)
        prefix = AS_NOBODY
    for path, mode, _ in modes:
        os.chmod(path, mode)
    for feeder in feeders.values():
        feeder.start()
    seconds, unread = int(read(os.path.join(case, "seconds")) or SECONDS), os.path.exists(os.path.join(case, "unread"))
    end = ended([*prefix, *words], folder, given, seconds, unread)
    for path, feeder in feeders.items():
        while feeder.is_alive():
            os.close(os.open(path, os.O_RDONLY | os.O_NONBLOCK))
            feeder.join(0.01)
    for path, _, count in modes:
        if count is not None and os.path.getsize(path) == count:
            os.remove(path)
    return (*end, files_below(folder))


# ---- the runs of a case


def due(case):
    """What each run of a case must end with, and the files that must lie in its folder then."""
    status = int(read(os.path.join(case, "status")) or b"0")
    left = {**files_below(os.path.join(case, "files")), **files_below(os.path.join(case, "left"))}
    return status, read(os.path.join(case, "stdout")), read(os.path.join(case, "stderr")), left


def shown(value):
    text = "nothing" if value is None else repr(value)
    return text if len(text) <= LONGEST else text[:LONGEST] + ".."


def differences(end, wanted):
    """In which part a run's end differs from what is due, in words."""
    for part, found, one in zip(("status", "stdout", "stderr"), end, wanted):
        if found != one:
            yield f"{part} is {shown(found)}, and not {shown(one)}"
    found, left = end[3], wanted[3]
    for name in sorted(found.keys() | left.keys()):
        if found.get(name) != left.get(name):
            yield f"left {name} is {shown(found.get(name))}, and not {shown(left.get(name))}"


def inputs_of(case):
    """The ways to give a case its standard input."""
    chosen = read(os.path.join(case, "chosen")).decode().split()
    if chosen:
        return [(" of chosen keys", subprocess.run([sys.executable, CHOSEN, *chosen], capture_output=True, check=True).stdout)]
    path = os.path.join(case, "stdin")
    if not os.path.exists(path):
        return [("", os.devnull)]
    return [(" fed by a pipe", read(path)), (" fed by a file", path)]


def failures(case, program, room):
    """The lines that tell of the runs of a case on a program which differ from what is due."""
    wanted, name = due(case), os.path.relpath(case, CASES)
    for options in lines(os.path.join(case, "options")) or [b""]:
        words = [program, *options.split(), *lines(os.path.join(case, "args"))]
        for way, given in inputs_of(case):
            with tempfile.TemporaryDirectory(dir=room) as folder:
                found = list(differences(end_in(case, folder, words, given), wanted))
            if found:
                with_options = " ".join(["", *options.decode().split()])
                yield f"{name}{with_options}{way}, {os.path.basename(program)}: {'; '.join(found)}"


def told_of(case, programs, room):
    """The lines that tell what is wrong with a case and its runs."""
    fault = fault_of(case)
    if fault:
        return [f"{os.path.relpath(case, CASES)}: {fault}"]
    mine = [program for program in programs if os.path.basename(program).split(".")[0] == program_of(case)]
    return [line for program in mine for line in failures(case, program, room)]


def copied(programs, room):
    """The programs, copied to where the user nobody can run them."""
    for number, program in enumerate(programs):
        folder = os.path.join(room, f"program-{number}")
        os.mkdir(folder)
        yield shutil.copy(program, os.path.join(folder, os.path.basename(program)))
        os.chmod(folder, 0o755)


def main():
    programs = [os.path.abspath(it) for it in sys.argv[1:]] or [it for it in BUILT if os.path.exists(it)]
    for program in programs:
        if not os.access(program, os.X_OK) or os.path.isdir(program):
            raise SystemExit(f"run_cases: {program} is no program")
    named = {os.path.basename(program).split(".")[0] for program in programs}
    cases = [case for case in all_cases() if fault_of(case) or program_of(case) in named]
    if not programs:
        raise SystemExit("run_cases: no program is built; `rt ci` builds them, or `rt run` in the folder of a program below crates/")
    if not cases:
        raise SystemExit("run_cases: there is no case")
    with tempfile.TemporaryDirectory(prefix="run-cases-") as room:
        os.chmod(room, 0o711)
        copies = list(copied(programs, room))
        with ThreadPoolExecutor(len(os.sched_getaffinity(0))) as pool:
            told = list(pool.map(lambda case: told_of(case, copies, room), cases))
    for line in (line for found in told for line in found):
        print(line)
    failed = sum(bool(found) for found in told)
    print(f"{len(cases) - failed} cases passed, {failed} failed")
    return 1 if failed else 0


sys.exit(main())
