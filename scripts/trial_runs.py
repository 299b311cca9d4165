"""What the scripts over the built program share: a made input, its answer, and one run."""

import os
import random
import subprocess

QUERY = (
    '{"schema":[["k","Int64"],["v","Int64"]],"keys":["k"],'
    '"aggs":[{"alias":[{"sum":"v"},"s"]},{"alias":[{"count":"v"},"c"]},{"alias":[{"first":"v"},"f"]}]}'
)


def made_input(path, rows, keys, seed):
    """Writes rows of random keys and values, some of them null, and gives the lines of the answer but its order."""
    chance = random.Random(seed)
    groups = {}
    with open(path, "w", encoding="ascii") as file:
        file.write("k,v\n")
        for _ in range(rows):
            k = chance.randrange(keys)
            v = None if chance.random() < 0.05 else chance.randrange(-1000, 1000)
            file.write(f"{k},{'' if v is None else v}\n")
            group = groups.setdefault(k, [0, 0, v])
            if v is not None:
                group[0] += v
                group[1] += 1
    return sorted(f"{k},{s},{c},{'' if f is None else f}" for k, (s, c, f) in groups.items())


def is_answer(text, due):
    """Whether a program's output has the header and each line that is due once, in whatever order."""
    lines = text.splitlines()
    return lines[:1] == ["k,s,c,f"] and sorted(lines[1:]) == due


def run(program, options, path, **more):
    """One run over a file: its status, its output and its line of fault."""
    words = [program, *options, QUERY, path]
    done = subprocess.run(words, capture_output=True, stdin=subprocess.DEVNULL, text=True, check=False, **more)
    return done.returncode, done.stdout, done.stderr


def program_of(arguments):
    """The program to try: the first argument, or the installed one."""
    found = arguments[0] if arguments else os.path.expanduser("~/.local/bin/group_tool")
    if not os.access(found, os.X_OK):
        raise SystemExit(f"{found} is no program; scripts/build.sh builds and installs it")
    return os.path.abspath(found)
