"""Copies a crate and those that it stands on into a folder, as a repository of their own without edits.

usage: scripts/tree_below.py CRATE FOLDER
`rt ci` there proves and builds these alone. What it has proved is kept on the machine for every later `rt ci`, in whatever folder.
It prints those of them on which the chain begins: all that doesn't stand on pipe_tables, and pipe_tables. What stands on it is a chain, in
which hardly two can be proved at once.
"""

import os
import shutil
import sys

ROOT = os.path.dirname(os.path.dirname(os.path.abspath(__file__)))
LEFT_OUT = shutil.ignore_patterns("out", "must-fail", "more-edits")


def crates():
    """The crates of crates.txt in order, each with those that its line names."""
    with open(os.path.join(ROOT, "crates.txt"), encoding="utf-8") as file:
        lines = [line.split("#")[0].partition(":") for line in file]
    return {name.strip(): below.split() for name, colon, below in lines if colon}


def with_below(crate, known):
    """A crate and all that it stands on."""
    found, todo = set(), [crate]
    while todo:
        one = todo.pop()
        if one in known and one not in found:
            found.add(one)
            todo += known[one]
    return found


def main():
    crate, folder = sys.argv[1:]
    known = crates()
    wanted = with_below(crate, known)
    with open(os.path.join(folder, "crates.txt"), "w", encoding="utf-8") as file:
        file.writelines(f"{name}: {' '.join(below)}\n" for name, below in known.items() if name in wanted)
    shutil.copy(os.path.join(ROOT, "HANDLES"), folder)
    for name in wanted:
        shutil.copytree(os.path.join(ROOT, "crates", name), os.path.join(folder, "crates", name), symlinks=True, ignore=LEFT_OUT)
    print(*(name for name in known if name in wanted and "pipe_tables" not in with_below(name, known) - {name}))


main()
