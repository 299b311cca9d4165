"""A program of which the allocation of a number is refused: it is built once, and each number is put into it.

`rt try --fail-alloc N` builds a program, or a crate's tests, without a proof, and refuses the allocation of number N. It is asked for a number that no run reaches; the number stands in the program that it makes, and each other number is put in its place.
"""

import os
import re
import struct
import subprocess
import sys
import time

ROOT = os.path.dirname(os.path.dirname(os.path.abspath(__file__)))
UNREACHED = 7238910461234


def program_below(folder):
    """The program that `rt try` has made below a folder, if it is there yet."""
    for at, _, names in os.walk(folder):
        if "program" in names:
            return os.path.join(at, "program")
    return None


def built(crate, folder, words):
    """The program which `rt try` makes of a crate below a folder and removes as it ends, and the places of the number in it."""
    kept = os.path.join(folder, "kept")
    command = ["rt", "try", *words, "--fail-alloc", str(UNREACHED)]
    with open(os.path.join(folder, "said"), "w+", encoding="utf-8") as said:
        at = os.path.join(ROOT, "crates", crate)
        making = subprocess.Popen(command, cwd=at, env=dict(os.environ, TMPDIR=folder), stdin=subprocess.DEVNULL, stdout=said, stderr=said)
        while making.poll() is None:
            made = None if os.path.exists(kept) else program_below(folder)
            if made:
                os.link(made, kept)
            time.sleep(0.005)
        said.seek(0)
        told = said.read()
    if not os.path.exists(kept):
        sys.exit(f"{crate}: rt made no program\n{told}")
    with open(kept, "rb") as file:
        places = [found.start() for found in re.finditer(re.escape(struct.pack("<Q", UNREACHED)), file.read())]
    if not places:
        sys.exit(f"{crate}: the number of the refused allocation isn't in the program")
    return kept, places


def refuse(program, places, number):
    """Puts the number of the refused allocation into a program."""
    with open(program, "r+b") as file:
        for place in places:
            file.seek(place)
            file.write(struct.pack("<Q", number))


def spans(answers):
    """The answers by the number of the refused allocation, from 1 on, each with the numbers that gave it."""
    found = []
    for number, answer in enumerate(answers, 1):
        if found and found[-1][2] == answer:
            found[-1][1] = number
        else:
            found.append([number, number, answer])
    return [f"{a} to {b}: {answer}" if a != b else f"{a}: {answer}" for a, b, answer in found]
