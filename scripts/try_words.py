#!/usr/bin/env python3
"""Runs a built program with faulty words and files, a word that is no UTF-8 among them, and says where a status or a line is another.
Standard input is a pipe, a file and nothing in turn.

usage: scripts/try_words.py [PROGRAM], where PROGRAM is ~/.local/bin/group_tool if it is left out.
"""

import os
import subprocess
import sys
import tempfile

from trial_runs import QUERY, program_of

REFUSED = (2, b"words refused\n")
WORDS = [
    ([], REFUSED),
    ([b"\xff"], REFUSED),
    ([QUERY, b"\xff", "--chunk", "0"], REFUSED),
    (["--help"], REFUSED),
    (["--version"], REFUSED),
    (["--unknown", "1", QUERY], REFUSED),
    (["--chunk", "2", "--chunk", "3", QUERY], REFUSED),
    (["--chunk", "123456789012345678901", QUERY], REFUSED),
    (["--chunk", "0", QUERY], REFUSED),
    (["--rows", "-1", QUERY], REFUSED),
    ([QUERY, "--chunk"], REFUSED),
    (["--format", "xml", QUERY], REFUSED),
    (["--generate", "4294967296"], REFUSED),
    (["--generate", "7", "--rows", "10000001"], REFUSED),
    (["--generate", "7", "good.csv"], REFUSED),
    (["--generate", "7", "--sink", "text"], (2, b"sink does not fit\n")),
    (["--sink", "text", QUERY], (2, b"sink does not fit\n")),
    (["{"], (3, b"query refused: json\n")),
    (["[]"], (3, b"query refused: shape\n")),
    ([QUERY, "missing.csv"], (4, b"file 1: missing\n")),
    ([QUERY, "good.csv", "missing.csv"], (4, b"file 2: missing\n")),
    ([QUERY, "empty.csv"], (4, b"file 1: header\n")),
    ([QUERY, "."], (5, b"input failed\n")),
    (["--rows", "1", QUERY, "good.csv", "missing.csv"], (0, b"")),
    (["--", QUERY, "good.csv"], (0, b"")),
    ([QUERY, "quote.csv"], (0, b"")),
]
FILES = {"good.csv": b"k,v\n1,5\n", "empty.csv": b"", "quote.csv": b'k,v\n1,"5'}
# What standard input has where the words name all that is read.
UNREAD = b"k,v\n2,6\n"
# Texts by themselves, with what becomes of them.
TEXTS = [
    (b"k,v\n1,5\n", (0, b"")),
    (b'k,v\n1,"5', (0, b"")),
    (b"", (4, b"file 1: header\n")),
    (b"k,w\n1,5\n", (4, b"file 1: header\n")),
    (b"k,v\n1,5\n2,12x\n", (4, b"file 1 row 2 column 2: field\n")),
    (b"k,v\n1,5\n2\n", (4, b"file 1 row 2: width\n")),
]


def fed(text, folder):
    """The ways in which standard input has a text: a pipe, a file, and nothing where the text is empty."""
    path = os.path.join(folder, "fed.txt")
    with open(path, "wb") as file:
        file.write(text)
    yield "a pipe", {"input": text}
    with open(path, "rb") as file:
        yield "a file", {"stdin": file}
    if not text:
        yield "nothing", {"stdin": subprocess.DEVNULL}


def trials(folder):
    """Each run: its words, how it is fed, and its status and line."""
    for words, due in WORDS:
        for text in (UNREAD, b""):
            for name, how in fed(text, folder):
                yield words, name, how, due
    for text, due in TEXTS:
        with open(os.path.join(folder, "text.csv"), "wb") as file:
            file.write(text)
        yield [QUERY, "text.csv"], "nothing", {"stdin": subprocess.DEVNULL}, due
        for words in ([QUERY], [QUERY, "-"]):
            for name, how in fed(text, folder):
                yield words, name, how, due


def main():
    program = program_of(sys.argv[1:])
    wrong = count = 0
    with tempfile.TemporaryDirectory() as folder:
        for name, text in FILES.items():
            with open(os.path.join(folder, name), "wb") as file:
                file.write(text)
        for words, name, how, (status, line) in trials(folder):
            run = subprocess.run([program, *words], cwd=folder, **how, capture_output=True, check=False)
            answer = b"k,s,c,f\n1,5,1,5\n" if status == 0 else b""
            count += 1
            if (run.returncode, run.stderr, run.stdout) != (status, line, answer):
                print(f"{words}, fed by {name}: status {run.returncode}, {run.stderr}, {run.stdout}")
                wrong += 1
    print(f"try_words: {count - wrong} of {count} as due")
    return 1 if wrong else 0


sys.exit(main())
