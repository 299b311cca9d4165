"""The edits of a crate that turn its meaning, which the prover must refuse: crates/NAME/must-fail/*.edit, which the gate tries, and crates/NAME/more-edits/*.edit, which scripts/more_edits.sh tries.

An edit is a line `file: PATH`, below src/, specs/ or proofs/ of the crate, and pairs of lines `old: TEXT` and `new: TEXT`. Each `old:` text stands in the file exactly once, as the pairs before it made it.
"""

import os
import re

TRIED = "must-fail"
MORE = "more-edits"
NAME = re.compile(r"[A-Za-z0-9_-][A-Za-z0-9_.-]*\.edit")


def files_in(root, crate, folder):
    """The files of a crate's folder of edits, but for pages, in order."""
    at = os.path.join(root, "crates", crate, folder)
    return sorted(name for name in os.listdir(at) if not name.endswith(".md")) if os.path.isdir(at) else []


def text_of(path):
    try:
        with open(path, encoding="utf-8") as file:
            return file.read()
    except (OSError, UnicodeDecodeError):
        return None


def source_of(home, path):
    """The text of a file that an edit may change, or nothing."""
    if path != os.path.normpath(path) or not path.startswith(("src/", "specs/", "proofs/")):
        return None
    return text_of(os.path.join(home, path))


def why_not(root, crate, folder, name):
    """Why an edit can't be applied, with the number of its line, or nothing."""
    home = os.path.join(root, "crates", crate)
    text = text_of(os.path.join(home, folder, name))
    if text is None or not NAME.fullmatch(name):
        return 0, "an edit is a text whose name ends in .edit"
    path, old, pairs, texts = "", "", 0, {}
    for number, line in enumerate(text.split("\n"), 1):
        if line.startswith("file: "):
            path = line.removeprefix("file: ").strip()
            texts.setdefault(path, source_of(home, path))
            if texts[path] is None:
                return number, f"there is no file {path} in crates/{crate}"
        elif line.startswith("old: "):
            old = line.removeprefix("old: ")
        elif line.startswith("new:"):
            if not path or not old:
                return number, "a line new: wants lines file: and old: before it"
            found = texts[path].count(old)
            if found != 1:
                return number, f"its old: text stands in crates/{crate}/{path} {found} times, and not once"
            texts[path] = texts[path].replace(old, line.removeprefix("new:").removeprefix(" "))
            old, pairs = "", pairs + 1
    return None if pairs else (0, "it has no lines old: and new:")
