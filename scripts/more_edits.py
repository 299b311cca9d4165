"""Tries the edits of crates/NAME/more-edits, which the gate leaves out: the prover must refuse each.

usage: scripts/more_edits.py [NAME..]; without a name the edits of all crates are tried.
`rt ci NAME..` tries what stands in must-fail/. So it runs in a copy of the tree where each crate's more-edits/ stands as its must-fail/. What an earlier `rt ci` proved on this machine is kept, in whatever folder it ran, and needs no new proof; the rest is proved first.
It prints the lines of rt, and last 'N refused, M not'. The status is 0 where each edit is refused, and none of the named crates is without.
"""

import os
import re
import shutil
import subprocess
import sys
import tempfile

from edits import MORE, TRIED, files_in

ROOT = os.path.dirname(os.path.dirname(os.path.abspath(__file__)))
SAID = re.compile(r"rt: must-fail (\w+/[\w.-]+): (refused, as it must be)?")


def copy_tree(to):
    """Copies the tree without what git and checks keep, and without edits."""
    shutil.copytree(ROOT, to, symlinks=True, ignore=shutil.ignore_patterns(".git", "out", TRIED, MORE))


def try_all(tree, names):
    """Runs rt over the named crates of a tree, prints what it says, and answers its status and what it said of each edit: whether it was refused."""
    said = {}
    how = {"cwd": tree, "stdin": subprocess.DEVNULL, "stdout": subprocess.PIPE, "stderr": subprocess.STDOUT}
    with subprocess.Popen(["rt", "ci", *names], text=True, errors="replace", **how) as rt:
        for line in rt.stdout:
            print(line, end="", flush=True)
            match = SAID.match(line)
            if match:
                said[match.group(1)] = bool(match.group(2))
    return rt.returncode, said


def crates_with(names):
    """The crates of these names, or all, with their edits; those that have none are left out and told."""
    known = sorted(os.listdir(os.path.join(ROOT, "crates")))
    found = {crate: files_in(ROOT, crate, MORE) for crate in names or known}
    for crate in names:
        if not found[crate]:
            print(f"more_edits: nothing to try in crates/{crate}/{MORE}", file=sys.stderr)
    return {crate: edits for crate, edits in found.items() if edits}


def main():
    names = sys.argv[1:]
    found = crates_with(names)
    wanted = [f"{crate}/{edit}" for crate, edits in found.items() for edit in edits]
    status, said = 0, {}
    if wanted:
        with tempfile.TemporaryDirectory(prefix="more-edits-") as room:
            tree = os.path.join(room, "tree")
            copy_tree(tree)
            for crate in found:
                shutil.copytree(os.path.join(ROOT, "crates", crate, MORE), os.path.join(tree, "crates", crate, TRIED))
            status, said = try_all(tree, list(found))
    refused = [edit for edit in wanted if said.get(edit)]
    for edit in wanted:
        if edit not in said:
            print(f"more_edits: {edit} was not tried")
    print(f"{len(refused)} refused, {len(wanted) - len(refused)} not")
    return 1 if status or not wanted or len(refused) < len(wanted) or set(names) - set(found) else 0


sys.exit(main())
