#!/usr/bin/env bash
# Seconds and peak memory of group_tool over rows of many keys, with and without spilling to a disk. Arguments: the program
# (~/.local/bin/group_tool by default), rows (10000000), keys (1000000), and a folder on the disk (a new one below /tmp).
set -eu
tool=${1:-"$HOME/.local/bin/group_tool"}
rows=${2:-10000000}
keys=${3:-1000000}
folder=$(mktemp -d "${4:-/tmp}/memory-XXXXXX")
trap 'rm -rf "$folder"' EXIT
mkdir "$folder/spilled"
mawk -v rows="$rows" -v keys="$keys" 'BEGIN {
    srand(1); print "k,v"
    for (i = 0; i < rows; i++) print int(rand() * keys) "," int(rand() * 1000)
}' >"$folder/rows.csv"
exec python3 - "$tool" "$folder" <<'PYTHON'
import hashlib, os, subprocess, sys, time

tool, folder = sys.argv[1:]
QUERY = '{"schema":[["k","Int64"],["v","Int64"]],"keys":["k"],"aggs":[{"alias":[{"sum":"v"},"s"]}]}'
ALL = ["--spill-size", "18446744073709551615"]
FOUR = ["--workers", "4", "--partitions", "16"]
DISK = ["--spill-dir", os.path.join(folder, "spilled")]
RUNS = [
    ("nothing overflows, 1 worker", ALL),
    ("default limits, 1 worker", []),
    ("4 workers, 16 partitions", FOUR),
    ("4 workers, 16 partitions, a merge after each turn", [*FOUR, "--actions", "m*"]),
    ("4 workers, 16 partitions, a dump after each turn, to a disk", [*FOUR, "--actions", "d*", *DISK]),
    ("1 worker, 16 partitions, a dump after each turn, to a disk", ["--partitions", "16", "--actions", "d*", *DISK]),
    (
        "4 workers, 64 partitions, chunks of 5000 rows, each payload dumped to a disk",
        ["--workers", "4", "--partitions", "64", "--payloads", "0", "--chunk", "5000", "--actions", "d*", *DISK],
    ),
]


def answer_of(path):
    """A sum of the rows of an answer, in whatever order."""
    with open(path, "rb") as file:
        return hashlib.sha256(b"".join(sorted(file))).hexdigest()


print("| run | seconds | peak MB |\n|---|---|---|")
answers = set()
for name, words in RUNS:
    out = os.path.join(folder, "out.csv")
    with open(out, "wb") as file:
        start = time.monotonic()
        run = subprocess.Popen([tool, *words, QUERY, os.path.join(folder, "rows.csv")], stdin=subprocess.DEVNULL, stdout=file)
        _, status, usage = os.wait4(run.pid, 0)
        seconds = time.monotonic() - start
    answers.add(answer_of(out))
    end = "" if status == 0 else f", status {os.waitstatus_to_exitcode(status)}"
    print(f"| {name}{end} | {seconds:.1f} | {usage.ru_maxrss // 1024} |", flush=True)
sys.exit("memory.sh: the answers differ" if len(answers) != 1 else 0)
PYTHON
