#!/usr/bin/env bash
# Builds the library for C as scripts/build_c.sh does, and tries it: the programs of examples/c over small CSVs, and the tests
# of the Python package. LAVZIMO_LIB in the environment names a built library instead.
set -eu
cd "$(dirname "$0")/.."
room=$(mktemp -d)
trap 'rm -rf "$room"' EXIT
if [ -z "${LAVZIMO_LIB:-}" ]; then
    scripts/build_c.sh "$room"
    export LAVZIMO_LIB=$room/liblavzimo.so
fi
python3 -c 'import pathlib, re
page = pathlib.Path("include/lavzimo.h").read_text()
names = set(re.findall(r"\blavzimo_\w+(?=\()", page))
built = set(re.findall(r" T (\w+)", __import__("subprocess").run(["nm", "-D", __import__("os").environ["LAVZIMO_LIB"]], capture_output=True, text=True, check=True).stdout))
assert names == built, (names, built)'

for name in group roll_up; do
    cc -std=c11 -Wall -Wextra -Werror -Iinclude -o "$room/$name" "examples/c/$name.c" "$LAVZIMO_LIB" "-Wl,-rpath,$(dirname "$LAVZIMO_LIB")"
done
query='{"schema":[["k","Int64"],["v","Int64"]],"keys":["k"],"aggs":[{"alias":[{"sum":"v"},"s"]}]}'
printf 'k,v\n1,5\n2,6\n1,7\n' | "$room/group" "$query" | diff - <(printf 'k,s\n1,12\n2,6\n')
status=0
printf 'k,v\n1,5\n2\n' | "$room/group" "$query" 2>"$room/line" || status=$?
[ "$status" = 4 ] && diff "$room/line" <(echo 'file 1 row 2: width')

printf 'k,v\n1,5\n2,6\n' >"$room/a.csv"
printf 'k,v\n1,7\n' >"$room/b.csv"
"$room/roll_up" "$query" '["k"]' "$room/a.csv" "$room/b.csv" | diff - <(printf 'k,s\n1,12\n2,6\n')
status=0
"$room/roll_up" "$query" '["v"]' "$room/a.csv" 2>"$room/line" || status=$?
[ "$status" = 14 ] && diff "$room/line" <(echo 'keys refused')

PYTHONPATH=python python3 -m unittest discover -s python/tests
echo "try_library.sh: the example and the tests of the package passed"
