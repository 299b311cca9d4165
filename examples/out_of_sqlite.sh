#!/usr/bin/env bash
# What rows of a database come to: sqlite3 selects them, as CSV with a header, and hands them on by a pipe.
# usage: examples/out_of_sqlite.sh DATABASE SELECT WORDS..
set -euo pipefail
database=$1 select=$2
shift 2
sqlite3 -csv -header "$database" "$select" | lavzimo "$@"
