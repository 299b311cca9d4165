#!/usr/bin/env bash
# Prints the state of files of CSV whose positions go on where those of an earlier state end: its bytes 4 to 7 tell where.
#
# usage: examples/rollup_next.sh QUERY STATE FILE..
set -euo pipefail

query=$1
first=$(od -A n -j 4 -N 4 -t u4 --endian=big "$2" | tr -d ' ')
shift 2
"${ROLLUP_TOOL:-rollup_tool}" save "$query" "$first" "$@"
