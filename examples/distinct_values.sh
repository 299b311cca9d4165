#!/usr/bin/env bash
# The distinct values of a column, the most frequent first, and how many there are.
# usage: examples/distinct_values.sh COLUMN FILE..
set -euo pipefail
column=$1
shift
lavzimo --by "$column" --count --order -count "$@"
# A value may have an end of line in it, and a line of JSON has none.
echo "$(lavzimo --by "$column" --format json "$@" | wc -l) values"
