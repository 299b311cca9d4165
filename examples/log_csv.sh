#!/usr/bin/env bash
# An access log of nginx or Apache as CSV: day, hour, method, path, status and bytes of each request. Lines of another form
# are left out, and how many they are is told.
# usage: examples/log_csv.sh LOG..
set -euo pipefail
export LC_ALL=C
others=$(mktemp)
trap 'rm -f "$others"' EXIT
echo day,hour,method,path,status,bytes
sed -nE 's/^[^[]*\[([^]:]*):([0-9]{2}):[^]]*\] "([^" ]*) ?(([^" \\]|\\.)*)([^"\\]|\\.)*" ([0-9]{3}) ([0-9]*)-?( .*)?$/\1,\2,\3,"\4",\7,\8/
    t request
    w '"$others"'
    d
    :request
    s/\\"/""/g
    p' "$@"
lines=$(wc -l <"$others")
[ "$lines" = 0 ] || echo "log_csv.sh: left out $lines lines" >&2
