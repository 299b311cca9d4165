#!/usr/bin/env bash
# Daily files, DAY.csv, of which each is read once and kept as a state; and what those of a month come to by some keys.
# usage: examples/days_to_months.sh QUERY KEYS STATES MONTH FILE..
set -euo pipefail
query=$1 keys=$2 states=$3 month=$4
shift 4
mkdir -p "$states"
for file in "$@"; do
    day=$(basename "$file" .csv)
    if [ ! -e "$states/$day" ]; then
        # Each day has a hundred thousand positions of its own, more than a file has chunks.
        position=$(($(date -u -d "$day" +%s) / 86400 * 100000))
        rollup_tool save "$query" "$position" "$file" >"$states/part"
        mv "$states/part" "$states/$day"
    fi
done
rollup_tool roll "$query" "$keys" "$states/$month"-*
