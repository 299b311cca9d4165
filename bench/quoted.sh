#!/usr/bin/env bash
# Times group_tool on a million rows with quotes: every value quoted, by ten numbers and by a hundred texts, and
# numbers of which one row in a hundred is quoted. The arguments are the programs, ~/.local/bin/group_tool if none is named. Nine runs of each, interleaved, the
# least time and the median; all answer alike.
set -eu
[ $# -gt 0 ] || set -- "$HOME/.local/bin/group_tool"
folder=$(mktemp -d)
trap 'rm -rf "$folder"' EXIT

measure() { # a name, of how many rows one is quoted, a program of mawk that makes keys, the keys' type, then the programs
    local name=$1 each=$2 keys=$3 type=$4 rows=$folder/$1.csv query start end
    shift 4
    mawk -v each="$each" "BEGIN{srand(1); print \"k,v\"; for(i=0;i<1000000;i++) {q = i % each ? \"\" : \"\\\"\"; print q $keys q \",\" q int(rand()*100000) q}}" >"$rows"
    query='{"schema":[["k","'$type'"],["v","Int64"]],"keys":["k"],"aggs":[{"alias":[{"sum":"v"},"s"]}]}'
    rm -f "$folder"/times.* "$folder/first"
    for _ in 1 2 3 4 5 6 7 8 9; do
        for number in $(seq $#); do
            start=$(date +%s.%N)
            "${!number}" "$query" "$rows" >"$folder/out"
            end=$(date +%s.%N)
            echo "$end $start" | mawk '{printf "%.3f\n", $1 - $2}' >>"$folder/times.$number"
            [ -e "$folder/first" ] || cp "$folder/out" "$folder/first"
            cmp -s "$folder/out" "$folder/first" || { echo "quoted.sh: the answers differ" >&2; exit 1; }
        done
    done
    for number in $(seq $#); do
        echo "$name, ${!number}: least $(sort -n "$folder/times.$number" | sed -n 1p) s, median $(sort -n "$folder/times.$number" | sed -n 5p) s"
    done
}

measure numbers 1 '1000+int(rand()*10)' Int64 "$@"
measure texts 1 '"group_" int(rand()*100)' String "$@"
measure mixed 100 '1000+int(rand()*10)' Int64 "$@"
