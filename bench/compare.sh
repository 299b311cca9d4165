#!/usr/bin/env bash
# Times group_tool beside mawk on a million rows: by ten numbers, and by a hundred texts. Five runs
# each, interleaved, medians. The argument is the program, ~/.local/bin/group_tool by default.
set -eu
tool=${1:-"$HOME/.local/bin/group_tool"}
folder=$(mktemp -d)
trap 'rm -rf "$folder"' EXIT

seconds() { # the wall time of a command that reads some rows: a file, then the command
    local rows=$1 start end
    shift
    start=$(date +%s.%N)
    "$@" <"$rows" >"$folder/out"
    end=$(date +%s.%N)
    echo "$end $start" | mawk '{printf "%.3f\n", $1 - $2}'
}

compare() { # a name, a program of mawk that makes rows, a query, and a program of mawk that answers it
    local name=$1 rows=$folder/$1.csv
    mawk "BEGIN{srand(1); print \"k,v\"; for(i=0;i<1000000;i++) print $2 \",\" int(rand()*100000)}" >"$rows"
    rm -f "$folder/tool" "$folder/mawk"
    for _ in 1 2 3 4 5; do
        seconds "$rows" "$tool" "$3" >>"$folder/tool"
        sort "$folder/out" >"$folder/tool.out"
        seconds "$rows" mawk -v CONVFMT=%.0f -F, "$4" >>"$folder/mawk"
        sort "$folder/out" >"$folder/mawk.out"
    done
    grep -v '^k,' "$folder/tool.out" | cmp -s - "$folder/mawk.out" || { echo "compare.sh: the answers differ" >&2; exit 1; }
    for program in tool mawk; do
        echo "$name, $program: median $(sort -n "$folder/$program" | sed -n 3p) s of $(paste -sd' ' "$folder/$program")"
    done
}

compare numbers '1000+int(rand()*10)' \
    '{"schema":[["k","Int64"],["v","Int64"]],"keys":["k"],"aggs":[{"alias":[{"sum":"v"},"s"]},{"alias":[{"count":"v"},"c"]}]}' \
    'NR>1{s[$1]+=$2;c[$1]++}END{for(k in s)print k","s[k]","c[k]}'
compare texts '"group_" int(rand()*100)' \
    '{"schema":[["k","String"],["v","Int64"]],"keys":["k"],"aggs":[{"alias":[{"sum":"v"},"s"]}]}' \
    'NR>1{s[$1]+=$2}END{for(k in s)print k","s[k]}'
