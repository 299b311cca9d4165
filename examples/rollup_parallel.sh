#!/usr/bin/env bash
# Rolls up files of CSV with GNU parallel: saves the groups of each file, as many files at once as there are processors,
# and then asks all saved groups by some of the keys.
#
# usage: examples/rollup_parallel.sh QUERY KEYS FOLDER FILE..
# FOLDER gets the state of each file, by its number from 1 on. File i, from 0, gets its positions from i * 100000 on.
# Options for parallel stand in the variable PARALLEL; its option --sshloginfile names machines that share all these files.
set -euo pipefail

export tool=${ROLLUP_TOOL:-rollup_tool} query=$1 folder=$3
keys=$2
shift 3
mkdir -p "$folder"

save() {
    "$tool" save "$query" "$((($1 - 1) * 100000))" "$2" > "$folder/$1.part" && mv "$folder/$1.part" "$folder/$1.state"
}
export -f save
SHELL=$BASH parallel --env tool,query,folder,save --halt now,fail=1 save '{#}' '{}' ::: "$@"

states=()
for ((number = 1; number <= $#; number++)); do
    states+=("$folder/$number.state")
done
"$tool" roll "$query" "$keys" "${states[@]}"
