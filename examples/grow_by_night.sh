#!/usr/bin/env bash
# A summary that a cron job grows: files that were not added yet are, each once, whatever cuts a run off; and what all come to.
# FOLDER has summary.log, and for each file that is in it a mark, NAME.added: files are told apart by their names without folders.
# usage: examples/grow_by_night.sh QUERY FOLDER FILE..
set -euo pipefail
query=$1 folder=$2
shift 2
mkdir -p "$folder"
on_summary() { (cd "$folder" && summary_tool "$@"); }
size() { stat -c %s "$folder/summary.log"; }

exec 9>"$folder/lock"
flock 9
# Cuts off what an addition left that was cut short.
on_summary show "$query" >/dev/null
for begun in "$folder"/*.begun; do
    [ -e "$begun" ] || continue
    # A file was being added when a run was cut off: it is in the log where that has grown since.
    if [ "$(size)" -gt "$(cat "$begun")" ]; then mv "$begun" "${begun%.begun}.added"; else rm "$begun"; fi
done
for file in "$@"; do
    mark=$folder/$(basename "$file")
    if [ ! -e "$mark.added" ]; then
        size >"$folder/part"
        sync "$folder/part"
        mv "$folder/part" "$mark.begun"
        sync "$folder"
        on_summary add "$query" "$(realpath "$file")"
        mv "$mark.begun" "$mark.added"
    fi
done
on_summary show "$query"
