#!/usr/bin/env bash
# The paths with more than so many bytes in all, by jq out of lines of JSON. (jq before 1.7 rounds numbers above 2^53.)
# usage: examples/into_jq.sh BYTES FILE..
set -euo pipefail
bytes=$1
shift
lavzimo --by path --sum bytes --mean latency --format json "$@" | jq -r --argjson least "$bytes" 'select(.sum_bytes > $least) | "\(.path): \(.sum_bytes) bytes, \(.mean_latency) ms"'
