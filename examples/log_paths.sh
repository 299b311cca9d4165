#!/usr/bin/env bash
# The paths of an access log of nginx or Apache with most bytes.
# usage: examples/log_paths.sh LIMIT LOG..
set -euo pipefail
limit=$1
shift
"$(dirname "$0")/log_csv.sh" "$@" | lavzimo --by path --count --sum bytes --order -sum_bytes --limit "$limit"
