#!/usr/bin/env bash
# What an access log of nginx or Apache comes to by status and hour: requests, all bytes, and the mean of those of a request.
# usage: examples/log_by_hour.sh LOG..
set -euo pipefail
"$(dirname "$0")/log_csv.sh" "$@" | lavzimo --by status,hour --count --sum bytes --mean bytes
