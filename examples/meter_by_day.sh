#!/usr/bin/env bash
# What the meters of each customer came to on each day: hours that were read, all watt-hours, the most of an hour, and the
# readings of the first and the last row. The files may have their columns in any order.
# usage: examples/meter_by_day.sh FILE..
set -euo pipefail
lavzimo --by customer:int,day --count-of wh=hours --sum wh --max wh --first reading --last reading "$@"
