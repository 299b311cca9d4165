#!/usr/bin/env bash
# What the amounts of a column, which have two decimals, come to, in cents; and how many rows and amounts there are.
# usage: examples/sum_of_money.sh KEYS COLUMN FILE..
set -euo pipefail
keys=$1 column=$2
shift 2
mlr --csv put '$cents = sub(string($['"\"$column\""']), "^(-?[0-9]+)\.([0-9]{2})$", "\1\2")' "$@" | lavzimo --by "$keys" --count --count-of cents --sum cents
