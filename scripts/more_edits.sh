#!/usr/bin/env bash
# Tries the edits crates/NAME/more-edits/*.edit, which the gate leaves out: the prover must refuse each.
# The arguments are names of crates; without one the edits of all crates are tried. The last line is 'N refused, M not'.
source "$(dirname "$0")/jobs.sh"
exec python3 "$(dirname "$0")/more_edits.py" "$@"
