#!/usr/bin/env bash
# Tests everything: the pages against the tree; every proof, edit, test and program; the cases, on what was built then.
# It goes on where one of the three fails, and then ends with 1.
# With fewer than four processors the edits are left out, and it says so: they are a third of the work.
cd "$(dirname "$0")/.." || exit 1
failed=0
scripts/check_docs.sh || failed=1
source scripts/jobs.sh
if [ "$(nproc)" -ge 4 ]; then
    rt ci || failed=1
    scripts/run_cases.py || failed=1
else
    echo "test.sh: $(nproc) processors, so the edits are left out"
    copy=$(mktemp -d) && chmod 711 "$copy"
    tar --exclude=./.git --exclude=out --exclude=must-fail -c . | tar -x -C "$copy"
    (cd "$copy" && rt ci) || failed=1
    shopt -s nullglob
    scripts/run_cases.py "$copy"/crates/*/out/{group_tool,rollup_tool,lavzimo}{,.by-rattle} || failed=1
    rm -rf "$copy"
fi
exit "$failed"
