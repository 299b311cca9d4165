#!/usr/bin/env bash
# Builds programs and installs them into a folder: the first argument, or ~/.local/bin. The further arguments are their
# names; without one it is group_tool.
# Only a proved program is built, so the first build on a machine takes some minutes. Crates are proved side by side, as
# many as processors and memory allow; RT_JOBS=1 in the environment proves one after another. What is proved is kept for
# scripts/test.sh.
set -eu
folder=${1:-"$HOME/.local/bin"}
shift || true
cd "$(dirname "$0")/.."

# All that programs are made of, and the toolchain that proves it.
sum=$({ rt version; find crates.txt crates -name out -prune -o -type f \( -name crates.txt -o -name '*.rt' -o -name '*.antt' \) -print0 | sort -z | xargs -0 sha256sum; } | sha256sum)

tree=
trap '[ -z "$tree" ] || rm -rf "$tree" "$tree.log"' EXIT

# Proves and builds a program into its crate's out/, unless that is done.
build() {
    local program=$1 made=crates/$1/out apart
    if [ -x "$made/$program" ] && [ "$(cat "$made/built" 2>/dev/null)" = "$sum" ]; then
        return
    fi
    tree=$(mktemp -d)
    chmod 711 "$tree"
    apart=$(python3 scripts/tree_below.py "$program" "$tree")
    echo "proving and building $program" >&2
    # First the crates that can be proved side by side, one on each processor; then the chain above them, for which rt gives
    # one crate several processors, as it does where it isn't told how many.
    (source scripts/jobs.sh && cd "$tree" && rt ci $apart 2>&1) | grep --line-buffered -E '^rt: .* proved' >&2 || true
    if ! (cd "$tree" && rt ci 2>&1) | tee "$tree.log" | grep --line-buffered -E '^rt: .* (proved|is kept)' >&2 || ! tail -n 1 "$tree.log" | grep -q ' passed, 0 failed'; then
        tail -n 20 "$tree.log" >&2
        echo "build.sh: $program was not built" >&2
        exit 1
    fi
    mkdir -p "$made"
    install -m 755 "$tree/$made/$program" "$made/$program"
    echo "$sum" >"$made/built"
    rm -rf "$tree" "$tree.log"
    tree=
}

mkdir -p "$folder"
for program in "${@:-group_tool}"; do
    build "$program"
    install -m 755 "crates/$program/out/$program" "$folder/$program"
    echo "installed $folder/$program" >&2
done
