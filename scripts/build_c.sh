#!/usr/bin/env bash
# Proves the library for C and builds liblavzimo.so in the folder that is the argument, or in python/lavzimo, where the
# Python package looks for it, with a link of its name for the loader. It exports the calls of include/lavzimo.h, and no
# other name.
set -eu
cd "$(dirname "$0")/.."
into=$(mkdir -p "${1:-python/lavzimo}" && cd "${1:-python/lavzimo}" && pwd)
(cd crates/lavzimo_c && rt lib)
soname=liblavzimo.so.$(cut -d . -f 1 VERSION)
names=$(mktemp)
trap 'rm -f "$names"' EXIT
printf '{ global: lavzimo_*; local: *; };\n' >"$names"
cc -shared -o "$into/liblavzimo.so" "-Wl,--version-script=$names" "-Wl,-soname,$soname" \
    -Wl,--whole-archive crates/lavzimo_c/out/liblavzimo_c.a -Wl,--no-whole-archive "$(dirname "$(rt doc)")/c/liblibc_c.a"
ln -sf liblavzimo.so "$into/$soname"
