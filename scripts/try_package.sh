#!/usr/bin/env bash
# Makes the package, asks lintian for errors, and tries it where there is no toolchain: as root in a system made by
# debootstrap, else unpacked into a folder. The programs answer README's first example and one more there, a program in C and
# the Python package call the library, the pages are read, and what was installed can be removed. Needs dpkg-deb, lintian,
# mandoc, cc, and debootstrap or none.
set -eu
cd "$(dirname "$0")/.."
work=$(mktemp -d)
trap 'rm -rf "$work"' EXIT
chmod 755 "$work"
scripts/package.sh "$work" >/dev/null
package=$(echo "$work"/lavzimo_*.deb)
lintian --fail-on error --suppress-tags bogus-mail-host,bogus-mail-host-in-debian-changelog "$package"

system=$work/system
mkdir -p "$system/tmp"
if [ "$(id -u)" = 0 ] && command -v debootstrap >/dev/null && debootstrap --variant=minbase stable "$system" >"$work/log" 2>&1; then
    inside() { chroot "$system" "$@"; }
    cp "$package" "$system/tmp/"
    inside dpkg -i "/tmp/$(basename "$package")" >/dev/null
    programs=/usr/bin
else
    echo "try_package.sh: no debootstrap, so the package is unpacked into a folder" >&2
    inside() { "$@"; }
    dpkg -x "$package" "$system"
    programs=$system/usr/bin
fi
printf 'status,bytes\n200,5\n404,\n200,7\n' | inside "$programs/lavzimo" --by status --count --sum bytes >"$work/answer"
printf 'status,count,sum_bytes\n200,2,12\n404,1,\n' | diff - "$work/answer"
query='{"schema":[["k","Int64"],["v","Int64"]],"keys":["k"],"aggs":[{"alias":[{"sum":"v"},"s"]},{"alias":[{"count":"v"},"c"]}]}'
printf 'k,v\n1,5\n2,6\n1,7\n' | inside "$programs/group_tool" "$query" >"$work/answer"
printf 'k,s,c\n1,12,2\n2,6,1\n' | diff - "$work/answer"
printf 'k,v\n1,5\n2,6\n1,7\n' | inside "$programs/rollup_tool" save "$query" 0 - | inside "$programs/rollup_tool" roll "$query" '["k"]' - >"$work/answer"
printf 'k,s,c\n1,12,2\n2,6,1\n' | diff - "$work/answer"
log=$(inside mktemp -d)
printf 'k,v\n1,5\n2,6\n1,7\n' | inside env -C "$log" "$programs/summary_tool" add "$query" -
inside env -C "$log" "$programs/summary_tool" show "$query" >"$work/answer"
printf 'k,s,c\n1,12,2\n2,6,1\n' | diff - "$work/answer"
for program in lavzimo group_tool rollup_tool summary_tool; do
    gzip -dc "$system/usr/share/man/man1/$program.1.gz" | mandoc -Tascii | grep -q "${program^^}(1)"
done
# The header, the library and the Python package, by a program that is compiled here.
libraries=$system/usr/lib/x86_64-linux-gnu
cc -std=c11 "-I$system/usr/include" -o "$system/tmp/group" examples/c/group.c "-L$libraries" -llavzimo
if [ "$programs" = /usr/bin ]; then group=(/tmp/group); else group=(env "LD_LIBRARY_PATH=$libraries" "$system/tmp/group"); fi
printf 'k,v\n1,5\n2,6\n1,7\n' | inside "${group[@]}" "$query" >"$work/answer"
printf 'k,s,c\n1,12,2\n2,6,1\n' | diff - "$work/answer"
LAVZIMO_LIB=$libraries/liblavzimo.so.0 PYTHONPATH=$system/usr/lib/python3/dist-packages python3 -c 'import lavzimo
answer = lavzimo.group_by(b"k,v\n1,5\n2,6\n1,7\n", schema={"k": "Int64", "v": "Int64"}, keys=["k"], aggs={"s": {"sum": "v"}})
assert answer == b"k,s\n1,12\n2,6\n", answer'
if [ "$programs" = /usr/bin ]; then
    inside dpkg -r lavzimo >/dev/null
    for left in bin/lavzimo share/doc/lavzimo include/lavzimo.h lib/x86_64-linux-gnu/liblavzimo.so.0; do
        [ ! -e "$system/usr/$left" ]
    done
fi
echo "try_package.sh: ok"
