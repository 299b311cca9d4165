#!/usr/bin/env bash
# Makes a Debian package of the proved programs, their man pages, the library for C with its header and the Python package,
# and the licence, without root: lavzimo_VERSION_amd64.deb in the folder that is the argument, or in out/. The version stands
# in VERSION; the maintainer is that of the last commit, or MAINTAINER. Builds all of them first, where they aren't built;
# BUILT in the environment is a folder where the programs and liblavzimo.so lie.
set -eu
cd "$(dirname "$0")/.."
into=$(mkdir -p "${1:-out}" && cd "${1:-out}" && pwd)
version=$(cat VERSION)
maintainer=${MAINTAINER:-$(git log -1 --format='%an <%ae>')}
tree=$(mktemp -d)
trap 'rm -rf "$tree"' EXIT
umask 022
chmod 755 "$tree"
programs=(lavzimo group_tool rollup_tool summary_tool)
libraries=$tree/usr/lib/x86_64-linux-gnu
library=liblavzimo.so.${version%%.*}
if [ -n "${BUILT:-}" ]; then
    for program in "${programs[@]}"; do
        install -D -m 755 "$BUILT/$program" "$tree/usr/bin/$program"
    done
    install -D -m 644 "$BUILT/liblavzimo.so" "$libraries/liblavzimo.so.$version"
else
    scripts/build.sh "$tree/usr/bin" "${programs[@]}"
    scripts/build_c.sh "$libraries"
    mv "$libraries/liblavzimo.so" "$libraries/liblavzimo.so.$version"
    chmod 644 "$libraries/liblavzimo.so.$version"
fi
strip --strip-unneeded --remove-section=.comment --remove-section=.note "$tree"/usr/bin/* "$libraries"/*
ln -sf "liblavzimo.so.$version" "$libraries/$library"
ln -s "$library" "$libraries/liblavzimo.so"
install -D -m 644 include/lavzimo.h "$tree/usr/include/lavzimo.h"
install -D -m 644 -t "$tree/usr/lib/python3/dist-packages/lavzimo" python/lavzimo/*.py python/lavzimo/py.typed

docs=$tree/usr/share/doc/lavzimo
pages=$tree/usr/share/man/man1
mkdir -p "$docs" "$pages" "$tree/DEBIAN"
for program in "${programs[@]}"; do
    gzip -9n <"man/$program.1" >"$pages/$program.1.gz"
done
{
    printf 'Format: https://www.debian.org/doc/packaging-manuals/copyright-format/1.0/\nUpstream-Name: lavzimo\n\nFiles: *\nCopyright:\n'
    grep '^Copyright' LICENSE | sed 's/^/ /'
    printf 'License: Expat\n'
    sed -n '/^Permission/,$p' LICENSE | sed 's/^$/./; s/^/ /'
} >"$docs/copyright"
printf 'lavzimo (%s) unstable; urgency=low\n\n  * Built from source.\n\n -- %s  %s\n' \
    "$version" "$maintainer" "$(date -R -d "@${SOURCE_DATE_EPOCH:-$(git log -1 --format=%ct 2>/dev/null || date +%s)}")" | gzip -9n >"$docs/changelog.gz"
cat >"$tree/DEBIAN/control" <<CONTROL
Package: lavzimo
Version: $version
Architecture: amd64
Maintainer: $maintainer
Installed-Size: $(du -ks "$tree/usr" | cut -f 1)
Depends: libc6
Suggests: python3
Section: utils
Priority: optional
Description: group-by over CSV whose answers are proved
 Groups the rows of CSV files by columns or key expressions, with any number
 of worker threads, in bounded memory. That workers, limits and spilled files,
 where they give back what was written, change nothing in the answer is proved
 of the programs, from bytes to bytes.
 .
 lavzimo takes the names of columns, and group_tool a query in JSON;
 rollup_tool saves what groups come to, on many machines, and rolls it up;
 summary_tool keeps a summary that grows. liblavzimo.so is called from C, and
 the Python package lavzimo calls it.
CONTROL
printf 'liblavzimo %s lavzimo (>= %s)\n' "${version%%.*}" "$version" >"$tree/DEBIAN/shlibs"
printf 'activate-noawait ldconfig\n' >"$tree/DEBIAN/triggers"
(cd "$tree" && find usr -type f -exec md5sum {} + | sort -k 2 >DEBIAN/md5sums)
dpkg-deb --root-owner-group -Zxz --build "$tree" "$into/lavzimo_${version}_amd64.deb"
