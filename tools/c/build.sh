#!/bin/sh
# Builds the compiler that tools/cc.py drives: pcc, the portable C compiler, for the PDP-11, of Debian's source package `pcc`,
# with the changes of pcc.patch. It needs make, a C compiler, bison and flex, and takes some ten seconds of a processor.
#
#     tools/c/build.sh [-a ARCHIVE] [FOLDER]
#
# The programs cpp and ccom go to FOLDER, ~/.cache/v6-cc without it. ARCHIVE is the package's pcc_1.2.0~DEVEL+20220331.orig.tar.gz;
# without it the package is fetched by `apt-get source`, for which apt has to know a source of source packages.
set -eu
here=$(cd "$(dirname "$0")" && pwd)
version=1.2.0~DEVEL+20220331
sum=60bc1c7ac2e41807ef6f32c2b8237b0a69e2d0924c2be17c376846322755763f
archive=
if [ "${1-}" = -a ]; then
    archive=$(realpath "$2")
    shift 2
fi
folder=$(realpath -m "${1:-${V6_CC:-$HOME/.cache/v6-cc}}")
check() { [ -f "$archive" ] || { echo "build.sh: $archive: No such file" >&2; exit 1; }; echo "$sum  $archive" | sha256sum -c -; }
[ -z "$archive" ] || check
missing=
for tool in make patch cc bison flex; do
    command -v $tool >/dev/null || missing="$missing $tool"
done
[ -z "$missing" ] || { echo "build.sh: these are wanted, and not found:$missing" >&2; exit 1; }
work=$(mktemp -d)
trap 'rm -rf "$work"' EXIT
cd "$work"
if [ -z "$archive" ]; then
    archive=$work/pcc_$version.orig.tar.gz
    apt-get source --download-only --tar-only "pcc=$version-1" || true
    [ -f "$archive" ] || {
        echo "build.sh: the source package pcc, $version-1 of Debian 12, hasn't come: apt needs a source of source packages" \
            "(deb-src), or -a names its file, pcc_$version.orig.tar.gz" >&2
        exit 1
    }
    check
fi
tar xzf "$archive"
cd pcc-*
patch -s -p1 <"$here/pcc.patch"
mkdir build
cd build
{
    ../configure --target=pdp11-unknown-bsd CFLAGS="-O1 -g0 -w -fcommon"
    make -C cc/cpp all
    make -C cc/ccom all
} >log 2>&1 || { cat log >&2; exit 1; }
mkdir -p "$folder"
cp cc/cpp/pdp11-unknown-bsd-cpp "$folder/cpp"
cp cc/ccom/pdp11-unknown-bsd-ccom "$folder/ccom"
echo "cpp and ccom are in $folder"
