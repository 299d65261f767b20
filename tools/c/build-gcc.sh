#!/bin/sh
# Builds the second compiler that tools/cc.py can drive: GCC 12.2.0's compiler of C for the PDP-11, of Debian's package
# `gcc-12-source`, which has its source, with the change of gcc.patch. It needs make, patch, compilers of C and C++, flex, xz,
# and what the packages libgmp-dev, libmpfr-dev, libmpc-dev and zlib1g-dev have; 1 GB of disk while it works, and a quarter of
# an hour of a processor or more, or with -q less, for a compiler that is slower itself.
#
#     tools/c/build-gcc.sh [-a ARCHIVE] [-j JOBS] [-q] [FOLDER]
#
# The program cc1 goes to FOLDER, ~/.cache/v6-cc without it. ARCHIVE is the package's gcc-12.2.0-dfsg.tar.xz; without it the
# package is fetched by `apt-get download`. JOBS processes work at a time, 2 without it. cc.py wants neither an assembler and a
# loader, which are binutils', nor GCC's own library, so they aren't built.
set -eu
here=$(cd "$(dirname "$0")" && pwd)
sum=50c63ff82919323c25fbbb4a9eae259edc974118a0fb30c905190cb782ec11c2
archive=
jobs=2
level=-O1
while getopts a:j:q option; do
    case $option in
    a) archive=$(realpath "$OPTARG") ;;
    j) jobs=$OPTARG ;;
    q) level=-O0 ;;
    *) exit 2 ;;
    esac
done
shift $((OPTIND - 1))
folder=$(realpath -m "${1:-${V6_CC:-$HOME/.cache/v6-cc}}")
check() { [ -f "$archive" ] || { echo "build-gcc.sh: $archive: No such file" >&2; exit 1; }; echo "$sum  $archive" | sha256sum -c -; }
[ -z "$archive" ] || check
missing=
for tool in make patch cc c++ flex xz; do
    command -v $tool >/dev/null || missing="$missing $tool"
done
for name in gmp mpfr mpc; do
    echo "#include <$name.h>" | cc -E - >/dev/null 2>&1 || missing="$missing lib$name-dev"
done
[ -z "$missing" ] || { echo "build-gcc.sh: these are wanted, and not found:$missing" >&2; exit 1; }
work=$(mktemp -d)
trap 'rm -rf "$work"' EXIT
cd "$work"
if [ -z "$archive" ]; then
    archive=$work/usr/src/gcc-12/gcc-12.2.0-dfsg.tar.xz
    apt-get download gcc-12-source || {
        echo "build-gcc.sh: the package hasn't come: apt needs Debian 12's packages, or -a names gcc-12.2.0-dfsg.tar.xz" >&2
        exit 1
    }
    dpkg-deb --fsys-tarfile gcc-12-source_*.deb | tar xf - "./${archive#"$work"/}"
    rm gcc-12-source_*.deb
    check
fi
tar xJf "$archive" --exclude='*/gcc/testsuite' --exclude='*/gcc/ada' --exclude='*/libstdc++-v3' --exclude='*/libgo' \
    --exclude='*/libphobos'
patch -s -p1 -d gcc-* <"$here/gcc.patch"
mkdir build
cd build
{
    ../gcc-*/configure --target=pdp11-unknown-aout --enable-languages=c --disable-bootstrap --disable-nls --disable-lto \
        --disable-plugin --disable-analyzer --disable-multilib --disable-libcc1 --disable-shared --enable-checking=release \
        --without-headers --without-isl --without-zstd --with-system-zlib CFLAGS="$level -g0 -w" \
        CXXFLAGS="$level -g0 -w -fno-exceptions -fno-rtti -fno-asynchronous-unwind-tables"
    make -j"$jobs" all-gcc TARGET-gcc=cc1
} >log 2>&1 || { tail -n 50 log >&2; exit 1; }
mkdir -p "$folder"
strip -o "$folder/cc1" gcc/cc1
echo "cc1 is in $folder"
