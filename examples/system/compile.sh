#!/bin/sh
# Compiles the commands that are named, or all, into `bin`; V6_BIN in the environment names another folder. tools/c/build.sh makes
# the compiler.
set -eu
cd "$(dirname "$0")/../.."
here=examples/system
out=${V6_BIN:-$here/bin}
[ $# -gt 0 ] || set -- $(cd $here/src && ls ./*.c ./*.s | sed 's,^\./,,; s,\..$,,')
for name; do
    if [ -f "$here/src/$name.c" ]; then
        shared=
        [ "$name" != sh ] || shared=-n # eight users have one text of it
        tools/cc.py $shared -I $here/src -o "$out/$name" "$here/src/$name.c"
    else
        tools/as.py -o "$out/$name" "$here/src/$name.s"
    fi
done
