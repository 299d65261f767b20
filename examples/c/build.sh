#!/bin/sh
# Compiles the programs of this folder into `bin`, or into the folder that is named. tools/c/build.sh makes the compiler.
set -eu
cd "$(dirname "$0")/../.."
here=examples/c
out=${1:-$here/bin}
for name in forth grep sort tell wc; do
    tools/cc.py -o "$out/$name" $here/src/$name.c
done
tools/cc.py -g -o "$out/words" $here/src/words.c
