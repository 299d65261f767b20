#!/bin/sh
# Makes the disk of this folder, plays the dialogue of `script` at it, and prints what the console and line 1 show.
set -eu
cd "$(dirname "$0")/../.."
out=$(mktemp -d)
trap 'rm -rf "$out"' EXIT
examples/system/build.sh "$out/disk"
"${V6:-bin/v6}" run8 "$out/disk" 3968 examples/system/script "$out/term" "$out/log" "$out/final"
for name in term term.1; do
    echo "== $name =="
    tr -d '\r' <"$out/$name"
    echo
done
