#!/bin/sh
# Runs the disk of this folder under the evening of `script`, and prints what each of its three terminals shows.
set -eu
cd "$(dirname "$0")/../.."
here=examples/timesharing
out=$(mktemp -d)
trap 'rm -rf "$out"' EXIT
"${V6:-bin/v6}" run8 $here/image 3968 $here/script "$out/term" "$out/log" "$out/final"
for name in term term.1 term.2; do
    printf '== %s ==' $name
    cat "$out/$name"
    printf '\n'
done
