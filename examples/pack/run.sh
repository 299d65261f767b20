#!/bin/sh
# Plays the dialogue of `script` at the two disks of this folder, and prints what the terminal shows and what is on the pack then.
set -eu
cd "$(dirname "$0")/../.."
here=examples/pack
v6=${V6:-bin/v6}
out=$(mktemp -d)
trap 'rm -rf "$out"' EXIT
"$v6" run2 $here/image 3968 $here/script "$out/term" "$out/log" "$out/final" $here/pack "$out/pack"
cat "$out/term"
printf '\n== the pack ==\n'
"$v6" check "$out/pack"
tools/disk.py check "$out/pack"
tools/disk.py list "$out/pack"
