#!/bin/sh
# Makes a disk whose /etc/init is crowd.s, runs it in a core of 100 clicks, and prints what the kernel decided but for the ticks of the clock.
set -eu
cd "$(dirname "$0")/../.."
v6=${V6:-bin/v6}
out=$(mktemp -d)
trap 'rm -rf "$out"' EXIT

"$v6" make 0 "$out/image"
tools/as.py -o "$out/crowd" examples/crowd/crowd.s
tools/disk.py put "$out/image" "$out/crowd" /etc/init
"$v6" run "$out/image" 100 examples/crowd/script "$out/term" "$out/log" "$out/final"
grep -v tick "$out/log"
