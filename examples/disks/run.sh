#!/bin/sh
# Makes two disks, runs the first, whose /etc/init is disks.s, beside the second, and prints what it shows and what is left on both.
set -eu
cd "$(dirname "$0")/../.."
v6=${V6:-bin/v6}
out=$(mktemp -d)
trap 'rm -rf "$out"' EXIT

# the first: the generator's disk 0, with the program and an empty directory /mnt
"$v6" make 0 "$out/image"
tools/as.py -o "$out/disks" examples/disks/disks.s
tools/disk.py put "$out/image" "$out/disks" /etc/init
tools/disk.py mkdir "$out/image" /mnt

# the second: a folder with one file
mkdir "$out/folder"
echo "from the second disk" >"$out/folder/note"
tools/disk.py new "$out/second" "$out/folder" --time 0

"$v6" run2 "$out/image" 1200 examples/disks/script "$out/term" "$out/log" "$out/final" "$out/second" "$out/final2"
cat "$out/term"
echo "FINAL:"
tools/disk.py list "$out/final" /mnt
tools/disk.py list "$out/final" /dev/rk1
echo "FINAL2:"
tools/disk.py list "$out/final2"
tools/disk.py cat "$out/final2" /new
