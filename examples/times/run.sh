#!/bin/sh
# Runs the disk of examples/hi with the first of May 1975 as its time, and prints the times of two inodes before and after.
set -eu
cd "$(dirname "$0")/../.."
v6=${V6:-bin/v6}
out=$(mktemp -d)
trap 'rm -rf "$out"' EXIT

# the super-block's time is at byte 412 of block 1: two words, the high one first, and the low byte of each first
cp examples/hi/image "$out/image"
printf '\005\012\000\207' | dd of="$out/image" bs=1 seek=924 conv=notrunc 2>/dev/null

times_of() { # of the inode at a byte of a disk: the last access, and the last change
    od -An -tx1 -j $(($2 + 24)) -N 8 "$1"
}

show() {
    printf '%s\n/etc/init' "$1"
    times_of "$2" 1216
    printf '/dev/tty8'
    times_of "$2" 1152
}

show before "$out/image"
"$v6" run "$out/image" 1200 examples/hi/script "$out/term" "$out/log" "$out/final"
show after "$out/final"
"$v6" check "$out/final"
"$v6" run "$out/final" 1200 examples/hi/script "$out/again" "$out/log" "$out/final"
cat "$out/again"
