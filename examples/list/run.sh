#!/bin/sh
# Makes a disk whose /etc/init is the program of `listing`, and prints what it shows: the names in the directory /u.
set -eu
cd "$(dirname "$0")/../.."
v6=${V6:-bin/v6}
out=$(mktemp -d)
trap 'rm -rf "$out"' EXIT

put() { # standard input over the bytes of the disk from a byte on
    dd of="$out/image" bs=1 seek="$1" conv=notrunc 2>/dev/null
}

word() { # its two bytes, the low one first
    printf "\\$(printf %03o $((0$1 & 255)))\\$(printf %03o $((0$1 >> 8)))"
}

# the words of the listing, without addresses and comments
sed 's/;.*//' examples/list/listing | while read -r _ words; do
    for w in $words; do word "$w"; done
done >"$out/init"

# disk 3 has three files in /u, and /etc/init in block 66. Its inode is 7, with the size at byte 6. The fourth entry of /u,
# which is f01, becomes an empty one.
"$v6" make 3 "$out/image"
put $((66 * 512)) <"$out/init"
word "$(printf %o "$(wc -c <"$out/init")")" | put $((2 * 512 + 6 * 32 + 6))
word 0 | put $((65 * 512 + 3 * 16))

"$v6" check "$out/image"
"$v6" run "$out/image" 1200 examples/list/script "$out/term" "$out/log" "$out/final"
cat "$out/term"
