#!/bin/sh
# Makes the disk of this folder, the file that is named: of the programs of `bin`, the pages of `man`, the files of `disk`, and `table`.
set -eu
cd "$(dirname "$0")/../.."
here=examples/system
out=$(mktemp -d)
trap 'rm -rf "$out"' EXIT

cp -R $here/disk "$out/disk"
mkdir -p "$out/disk/bin" "$out/disk/usr/man" "$out/disk/usr/games" "$out/disk/usr/lib"
cp $here/bin/* "$out/disk/bin"
cp $here/man/* "$out/disk/usr/man"
while read -r place names; do
    for name in $names; do
        [ ! -f "$out/disk/bin/$name" ] || mv "$out/disk/bin/$name" "$out/disk$place/$name"
    done
done <$here/places
find "$out/disk" -name .keep -exec rm '{}' +
tools/disk.py new --replace --short --blocks 4000 --inodes 960 --time 168204480 --table $here/table "$1" "$out/disk"
