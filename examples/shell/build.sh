#!/bin/sh
# Assembles the shell and its commands, and makes the disk `image` of them, or the file that is named.
set -eu
cd "$(dirname "$0")/../.."
here=examples/shell
image=${1:-$here/image}
out=$(mktemp -d)
trap 'rm -rf "$out"' EXIT

cp -R $here/disk "$out/disk"
mkdir "$out/disk/bin" "$out/disk/etc"
sources=
for name in cat chmod cmp cp date echo ed kill ln ls mkdir mv od ps rm sh sleep stty wc; do
    sources="$sources $here/src/$name.s"
done
tools/as.py --into "$out/disk/bin" --with $here/src/lib.s $sources
cp "$out/disk/bin/sh" "$out/disk/etc/init"
tools/disk.py new --replace --short --blocks 400 --inodes 96 --table $here/table "$image" "$out/disk"
