#!/bin/sh
# Assembles init, getty, login and the commands, those of examples/shell among them, and makes the disk `image` of them, or the
# file that is named.
set -eu
cd "$(dirname "$0")/../.."
here=examples/timesharing
shell=examples/shell/src
image=${1:-$here/image}
out=$(mktemp -d)
trap 'rm -rf "$out"' EXIT

cp -R $here/disk "$out/disk"
mkdir "$out/disk/bin"
sources=$here/src/who.s
for name in cat chmod cmp cp date echo ed kill ln ls mkdir mv od ps rm sh sleep stty wc; do
    sources="$sources $shell/$name.s"
done
tools/as.py --into "$out/disk/bin" --with $shell/lib.s $sources
tools/as.py --into "$out/disk/bin" --with $here/src/tty.s --with $shell/lib.s $here/src/login.s $here/src/write.s
tools/as.py --into "$out/disk/etc" --with $shell/lib.s $here/src/init.s $here/src/getty.s
tools/disk.py new --replace --short --blocks 400 --inodes 96 --time 168204480 --table $here/table "$image" "$out/disk"
