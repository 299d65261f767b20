#!/bin/sh
# Makes the two disks of this folder, or those of the folder that is named: `image`, which is the shell's with mount, umount and a
# special file, and `pack`, of what is in `found`.
set -eu
cd "$(dirname "$0")/../.."
here=examples/pack
lib=examples/shell/src/lib.s
to=${1:-$here}
out=$(mktemp -d)
trap 'rm -rf "$out"' EXIT

tools/disk.py get examples/shell/image / "$out/disk" --table "$out/table"
tools/as.py --into "$out/disk/etc" --with $here/src/perror.s --with $lib $here/src/mount.s $here/src/umount.s
cat $here/table >>"$out/table"
tools/disk.py new --replace --short --time 212000000 --table "$out/table" "$to/image" "$out/disk"

cp -R $here/found "$out/found"
mkdir "$out/found/bin"
tools/as.py -o "$out/found/bin/factor" $here/src/factor.s $lib
tools/disk.py new --replace --short --blocks 80 --inodes 32 --time 168204480 --table $here/found.table "$to/pack" "$out/found"
