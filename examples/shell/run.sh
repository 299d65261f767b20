#!/bin/sh
# Runs the disk of this folder under the dialogue of `script`, and prints what the terminal shows.
set -eu
cd "$(dirname "$0")/../.."
out=$(mktemp -d)
trap 'rm -rf "$out"' EXIT
"${V6:-bin/v6}" run examples/shell/image 3968 examples/shell/script "$out/term" "$out/log" "$out/final"
cat "$out/term"
