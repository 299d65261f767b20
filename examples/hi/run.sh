#!/bin/sh
# Runs the disk of this folder and prints what the terminal got.
set -eu
cd "$(dirname "$0")/../.."
out=$(mktemp -d)
trap 'rm -rf "$out"' EXIT
"${V6:-bin/v6}" run examples/hi/image 1200 examples/hi/script "$out/term" "$out/log" "$out/final"
cat "$out/term"
