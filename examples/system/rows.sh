#!/bin/sh
# Plays the rows of `rows` that are named, or all: each file at the disk of this folder, which is made for it.
set -eu
cd "$(dirname "$0")/../.."
PYTHONPATH=tools exec python3 -m v6.run.typed examples/system "$@"
