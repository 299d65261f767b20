#!/bin/sh
# Runs the programs of this folder, each by a line of a command, and prints the lines and what they print.
set -eu
cd "$(dirname "$0")/../.."
here=examples/c

run() {
    echo "% $*"
    program=$1
    shift
    tools/try.py --file $here/text $here/bin/"$program" "$@"
}

run wc text
run grep -n '^the.*[dx]$' text
run sort -rn text
run forth <$here/squares
run tell
