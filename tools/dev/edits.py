#!/usr/bin/env python3
"""tools/dev/edits.py: looks whether each edit that must be refused, crates/NAME/must-fail/*.edit, still fits. Each text that one replaces has to
stand exactly once in its file, as the edits before it leave that; the kit finds this out only after minutes of proving. Prints a line for each that
doesn't fit, and how many edits there are."""
import glob
import os
import sys

TOP = os.path.dirname(os.path.dirname(os.path.dirname(os.path.realpath(__file__))))


def faults(edit):
    """What doesn't fit of an edit."""
    crate, texts, file, old = os.path.dirname(os.path.dirname(edit)), {}, None, None
    with open(edit, encoding="utf-8") as lines:
        for line in lines.read().split("\n"):
            word, _, rest = line.partition(": ")
            if word == "file":
                file = os.path.join(crate, rest)
                if not os.path.exists(file):
                    yield f"{rest} isn't there"
                    return
                if file not in texts:
                    with open(file, encoding="utf-8") as source:
                        texts[file] = source.read()
            elif word == "old":
                old = rest
                if texts[file].count(old) != 1:
                    yield f"stands {texts[file].count(old)} times: {old}"
            elif word == "new":
                texts[file] = texts[file].replace(old, rest, 1)


def main(top):
    edits, bad = sorted(glob.glob(os.path.join(glob.escape(top), "crates", "*", "must-fail", "*.edit"))), 0
    for edit in edits:
        for fault in faults(edit):
            print(f"{os.path.relpath(edit, top)}: {fault}")
            bad += 1
    print(f"{len(edits)} edits, {bad} faults")
    return int(bad > 0)


if __name__ == "__main__":
    sys.exit(main(*(sys.argv[1:] or [TOP])))
