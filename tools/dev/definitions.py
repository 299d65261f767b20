#!/usr/bin/env python3
"""tools/dev/definitions.py [CRATE ..]: what each file of definitions, crates/NAME/specs, says of itself: the sentences at its head, by crate, in
the order of crates.txt."""
import os
import sys
import textwrap

TOP = os.path.dirname(os.path.dirname(os.path.dirname(os.path.realpath(__file__))))


def crates():
    """The names of all crates."""
    with open(os.path.join(TOP, "crates.txt"), encoding="utf-8") as lines:
        return [line.partition(":")[0] for line in lines if ":" in line and not line.startswith("#")]


def head_of(file):
    """The comment at the head of a file, on one line."""
    with open(file, encoding="utf-8") as lines:
        head = []
        for line in lines:
            if not line.startswith("--"):
                break
            head.append(line[2:].strip())
    return " ".join(head)


def files_of(crate):
    """The files of a crate's definitions that say something of themselves, with it."""
    specs = os.path.join(TOP, "crates", crate, "specs")
    for place, folders, names in os.walk(specs):
        folders.sort()
        for name in sorted(names):
            head = head_of(os.path.join(place, name))
            if head:
                yield os.path.relpath(os.path.join(place, name), specs).removesuffix(".antt"), head


def main(wanted):
    unknown = sorted(set(wanted) - set(crates()))
    if unknown:
        sys.exit(f"definitions.py: {unknown[0]}: no such crate")
    for crate in crates():
        if crate in wanted or not wanted:
            for number, (name, head) in enumerate(files_of(crate)):
                print(*[crate] * (not number), sep="", end="\n" * (not number))
                print(textwrap.fill(f"{name}: {head}", 128, initial_indent="  ", subsequent_indent="      "))
    return 0


if __name__ == "__main__":
    sys.exit(main(sys.argv[1:]))
