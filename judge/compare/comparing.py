"""What the programs that compare a v6 with the reference have in common: their words, and the files of a case."""
import os
import shlex
import sys


def needs_reference():
    if "ABSTRACT_UNIX" not in os.environ:
        sys.exit("ABSTRACT_UNIX: the folder of the reference")


def main(words, kind, doc, compare, smallest):
    """make SEED FOLDER, compare COMMAND COUNT [FIRST], alone COUNT [FIRST], smallest COMMAND SEED FOLDER."""
    if words and words[0] in ("compare", "alone", "smallest"):
        needs_reference()
    match words:
        case ["make", seed, folder]:
            kind(int(seed)).write(folder)
        case ["compare", command, runs, *first] if len(first) < 2:
            return compare(shlex.split(command), int(runs), int(first[0]) if first else 0, kind)
        case ["alone", runs, *first] if len(first) < 2:
            return compare(None, int(runs), int(first[0]) if first else 0, kind)
        case ["smallest", command, seed, folder]:
            return smallest(shlex.split(command), int(seed), folder, kind)
        case _:
            sys.exit(doc)


def asked(words, doc, given, *meant):
    """A program and the numbers after it: so many are always given, and the others are meant where they aren't."""
    if not given < len(words) <= 1 + given + len(meant) or not all(word.isdecimal() for word in words[1:]):
        sys.exit(doc)
    needs_reference()
    sys.path.insert(0, os.environ["ABSTRACT_UNIX"])
    return words[0], *map(int, words[1:]), *meant[len(words) - 1 - given :]


def write_case(folder, case):
    os.makedirs(folder, exist_ok=True)
    texts = {"core": f"{case.core}\n".encode(), "listing": case.listing().encode()}
    for name, data in {"image": case.image, "script": case.script.bytes(), **texts}.items():
        with open(f"{folder}/{name}", "wb") as file:
            file.write(data)


def without(items, differs):
    """Leaves out more and more of a list, first many and then single ones, as long as there is a difference."""
    size = len(items)
    while size:
        at = 0
        while at < len(items):
            fewer = items[:at] + items[at + size :]
            if differs(fewer):
                items = fewer
            else:
                at += size
        size //= 2
    return items
