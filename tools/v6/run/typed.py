"""Rows of what is typed at a disk, and what its terminals show: examples/system/README.md says their form. A file of rows is
played in one run of the machine."""
import argparse
import os
import re
import subprocess
import sys
import tempfile
from dataclasses import dataclass, field

from v6.host.program import CORE, V6
from v6.run.dialogue import Disk, Machine

SLOTS = 100000  # for what a line brings about
CLOCK = b"clock 1000"  # so that a second is 60,000 slots
SINGLE = b"switch 173030"  # a shell of user 0 at the console
FIRST = "stty -lcase; chdir /tmp"
PROMPTS = "# ", "% "
SHOWN_KEYS = range(0o40, 0o177)


class RowError(Exception):
    """A line of a file of rows that says nothing; the text tells it."""


@dataclass
class Rows:
    """What a file of rows types, as lines of a script, and what each terminal has to show: pieces of text with the number of the
    line of the file at which each stands."""

    script: list = field(default_factory=list)
    shown: dict = field(default_factory=dict)
    line: int = 0
    slots: int = SLOTS
    single: bool = True
    count: int = 0
    core: int = CORE

    def show(self, number, text):
        self.shown.setdefault(self.line, []).append((number, text))

    def run(self, slots):
        self.script.append(b"run %d" % slots)

    def keys(self, words):
        """Keys in octal, some of them with a number of times after a `*`; gives what is shown of them."""
        shown = ""
        for word in words:
            key, _, times = word.partition("*")
            self.script += [b"byte %03o" % int(key, 8)] * int(times or 1)
            shown += key_shown(int(key, 8)) * int(times or 1)
        self.run(self.slots)
        return shown

    def type(self, text):
        if len(text) > 290:
            raise RowError("a line of more than 290 bytes is typed by keys")
        self.script.append(b"type " + text.encode("ascii"))
        self.run(self.slots)
        self.count += 1

    def direct(self, words):
        """A line that begins with @."""
        known = {"line": 1, "slots": 1, "run": 1, "hangup": 1, "core": 1, "login": 0, "script": None}
        if not words or words[0] not in known or known[words[0]] not in (None, len(words) - 1):
            raise RowError("no such word after @")
        if words[0] == "login":
            self.single = False
        elif words[0] == "core":
            self.core = int(words[1])
        elif words[0] == "slots":
            self.slots = int(words[1])
        elif words[0] == "run":
            self.run(int(words[1]))
        elif words[0] == "script":
            self.script.append(" ".join(words[1:]).encode("ascii"))
        else:
            self.script.append(" ".join(words).encode("ascii"))
            if words[0] == "line":
                self.line = int(words[1])
            else:
                self.run(self.slots)

    def add(self, number, line):
        """A line of the file."""
        mark, text = line[:2], line[2:]
        if line == "<":
            mark = "< "  # return alone
        if line.startswith(";"):
            return
        if mark in PROMPTS or mark == "< ":
            self.type(text)
            self.show(number, (mark if mark in PROMPTS else "") + text + "\n")
        elif mark == "! ":
            self.type(text)
        elif mark == "^ ":
            self.show(number, self.keys(text.split()))
        elif mark == "@ ":
            self.direct(text.split())
        elif line.startswith("\\ "):
            self.show(number, ended(text))
        else:
            self.show(number, ended(line))


def key_shown(key):
    """What a terminal shows of a key."""
    return "\n" if key in (0o12, 0o15) else chr(key) if key in SHOWN_KEYS else ""


def ended(line):
    """A line that is shown: with its end, unless it ends in \\c."""
    return line[:-2] if line.endswith("\\c") else line + "\n"


def parsed(name):
    """The rows of a file."""
    rows = Rows()
    with open(name, encoding="ascii") as file:
        for number, line in enumerate(file.read().split("\n")[:-1], 1):
            try:
                rows.add(number, line)
            except (RowError, ValueError) as error:
                raise RowError(f"{name}: line {number}: {error}") from error
    return rows


def pattern(text):
    """What a text of the rows stands for: \\N is a number, with the blanks before it."""
    return re.compile(" *[0-9]+".join(re.escape(piece) for piece in text.split("\\N")))


def difference(pieces, shown):
    """Where a terminal shows something else than these pieces, as a text, or None. A prompt may stand after the last."""
    at = 0
    for number, text in pieces:
        found = pattern(text).match(shown, at)
        if not found:
            told = shown[at : at + len(text) + 60].split("\n")
            return f"line {number}: wanted {text!r}, shown {chr(10).join(told[:2])!r}"
        at = found.end()
    rest = shown[at:]
    return None if rest in ("", *PROMPTS) else f"at the end: shown {rest[:200]!r}"


def begins(shown):
    """What the console shows after the first line that is typed for a single user."""
    _, found, rest = shown.partition(f"# {FIRST.upper()}\n")
    return rest if found else shown


def play(rows, image, folder, v6=V6):
    """Plays rows at a disk; gives the difference on a terminal, or None."""
    machine = Machine(v6, image, rows.core, folder, eight=True)
    script = [CLOCK] + ([SINGLE, b"run 200000", b"type " + FIRST.encode()] if rows.single else []) + [b"run 300000"]
    played = machine.play(script + rows.script)
    if played.status:
        return f"v6: status {played.status}: {played.said}"
    for line, term in enumerate(played.terms()):
        shown = term.decode("latin-1").replace("\r\n", "\n")
        shown = begins(shown) if line == 0 and rows.single else shown
        if line not in rows.shown:
            continue  # nothing, or getty alone
        found = difference(rows.shown[line], shown)
        if found:
            return found if line == 0 else f"terminal {line}: {found}"
    return None


def built(folder, image):
    """Makes the disk of an example."""
    subprocess.run([os.path.join(folder, "build.sh"), image], check=True)


def main(arguments=None):
    parser = argparse.ArgumentParser(prog="rows.sh", description=__doc__)
    parser.add_argument("folder")
    parser.add_argument("name", nargs="*", help="a file of the folder's rows; all of them without it")
    given = parser.parse_args(arguments)
    where, failed = os.path.join(given.folder, "rows"), 0
    with tempfile.TemporaryDirectory() as folder:
        image = os.path.join(folder, "disk")
        built(given.folder, image)
        for name in given.name or sorted(os.listdir(where)):
            rows = parsed(os.path.join(where, name))
            found = play(rows, image, folder)
            failed |= found is not None
            print(f"{name}: {found or f'{rows.count} lines'}", flush=True)
    return failed


if __name__ == "__main__":
    sys.exit(main())
