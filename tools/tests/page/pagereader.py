"""Reads pages that page.py has made, by themselves: each line's panels by replaying all changes before it."""
import base64
import json
import re
import struct
import zlib

CODES = {1: "B", 2: "H", 4: "I"}


class Read:
    def __init__(self, page):
        self.html = page.decode()
        packed = re.search(r'<script type="text/plain" id="data">([^<]*)</script>', self.html)[1]
        blob = zlib.decompress(base64.b64decode(packed))
        size = int.from_bytes(blob[:4], "little")
        self.head = json.loads(blob[4 : 4 + size])
        self.columns = {name: struct.unpack_from(f"<{count}{CODES[width]}", blob, 4 + size + at)
                        for name, (at, count, width) in self.head["columns"].items()}

    def at(self, line):
        """The texts of all rows at a line, counted from 1 on, by their panels."""
        rows = [0] * self.head["fields"]
        end = sum(self.columns["counts"][:line])
        for field, value in zip(self.columns["fields"][:end], self.columns["values"][:end]):
            rows[field] = value
        texts = self.head["texts"]
        return {name: [texts[rows[at]] for at in range(first, first + count)] for name, (first, count) in self.head["places"].items()}

    def words(self, line):
        return self.head["texts"][self.columns["words"][line - 1]]

    def slot(self, line):
        """The slot of the moment that a line shows, or None."""
        place = self.columns["moments"][line - 1]
        return self.columns["slots"][place - 1] if place else None

    def terminal(self, line, which=0):
        """What a line of the terminal has shown at a line of the log."""
        place, sizes = self.columns["moments"][line - 1], self.head["terminals"]
        start, count = sum(sizes[:which]), self.columns["shown"][(place - 1) * len(sizes) + which] if place else 0
        return bytes(self.columns["term"][start : start + count])


def shown(rows):
    return [row for row in rows if row]


def process_of(panels, slot):
    """The lines of a process whole, as look.py's `process` has them."""
    out = shown(panels[f"process {slot}"])
    for name in ("code", "stack", "u area"):
        lines = shown(panels[f"{name} {slot}"])
        out += [name] * bool(lines) + lines
    return out


def table_of(panels, row):
    """The lines of `ps`, by the form of a row."""
    return [row.format(*(int(cell) if cell.isdecimal() else cell for cell in text.split("\t"))).rstrip() for text in shown(panels["ps"])]
