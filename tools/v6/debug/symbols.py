"""Which program of a disk a process executes, by its words in memory, and the names that its file has for addresses: a.out(V)."""
import bisect
import os
import re
import struct

from v6.disk.volume import Volume
from v6.host.files import read_bytes
from v6.pdp11.assembler import FILE, GLOBAL, HEADER, LINE, SYMBOL, TYPES
from v6.pdp11.names import MAGIC, SHARED
from v6.run.moments import SEGMENT

FITS = 4  # one part of so many of a program's bytes may differ from its file's, as words of its text that it changes
NAMED = {number: part for part, number in TYPES.items() if part}
COMPILERS = re.compile(r"L_?\d+~")  # a label of the compiler of C, as cc.py makes it
OWN = re.compile(r"~\d*$")  # after the name of a function that other files don't know


class Program:
    """A program's file: where its words stand in memory, and its names by their addresses."""

    def __init__(self, path, data):
        self.path = path
        magic, self.text, self.data, self.bss, self.table, _, _, self.is_bare = HEADER.unpack(data[: HEADER.size])
        self.is_shared = magic == SHARED and self.text > 0
        self.bytes = data[HEADER.size : HEADER.size + self.text + self.data]
        self.start = -(-self.text // SEGMENT) * SEGMENT if self.is_shared else self.text  # of the data
        self.files, self.lines = {}, []
        self.names = self.read_names(data)
        self.starts = [address for address, _, _ in self.lines]
        self.addresses = [address for address, _, _ in self.names]

    def read_names(self, data):
        at = HEADER.size + self.text + self.data
        if not self.is_bare and len(data) >= at + self.text + self.data + self.table:
            at += self.text + self.data  # after the bits for relocation
        found = []
        for place in range(at, min(at + self.table, len(data)) - SYMBOL.size + 1, SYMBOL.size):
            name, kind, value = SYMBOL.unpack_from(data, place)
            if kind & ~GLOBAL in NAMED:
                text = name.rstrip(b"\0").decode("ascii", "replace")
                if not COMPILERS.match(text):
                    found.append((value, kind & ~GLOBAL, OWN.sub("", text)))
            elif kind == FILE:
                self.files[value] = self.files.get(value, "") + name.rstrip(b"\0").decode("utf-8", "replace")
            elif kind == LINE:
                self.lines.append((value, *struct.unpack("<2H", name[:4])))
        self.lines.sort(key=lambda one: one[0])
        return sorted(found)

    def exact(self, address):
        """The name that stands for just this address, or None."""
        name = self.name_at(address)
        return name if name and "+" not in name else None

    def line_at(self, address):
        """The file and the line of the source whose words are at an address of the text, or None."""
        place = bisect.bisect_right(self.starts, address)
        if not place or address >= (self.text or self.end()):
            return None
        _, file, line = self.lines[place - 1]
        return (self.files.get(file, "?"), line) if line else None

    def line_address(self, text):
        """The address of a line of the source, as `it.c:12`, or of the first one after it that has words; or None."""
        name, _, number = text.rpartition(":")
        if not number.isdecimal():
            return None
        files = [file for file, path in self.files.items() if name in (path, os.path.basename(path))]
        found = [(line, at) for at, file, line in self.lines if file in files and line >= int(number)]
        return min(found)[1] if found else None

    def place(self, text):
        """The address of a name, or of a line of the source; or None."""
        at = self.address_of(text)
        return self.line_address(text) if at is None and ":" in text else at

    def fits(self, process):
        """How many of a process's bytes are those of this program's text, or None where it can't be its own."""
        size = self.text or self.data
        if (process.text > 0) != self.is_shared or not size:
            return None
        there = process.bytes(0, size)
        same = sum(one == other for one, other in zip(there, self.bytes))
        return same if len(there) == size == len(self.bytes[:size]) and FITS * (size - same) <= size else None

    def end(self):
        return self.start + self.data + self.bss

    def name_at(self, address):
        """An address by the last name at or before it, in its own part, or None."""
        place = bisect.bisect_right(self.addresses, address)
        if not place or address >= self.end() or self.text <= address < self.start:
            return None
        value, _, name = self.names[place - 1]
        if (value < self.start) != (address < self.start):
            return None
        return name + (f"+{address - value:o}" if address > value else "")

    def address_of(self, name):
        """The address of a name, or None. That of C, which has a `_` before it, is found too."""
        for wanted in (name, "_" + name):
            for value, _, one in self.names:
                if one == wanted:
                    return value
        return None

    def end_of(self, name):
        """The last address of what a name stands for, or None: the next name follows it."""
        at = self.address_of(name)
        if at is None:
            return None
        later = [value for value in self.addresses if value > at]
        return min([*later, self.end()]) - 1


def program_of(path, data):
    """A program by its file's bytes, or None where it is none."""
    if len(data) < HEADER.size or HEADER.unpack(data[: HEADER.size])[0] not in (MAGIC, SHARED):
        return None
    return Program(path, data)


class Programs:
    """The programs of a disk, and before them files of the host with names: `own`."""

    def __init__(self, disk, own=()):
        volume = Volume(disk)
        self.own = [(name, program_of(name, read_bytes(name))) for name in own]
        self.found = [program for path, inode in volume.files() if (program := program_of(path, volume.read(inode)))]

    def others(self, process):
        """The files of the host whose words aren't those of a process."""
        return [name for name, program in self.own if program and program.fits(process) is None]

    def strangers(self):
        """The files of the host that are no programs."""
        return [name for name, program in self.own if program is None]

    def of(self, process, name=""):
        """The program that a process executes, or None. Of several with the same words that of this name comes first."""
        own = [program for _, program in self.own if program and program.fits(process) is not None]
        if own:
            return own[0]
        found = [(-fits, os.path.basename(program.path) != os.path.basename(name), program.path, program)
                 for program in self.found if (fits := program.fits(process)) is not None]
        return min(found, key=lambda one: one[:3])[3] if found else None
