#!/usr/bin/env python3
"""Counts the machine instructions of what a program on a disk does over and over.

    speed/count.py WHAT COMMAND

COMMAND is a built v6, and WHAT the name of a table of speed/tables.py: execs, events, many, shared, signals, swapping, terminal or
waits. It needs valgrind. A program is assembled and becomes the /etc/init of a disk. COMMAND runs it over a script, and over one in which
what is counted stands twice, under callgrind, whose counts are the same at each run in the same environment; the difference of
the two counts, divided by the number of rounds in it, is what a round costs. Printed are the cost, the most that it may be, where
that is set, both under `clock 1000`, where these are counted, and what it is.
"""
import os
import re
import struct
import subprocess
import sys
import tempfile
from dataclasses import dataclass

sys.path.insert(0, os.path.dirname(os.path.dirname(os.path.realpath(__file__))))
from speed import TOP
from speed.counted import counted, put, run_with

from v6.pdp11.assembler import Assembler

# /etc/init on the disk of examples/hi: where its inode and its one block stand
INODE, BLOCK = 1216, 66 * 512
HEADER = 16  # bytes of an a.out file before its text
DEVICE = 1024 + 32 * 4 + 8  # of /dev/tty8, which is inode 5
CLOCK, SECOND = "clock 1000\n", 60_000  # sixty ticks, and so one second, in slots


@dataclass(frozen=True)
class Run:
    """A program, in assembly, and how it is run."""

    source: str
    slots: int = 0  # that are counted
    lines: str = ""  # of a script, which are counted in their place
    before: str = ""  # the lines of the script before them
    core: int = 3968
    command: str = "run"
    least: int = 0  # bytes of the program: zeros fill it up
    line: int = None  # the line of the terminal whose special file /dev/tty8 becomes

    def script(self, times):
        return self.before + (f"run {times * self.slots}\n" if self.slots else self.lines * times)


@dataclass(frozen=True)
class Row:
    """What is printed of a count."""

    name: str
    cost: float
    most: object = ""
    clocked: float = None
    clocked_most: object = ""

    def __str__(self):
        under = "" if self.clocked is None else f"{self.clocked:.1f}"
        return f"{self.cost:9.1f} {self.most:>5} {under:>8} {self.clocked_most:>4}  {self.name}"


def assembled(source):
    """The bytes of a program, without the head of its file."""
    assembler = Assembler()
    made = assembler.assemble([("a program", source)])
    if made is None:
        sys.exit("\n".join(map(str, assembler.errors)))
    return made[HEADER:]


def disk_of(text, least=0):
    """The disk of examples/hi whose /etc/init has these bytes, filled up to so many."""
    with open(f"{TOP}/examples/hi/image", "rb") as file:
        image = bytearray(file.read())
    text = text.ljust(least, b"\0")
    init = struct.pack("<8H", 0o407, len(text), 0, 0, 0, 0, 0, 0) + text
    image[BLOCK : BLOCK + 512] = init.ljust(512, b"\0")
    image[INODE + 6 : INODE + 8] = struct.pack("<H", len(init))
    return image


def of_hi(program, run, folder):
    """Makes the disk of a run, of that of examples/hi."""
    image = disk_of(assembled(run.source), run.least)
    if run.line is not None:
        image[DEVICE] = run.line
    return image


def made(program, run, folder):
    """The same of the disk that `make` makes, where more files can be put."""
    with_files(program, folder, {"/etc/init": (0o407, assembled(run.source), b"")})


def with_files(program, folder, files):
    """The disk that `make` makes, with files that are programs: of each its magic number, its text and its data."""
    subprocess.run([program, "make", "0", f"{folder}/image"], check=True)
    for name, (magic, text, data) in files.items():
        with open(f"{folder}/file", "wb") as file:
            file.write(struct.pack("<8H", magic, len(text), len(data), 0, 0, 0, 0, 0) + text + data)
        words = ["put", f"{folder}/image", f"{folder}/file", name, "--mode", "755"]
        subprocess.run([sys.executable, f"{TOP}/tools/disk.py", "--v6", program, *words], check=True, capture_output=True)


def difference(program, run, mark=None, disk=of_hi):
    """What the second half costs, and how many lines of the log it has that a mark fits."""
    took, lines = [], []
    for times in (1, 2):
        with tempfile.TemporaryDirectory() as folder:
            put(folder, run.script(times), disk(program, run, folder))
            took.append(counted([program, *run_with(run.core, run.command)], folder))
            with open(f"{folder}/log", encoding="ascii") as log:
                lines.append(sum(bool(mark and re.match(mark, line)) for line in log))
    return took[1] - took[0], lines[1] - lines[0]


def cost(program, run, rounds, disk=of_hi):
    """What a round costs, of so many."""
    return difference(program, run, disk=disk)[0] / rounds


def main(words):
    from speed import tables

    if len(words) != 2 or words[0] not in tables.TABLES or not os.access(words[1], os.X_OK):
        sys.exit(__doc__)
    for row in tables.TABLES[words[0]](os.path.abspath(words[1])):
        print(row, flush=True)


if __name__ == "__main__":
    main(sys.argv[1:])
