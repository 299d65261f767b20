#!/usr/bin/env python3
"""Counts the machine instructions that a call on files takes, its whole turn included.

    speed/calls.py COMMAND

It needs valgrind. For each call below a disk is made whose /etc/init makes the call over and over. The program runs it
for a number of rounds and for twice that number under callgrind, whose counts are the same at each run in the same
environment; the difference of the two counts, divided by the number, is what a round costs. Printed is what it costs
more than a round of the same program without the call. Of a search it is what a name late in a directory costs more
than an early one, for each entry between them.

Then two disks are run by `run2`: printed is what a read costs on the first and on the second, which is mounted, and what a name
that crosses costs more than the same name before the mount.

Before a program is measured it is run with a test after each call, that C is clear and R0 as it should be, and must
show that it came through: by the v6 itself, and, where the environment variable ABSTRACT_UNIX names its folder, by the
reference too (see judge/compare/file_calls.py).
"""
import collections
import functools
import os
import random
import struct
import subprocess
import sys
import tempfile

sys.path.insert(0, os.path.dirname(os.path.dirname(os.path.realpath(__file__))))
from judge.compare.file_calls import reference
from speed.instructions import RUN, count
from judge.random.disk import CONSOLE, Inode, Tree, Writer, entry, in_blocks
from judge.random.program import MOST_BYTES, TRAP, Words

ROUNDS = 500
# a process has 15 descriptors, so twice as many rounds leave some of them free
ROUNDS_OF_OPEN = 6
FREE_BLOCKS = 200
BUFFER, BUFFER_BYTES = 1024, 512
BR, BNE, BCS = 0o000400, 0o001000, 0o103400

SECOND_DISK = 1
RUN2 = ["run2", *RUN[1:], "second", "final2"]

# a call, its arguments (a number or a name), and what it puts into R0, where that is known
Call = collections.namedtuple("Call", "number args gives", defaults=(None,))
# what is in the loop before the call, the calls, what comes before the loop, and whether there is a second disk
Program = collections.namedtuple("Program", "before calls first rounds two", defaults=((), ROUNDS, False))


def opened(name, mode):
    return Call(5, (name, mode))


def moved(number, size):
    """A read or a write."""
    return Call(number, (BUFFER, size), size)


CLOSE, DUP, STAT = Call(6, ()), Call(41, ()), 18
R0_TO_R5, R5_TO_R0 = 0o010005, 0o010500
FILE = (opened("/u/file", 2), R0_TO_R5)
AT_START = (R5_TO_R0, Call(19, (0, 0)))

CALLS = [
    ("open of /etc/init", Program((), (opened("/etc/init", 0),), rounds=ROUNDS_OF_OPEN)),
    ("open of /etc/init, and its close", Program((), (opened("/etc/init", 0), CLOSE))),
    ("creat of a new name, its close and its unlink",
     Program((), (Call(8, ("/u/new", 0o644)), CLOSE, Call(10, ("/u/new",))))),
    ("dup, and its close", Program((R5_TO_R0,), (DUP, CLOSE), FILE)),
    ("seek", Program((R5_TO_R0,), (Call(19, (0, 0)),), FILE)),
    ("read of 1 byte", Program(AT_START, (moved(3, 1),), FILE)),
    ("read of 512 bytes", Program(AT_START, (moved(3, 512),), FILE)),
    ("write of 1 byte", Program(AT_START, (moved(4, 1),), FILE)),
    ("write of 512 bytes", Program(AT_START, (moved(4, 512),), FILE)),
    ("stat of /etc/init", Program((), (Call(STAT, ("/etc/init", BUFFER)),))),
]
# what each of two disks has, the root's in /u and, for a name that doesn't cross, in /m too
MOUNT = Call(21, ("/dev/rk1", "/m", 0))
ON_TWO = [
    (f"read of 512 bytes on the {name} disk", Program(AT_START, (moved(3, 512),), (MOUNT, opened(path, 2), R0_TO_R5), two=True))
    for name, path in (("first", "/u/file"), ("second", "/m/file"))
]
# what a search looks through: how many entries a directory has, beside its own two
DIRECTORIES = {"/u/small": 98, "/u/large": 998}


def name_of(place):
    return f"n{place:03}"


class Disk(Tree):
    """A disk with what the programs need, and nothing odd."""

    def __init__(self):
        self.rng, self.inodes, self.entries, self.paths = random.Random(0), {}, {}, []
        self.isize, self.time = 2, 0
        self.count = 16 * self.isize
        self.numbers = list(range(self.count, 1, -1))
        root = self.add(None, "", Inode(0o140755))
        etc, dev, u = (self.add(root, name, Inode(0o140755)) for name in ("etc", "dev", "u"))
        self.init = self.add(etc, "init", Inode(0o100755))
        self.add(dev, "tty8", Inode(0o120666, device=CONSOLE))
        self.file = self.add(u, "file", Inode(0o100644, BUFFER_BYTES, in_blocks(bytes(BUFFER_BYTES))))
        for path, names in DIRECTORIES.items():
            ino = self.add(u, path.split("/")[-1], Inode(0o140755))
            self.entries[ino] += [(self.file, name_of(place).encode()) for place in range(names)]

    def add_second(self):
        """The directory on which a second disk is mounted, with a file of the name that is there too, and its special file."""
        m = self.add(1, "m", Inode(0o140755))
        self.entries[m].append((self.file, b"file"))
        dev = next(ino for ino, name in self.entries[1] if name == b"dev")
        self.add(dev, "rk1", Inode(0o160666, device=SECOND_DISK))

    def with_init(self, init):
        """The bytes of the disk whose /etc/init is these bytes."""
        data = {ino: b"".join(entry(*row) for row in rows) for ino, rows in self.entries.items()}
        for ino, bytes_held in {**data, self.init: init}.items():
            inode = self.inodes[ino]
            inode.size, inode.blocks = len(bytes_held), in_blocks(bytes_held)
            inode.mode |= 0o10000 if max(inode.blocks) > 7 else 0
        for inode in self.inodes.values():
            inode.nlink = 1
        used = sum(inode.held() for inode in self.inodes.values() if not inode.is_device())
        self.fsize = self.isize + 2 + used + FREE_BLOCKS
        return Writer(self.rng, self).written(FREE_BLOCKS)


def put(w, items, judged):
    for item in items:
        if not isinstance(item, Call):
            w.put(item)
            continue
        w.put(TRAP | item.number, *("=" + arg if isinstance(arg, str) else arg for arg in item.args))
        if judged:
            w.back(BCS, "failed")
            if item.gives is not None:
                w.put(0o020027, item.gives)                 # CMP R0,#gives
                w.back(BNE, "failed")


def names(program):
    calls = [item for item in (*program.first, *program.before, *program.calls) if isinstance(item, Call)]
    return {arg for call in calls for arg in call.args if isinstance(arg, str)} | {"/dev/tty8"}


def init_of(program, judged):
    """The file /etc/init: a loop for ever; or three judged rounds, and then a line on the console."""
    w = Words()
    w.put(BR | 1)
    w.label("failed")
    w.put(BR | 0o377)
    put(w, program.first, judged)
    if judged:
        w.put(0o012704, 3)                                  # MOV #3,R4
    w.label("loop")
    put(w, program.before, judged)
    put(w, program.calls, judged)
    if judged:
        w.sob(4, "loop")
        put(w, (opened("/dev/tty8", 1), Call(4, ("done\n", 5), 5), BR | 0o377), judged)
    else:
        w.back(BR, "loop")
    for name in sorted(names(program)) + ["done\n"]:
        w.label("=" + name)
        w.data(name.encode() + b"\0")
    body = w.bytes()
    assert len(body) <= BUFFER
    return struct.pack("<8H", 0o407, MOST_BYTES, 0, 0, 0, 0, 0, 0) + body.ljust(MOST_BYTES, b"\0")


class Second(Disk):
    """A disk with one file."""

    def __init__(self):
        self.rng, self.inodes, self.entries, self.paths = random.Random(0), {}, {}, []
        self.isize, self.time = 2, 0
        self.count = 16 * self.isize
        self.numbers = list(range(self.count, 1, -1))
        root = self.add(None, "", Inode(0o140755))
        self.init = self.add(root, "file", Inode(0o100644))


def write_image(folder, program, judged):
    disk = Disk()
    if program.two:
        disk.add_second()
        with open(f"{folder}/second", "wb") as file:
            file.write(Second().with_init(bytes(BUFFER_BYTES)))
    with open(f"{folder}/image", "wb") as file:
        file.write(disk.with_init(init_of(program, judged)))


def shown(run, words, term):
    """What the console shows of a run."""
    run(words)
    with open(term, "rb") as file:
        return file.read()


def judge(command, program):
    """Ends the count where a call of the program fails."""
    runs = [lambda words: subprocess.run([command, *words], check=True)]
    if "ABSTRACT_UNIX" in os.environ:
        runs.append(lambda words: reference(*words))
    with tempfile.TemporaryDirectory() as folder:
        write_image(folder, program, True)
        with open(f"{folder}/script", "w") as file:
            file.write("run 200\n")
        verb, image, core, *files = RUN2 if program.two else RUN
        words = [verb, f"{folder}/{image}", core, *(f"{folder}/{name}" for name in files)]
        for run in runs:
            if shown(run, words, f"{folder}/term") != b"DONE\r\n":
                sys.exit(f"a call fails: {program}")


@functools.cache
def cost_of_round(command, program):
    # a slot for each instruction, with a round's last branch; the exec and the first branch are before
    slots, before = len(program.before) + len(program.calls) + 1, len(program.first) + 2
    with tempfile.TemporaryDirectory() as folder:
        write_image(folder, program, False)
        run = RUN2 if program.two else RUN
        once, twice = (count(command, before + slots * n, folder, run=run) for n in (program.rounds, 2 * program.rounds))
    return (twice - once) / program.rounds


def cost(command, program):
    judge(command, program)
    return cost_of_round(command, program) - cost_of_round(command, program._replace(calls=(), rounds=ROUNDS))


def cost_of_entry(command, path, last):
    calls = [Call(STAT, (f"{path}/{name_of(place)}", BUFFER)) for place in (0, last)]
    early, late = (cost(command, Program((), (call,))) for call in calls)
    return (late - early) / last


def cost_of_crossing(command):
    """What the name of a file on the second disk costs more than the same name of one on the root's, before the mount."""
    stat = Call(STAT, ("/m/file", BUFFER))
    plain, crossing = (cost(command, Program((), (stat,), first, two=True)) for first in ((), (MOUNT,)))
    return crossing - plain


def main():
    if len(sys.argv) != 2 or not os.access(sys.argv[1], os.X_OK):
        sys.exit(__doc__)
    command = os.path.abspath(sys.argv[1])
    for name, program in CALLS:
        print(f"{cost(command, program):8.0f}  {name}", flush=True)
    for path, entries in DIRECTORIES.items():
        print(f"{cost_of_entry(command, path, entries - 1):8.1f}  an entry looked at, of {entries + 2}", flush=True)
    for name, program in ON_TWO:
        print(f"{cost(command, program):8.0f}  {name}", flush=True)
    print(f"{cost_of_crossing(command):8.0f}  a name that crosses", flush=True)


if __name__ == "__main__":
    main()
