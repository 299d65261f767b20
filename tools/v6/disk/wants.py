"""What the programs of a disk want that isn't there, by their bytes alone: docs/tools/disk.md."""
import re
import struct
from dataclasses import dataclass

from v6.disk.survey import walk
from v6.disk.volume import BLOCKS, CHARACTER, PLAIN, ROOT, DiskError, shown
from v6.pdp11.disassembler import known
from v6.pdp11.flow import FIS, FLOATING, HEADER, SPACES, Program
from v6.pdp11.names import CALLS, MAGIC, SHARED

SEPARATE = 0o411
SETD = 0o170011  # with which a program in C begins: it is passed by
NAME = re.compile(rb"/dev/[!-~]+")
NOT_HERE = {CALLS[name]: name for name in ("ptrace", "profil")}
SIGNAL, ILLEGAL = CALLS["signal"], 4
MOST_SEGMENTS, CLICKS, CLICK = 8, 128, 64  # of an image, of a segment, of bytes
HOW = ("code", "may", "name")  # in the order of a program's lines
HEAD = ("file", "how", "what", "times", "first at", "here")


@dataclass
class Want:
    """A line of the table: how it is known, what is wanted, at which addresses, and what comes of it here."""

    how: str
    what: str
    here: str
    at: list = ()

    def cells(self, path):
        places = [str(len(self.at)), f"{min(self.at):06o}"] if self.at else ["-", "-"]
        return [shown(path), self.how, self.what, *places, self.here]


def device(inode):
    """A device in words, and what comes of it here: None where it is there."""
    kind, major, minor = inode.mode & BLOCKS, inode.addresses[0] >> 8, inode.addresses[0] & 255
    what = f"{'character' if kind == CHARACTER else 'block'} device {major}, {minor}"
    there = {(CHARACTER, 0, 0): None, (CHARACTER, 8, 2): None, (BLOCKS, 0, 1): "under run2 alone, for mount(II)"}
    lines = {(CHARACTER, 0, line): "under run8 alone" for line in range(1, 8)}
    return what, {**there, **lines}.get((kind, major, minor), "ENXIO")


def segments(size):
    return -(-size // (CLICK * CLICKS))


def header(data):
    """What is wrong with the header of a program; and whether its words are to be looked at."""
    if len(data) < HEADER:
        return [Want("header", f"no program: {len(data)} bytes", "ENOEXEC")], False
    magic, text, size, bss = struct.unpack("<4H", data[:8])
    if magic not in (MAGIC, SHARED, SEPARATE):
        return [Want("header", f"no program: magic 0{magic:03o}", "ENOEXEC")], False
    if magic == SEPARATE:
        return [Want("header", "magic 0411, separate text and data", "ENOMEM")], False
    apart, together = (text, size + bss) if magic == SHARED else (0, text + size + bss)
    found = []
    if segments(apart) + segments(together) + 1 > MOST_SEGMENTS:
        found.append(Want("header", f"{text}, {size} and {bss} bytes of text, data and bss", "ENOMEM"))
    if HEADER + text + size > len(data):
        found.append(Want("header", f"{HEADER + text + size} bytes, and the file has {len(data)}", "zeros"))
    return found, True


def instruction(word, is_reached):
    """What isn't there of an instruction: the kind; None where it is there. Of a word that may be data only what another machine of
    this kind would execute is told."""
    if known(word) or word == SETD:
        return None
    if word >= FLOATING or word in FIS:
        return "floating point"
    if word in SPACES:
        return "MFPI, MTPI"
    return "no instruction" if is_reached else None


def call(number):
    if number in NOT_HERE:
        return f"{NOT_HERE[number]}(II), call {number}"
    return None if number in CALLS.values() else f"call {number}"


class Wants:
    """What a program wants that isn't there."""

    def __init__(self, volume, data):
        self.volume, self.found, self.asks = volume, {}, False
        self.headers, is_read = header(data)
        self.is_program = not any(want.here == "ENOEXEC" for want in self.headers)
        if is_read:
            program = Program(data)
            reached = program.reached()
            for at in sorted(reached):
                self.look(program, at, "code")
            for at in program.others(reached):
                self.look(program, at, "may")
            self.names(program)

    def add(self, how, what, here, at):
        self.found.setdefault((how, what), Want(how, what, here, [])).at.append(at)

    def look(self, program, at, how):
        word, called = program.word(at), program.call_at(at)
        what = instruction(word, how == "code")
        if what:
            self.add(how, what, "signal 4", at)
        if called:
            number, itself, arguments = called
            self.asks |= number == SIGNAL and program.word(arguments) == ILLEGAL and program.word(arguments + 2) != 0
            if call(number):
                self.add(how if itself else "may", call(number), "signal 12", at)

    def names(self, program):
        """Names below /dev among the bytes. Whether the program opens them isn't known."""
        for start, part in program.parts:
            for match in NAME.finditer(part):
                here = self.named(match[0])
                if here:
                    self.add("name", shown(match[0]), here, start + match.start())

    def named(self, path):
        try:
            inode = self.volume.inode(self.volume.find(path))
        except DiskError:
            return "not on the disk"
        if not inode.is_device():
            return None
        what, here = device(inode)
        return here and f"{what}: {here}"

    def lines(self):
        for want in self.found.values():
            if want.here == "signal 4" and self.asks:
                want.here += ", for which it asks"
        return self.headers + sorted(self.found.values(), key=lambda want: (HOW.index(want.how), min(want.at)))


def is_program(inode, data):
    """Whether a file can be executed and has the header of a program."""
    return bool(inode.mode & 0o111) and len(data) >= HEADER and struct.unpack("<H", data[:2])[0] in (MAGIC, SHARED, SEPARATE)


def below(volume, tops):
    """The files of these places, each once: the path, the inode, its bytes, and whether it is a program or a device. What is named is
    one, whatever it has."""
    met = set()
    for number, path in tops:
        is_named = number != ROOT and not volume.inode(number).is_directory()
        for one, full, _ in walk(volume, number, path):
            if one in met or not volume.is_used(one):
                continue
            met.add(one)
            inode = volume.inode(one)
            if inode.is_device():
                yield full, inode, None
            elif inode.mode & BLOCKS == PLAIN:
                data = volume.read(inode)
                if is_named or is_program(inode, data):
                    yield full, inode, data


def table(volume, tops, progress):
    """The lines of the table, and how many programs, devices and other files there were, and of how many there is a line."""
    rows, counts = [], [0, 0, 0, 0]
    for path, inode, data in below(volume, tops):
        progress.tell(shown(path))
        if data is None:
            what, here = device(inode)
            kind, found = 1, [Want("device", what, here)] if here else []
        else:
            wants = Wants(volume, data)
            kind, found = 0 if wants.is_program else 2, wants.lines()
        counts[kind] += 1
        counts[3] += bool(found)
        rows += [want.cells(path) for want in found]
    rows = [list(HEAD)] * bool(rows) + rows
    widths = [max(len(row[n]) for row in rows) for n in range(len(HEAD))] if rows else []
    right = (3,)  # the column of numbers
    return ["  ".join(f"{cell:{'>' if n in right else '<'}{widths[n]}}" for n, cell in enumerate(row)).rstrip() for row in rows], counts
