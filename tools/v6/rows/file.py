"""Row files: whole runs, each with what it must come to. docs/rows.md has the language."""
import functools
import os
import re

from v6.host.program import TOP
from v6.pdp11.assembler import Assembler

DATA = os.path.join(TOP, "crates", "run_rows", "data")
HI = os.path.join(TOP, "examples", "hi", "image")
HI_BYTES = 34304
DISK_BYTES = 2494464  # of a disk that a run leaves
SWAP_AT = 2048000  # where its swap area begins
INODE_7, HEADER, TEXT = 1216, 33792, 33808  # of /etc/init on the disk of examples/hi
PROGRAM = ("before", "init", "after")  # parts of a program, in their order
TERMINALS = {"term": 0, **{f"term {line}": line for line in range(1, 8)}}  # sections, and the lines whose bytes they have
PANIC = 7  # the status of a run that comes to a panic
NUMBERS = ("core", "clicks", "fill", "status", "shown")
LINES = ("report", "command", "audit")
ESCAPES = {"n": b"\n", "r": b"\r", "t": b"\t", "\\": b"\\", '"': b'"'}
TIMES = re.compile(r"(\d+) times (.*)")


class RowError(Exception):
    """What is wrong with a row file."""


def unquoted(text):
    """The bytes of a text in quotes."""
    if len(text) < 2 or text[-1] != '"':
        raise RowError(f"{text}: the text has no end")
    out = re.split(r"\\(.?[0-7]{0,2})", text[1:-1])
    data = b""
    for plain, escape in zip(out[::2], out[1::2] + [None]):
        if '"' in plain:
            raise RowError(f"{text}: a quote inside needs a \\ before it")
        data += plain.encode("ascii")
        if escape is None:
            continue
        if re.fullmatch("[0-3][0-7][0-7]", escape):
            data += bytes([int(escape, 8)])
        elif escape[:1] in ESCAPES:
            data += ESCAPES[escape[0]] + escape[1:].encode()
        else:
            raise RowError(f"{text}: \\{escape}: no such escape")
    return data


def ascii_text(line):
    odd = next((byte for byte in line if byte > 0o177), None)
    if odd is not None:
        raise RowError(f"the byte {odd:03o} isn't ASCII")
    return line.decode("ascii")


def item(text):
    """The bytes of a line of a script, of the terminal or of the log: in quotes, or itself with a new line."""
    return unquoted(text) if text.startswith('"') else text.encode("ascii") + b"\n"


def repeated(text):
    """The same, where it may be repeated: `3 times tick` or `59 times tick i, idle`."""
    found = TIMES.fullmatch(text)
    if not found:
        return item(text)
    parts = [found[2]] if found[2].startswith('"') else found[2].split(", ")
    return b"".join(item(part) for part in parts) * int(found[1])


def octal_words(text):
    words = text.split()
    if not all(re.fullmatch("[0-7]{1,6}", word) and int(word, 8) < 65536 for word in words):
        raise RowError(f"{text}: octal words are wanted")
    return b"".join(int(word, 8).to_bytes(2, "little") for word in words)


class Disk:
    """What a row says of a disk: what it is before the run, and what is left of it."""

    def __init__(self, name):
        self.name = name
        self.numbers = {"size": None, "made": None}
        self.pieces, self.files, self.left, self.left_all, self.check = [], [], None, False, None

    def image(self, base, program=None):
        """The bytes of the disk. The base is that of examples/hi, or the one that is made."""
        if self.numbers["size"] and self.numbers["made"]:
            raise RowError(f"{self.name}: the size of a disk that is made is given")
        size = self.numbers["size"] or len(base)
        image = bytearray(base[:size].ljust(size, b"\0"))
        pieces = []
        if program is not None:
            count = len(program).to_bytes(2, "little")
            pieces += [(INODE_7 + 6, (16 + len(program)).to_bytes(2, "little")), (HEADER + 2, count + bytes(4)), (TEXT, program)]
        for inode, block, data, _ in self.files:
            pieces += [(1024 + 32 * (inode - 1) + 6, len(data).to_bytes(2, "little")), (512 * block, data)]
        put(image, pieces + self.pieces)
        return bytes(image)

    def wanted(self, image):
        """The whole disk that is left, or None where pieces of it count."""
        if not self.left_all:
            return None
        disk = bytearray(image.ljust(DISK_BYTES, b"\0"))
        put(disk, self.left or [])
        return bytes(disk)


class Row:
    """What a row file says, with its frames. Each line of a program also stays as (address, words or None, source)."""

    def __init__(self, name, data=DATA):
        self.name, self.data = name, data
        self.remarks, self.frames = [], []
        self.numbers = {"core": 1200, "clicks": 37, "fill": 0, "status": 0, "shown": None}
        self.lines = {"report": b"", "command": None, "audit": None}
        self.parts = dict.fromkeys(PROGRAM)
        self.sources = {"before": [], "init": [], "after": [], "over": []}
        self.disk, self.second = Disk(name), None
        self.script, self.terms, self.log = b"", [b""] * len(TERMINALS), None
        self.is_booted = self.is_end = False
        self.read(os.path.join("rows", name))

    def disks(self):
        """The disks of which it speaks."""
        return [self.disk] if self.second is None else [self.disk, self.second]

    def read(self, path):
        with open(os.path.join(self.data, path), "rb") as file:
            lines = file.read().split(b"\n")
        self.section, self.own = None, path.startswith("rows")
        for number, line in enumerate(lines, 1):
            try:
                self.line(ascii_text(line))
            except (RowError, ValueError) as error:
                raise RowError(f"{path}:{number}: {error}") from None

    def line(self, line):
        if line.startswith("#"):
            if self.own:
                self.remarks.append(line[1:].strip())
        elif line.startswith(" "):
            self.content(line.strip())
        elif line:
            name, _, rest = line.partition(" ")
            self.directive(name, rest.strip())

    def directive(self, name, rest):
        self.section = None
        if name == "frame" and self.own:
            self.frames.append(rest)
            self.read(os.path.join("frames", rest))
            self.section, self.own = None, True
        elif name in NUMBERS:
            self.numbers[name] = int(rest)
        elif name in LINES:
            self.lines[name] = rest.encode("ascii") + b"\n" * (name != "command")
        elif name == "told":
            self.terms[0] = octal_words(rest)
        elif name == "second" and not rest and self.second is None:
            self.second = Disk(self.name)
        elif not self.of_a_disk(self.disks()[-1], name, rest):
            self.open(f"{name} {rest}".rstrip())

    def of_a_disk(self, disk, name, rest):
        """Takes a line that says one thing of a disk, the second one where it has begun; whether it is such a line."""
        if name in disk.numbers:
            disk.numbers[name] = int(rest)
        elif name == "check":
            disk.check = rest.encode("ascii") + b"\n"
        elif name == "file":
            inode, block = map(int, rest.split())
            self.section = "file"
            disk.files.append((inode, block, bytearray(), []))
        elif name == "left" and rest == "all":
            disk.left_all = True
        else:
            return False
        return True

    def open(self, name):
        self.section = name
        if name in self.parts:
            self.parts[name] = bytearray()
        elif name == "script":
            self.script = b""
        elif name in TERMINALS:
            self.terms[TERMINALS[name]] = b""
        elif name == "log":
            self.log = self.log or b""
        elif name == "left":
            self.disks()[-1].left = self.disks()[-1].left or []
        elif name not in ("over", "disk"):
            raise RowError(f"{name}: no such line")

    def content(self, text):
        if self.section == "script":
            self.script += repeated(text)
        elif self.section in TERMINALS:
            self.terms[TERMINALS[self.section]] += repeated(text)
        elif self.section == "log":
            self.log_line(text)
        elif self.section in ("disk", "left"):
            disk = self.disks()[-1]
            (disk.pieces if self.section == "disk" else disk.left).append(piece(text))
        elif self.section in (*PROGRAM, "over", "file"):
            self.words(text)
        else:
            raise RowError("a line of no section")

    def log_line(self, text):
        if text not in ("booted", ".."):
            self.log += repeated(text)
        elif self.log:
            raise RowError(f"{text} is the first line of a log")
        else:
            self.is_booted, self.is_end = text == "booted", text == ".."

    def words(self, text):
        """A line of a program: its address, words or a text, and the source of the words."""
        at, rest = (text.split(None, 1) + [""])[:2]
        if rest.startswith('"'):
            data, source = unquoted(rest), None
        else:
            found, _, source = rest.partition(";")
            data = octal_words(found)
        if self.section == "over":
            self.disk.pieces.append((TEXT + int(at, 8), data))
            self.sources["over"].append((int(at, 8), data, source))
            return
        whole, sources = self.parts.get(self.section), self.sources.get(self.section)
        if self.section == "file":
            _, _, whole, sources = self.disks()[-1].files[-1]
        if self.section == "file" and at == "header":
            if whole or len(data) != 16:
                raise RowError("a header has eight words, and stands first")
        else:
            start = {"init": len(self.parts["before"] or b""), "file": -16}.get(self.section, 0)
            address = start + len(whole)
            if int(at, 8) != address:
                raise RowError(f"the address is {address:o}, and not {at}")
            sources.append((address, data, source))
        whole += data

    def programs(self):
        """The lines of each program that have a source: the part or the file, and (address, words, source) each."""
        parts = [*self.sources.items(), *((f"file {inode}", sources) for inode, _, _, sources in self.files())]
        for name, sources in parts:
            lines = tuple((at, bytes(data), source) for at, data, source in sources if source)
            if lines:
                yield name, lines

    def check_sources(self):
        """Holds the words of each program to the sources beside them."""
        for name, lines in self.programs():
            made, errors = assembled(lines)
            for at, data, source in lines:
                came = made and made[at : at + len(data)]
                if came is not None and came != data:
                    raise RowError(f"{self.name}: {name}, {at:o}: '{source.strip()}' is {octal(came)}, and {octal(data)} stands there")
            if errors:
                raise RowError(f"{self.name}: {name}: {errors[0]}")

    def program(self):
        """The bytes of /etc/init after its header, or None where the disk's own program stays."""
        parts = [part for part in self.parts.values() if part is not None]
        return b"".join(parts).ljust(self.numbers["fill"], b"\0") if parts else None

    def files(self):
        """The files that are put on the disks."""
        return [file for disk in self.disks() for file in disk.files]

    def image(self, base):
        """The bytes of the first disk, with the program in the place of its /etc/init."""
        return self.disk.image(base, self.program())

    def command(self):
        """The words of the command, in which the files are called so."""
        run = f"run image {self.numbers['core']} script term log final"
        return run if self.lines["command"] is None else self.lines["command"].decode()

    def wanted_log(self, image):
        """The log, with what `booted` stands for, or its end; None where its last line alone counts."""
        if self.log is None or not self.is_booted:
            return self.log
        high, low = (int.from_bytes(image[at : at + 2], "little") for at in (924, 926))
        booted = (f"boot {self.numbers['core']} {high << 16 | low}\nsleep 0 -100 runout\ngo 1\nbare 1\n"
                  f"image 1 {self.numbers['clicks']} at 1\ntrap 1\ngo 1\n")
        return booted.encode() + self.log

    def is_run(self):
        """Whether the command is one of those that keep a log: `run`, and those of more lines or disks."""
        return self.command().startswith("run")

    def ends(self):
        """Whether the log's last line is `end`: where a run is done."""
        return self.numbers["status"] == 0 and self.is_run()

    def leaves_disk(self):
        """Whether a disk is left: where a run is done, or comes to a panic and isn't `memory`."""
        return self.numbers["status"] == 0 or (self.numbers["status"] == PANIC and self.is_run())


@functools.lru_cache(maxsize=None)
def assembled(lines):
    """The bytes of a program, of which each line with a source is assembled at its address, and zeros are between."""
    assembler, text, end = Assembler(), "", 0
    for at, words, source in lines:
        text += f"\t.=.+{at - end:o}\n\t{source}\n"
        end = at + len(words)
    made = assembler.assemble([("row", text)])
    return made and made[16:], assembler.errors


def octal(data):
    return " ".join(f"{int.from_bytes(data[at : at + 2], 'little'):06o}" for at in range(0, len(data), 2))


def put(disk, pieces):
    for at, data in pieces:
        end = min(len(disk), at + len(data))
        disk[at:end] = data[: max(0, end - at)]


def piece(text):
    """A line of bytes of a disk: where they stand, and the bytes in hexadecimal or a text. Its comment names the place."""
    at, rest = text.split(None, 1)
    if rest.startswith('"'):
        return int(at), unquoted(rest)
    found, _, comment = rest.partition(";")
    found, wanted = found.split(), place(int(at), len(found.split()))
    if not all(re.fullmatch("[0-9a-f]{2}", byte) for byte in found):
        raise RowError(f"{rest}: bytes in hexadecimal are wanted")
    if comment and comment.strip() != wanted:
        raise RowError(f"'{comment.strip()}': what stands at {at} is '{wanted}'")
    return int(at), bytes(int(byte, 16) for byte in found)


def names(data=DATA):
    """The names of all rows, in order."""
    folder = os.path.join(data, "rows")
    return sorted(f"{family}/{name}" for family in os.listdir(folder) for name in os.listdir(os.path.join(folder, family)))


FIELDS = [(0, "mode"), (2, "links"), (3, "owner"), (4, "group"), (5, "size"), (8, "addresses"), (24, "accessed"),
          (28, "modified"), (32, "")]
SUPER = [(512, "isize"), (514, "fsize"), (516, "nfree"), (518, "free"), (718, "ninode"), (720, "inode"), (920, "flags"),
         (924, "time"), (928, "rest")]
BLOCKS = {0: "boot block", 62: "/", 63: "/etc", 64: "/dev", 65: "/u"}


def covered(fields, at, end):
    """The names of the fields of which bytes from one place up to another are."""
    ends = [start for start, _ in fields[1:]] + [1 << 30]
    return ", ".join(name for (start, name), stop in zip(fields, ends) if start < end and at < stop)


def place(at, count):
    """What stands at some bytes of the disk of examples/hi, or of one that is made: the comment of their line."""
    end = at + count
    if 512 <= at < 1024:
        return f"super-block: {covered(SUPER, at, end)}"
    if 1024 <= at < 31744:
        inode = (at - 1024) // 32
        start = 1024 + 32 * inode
        return f"inode {inode + 1}: {covered(FIELDS, at - start, min(end - start, 32))}"
    if HEADER <= at < TEXT:
        return "/etc/init: " + covered([(0, "magic"), (2, "text"), (4, "data"), (6, "bss"), (8, "rest"), (16, "")],
                                       at - HEADER, min(end, TEXT) - HEADER)
    block = at // 512
    if at // 512 in (62, 63, 64, 65):
        return f"{BLOCKS[block]}: entry {at % 512 // 16}"
    return BLOCKS.get(block, f"block {block}")
