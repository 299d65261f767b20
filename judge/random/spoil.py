"""Spoils disks, scripts and programs: byte by byte, and field by field.

What is given is never changed; what comes back is new. The same random numbers give the same.
"""
import struct

from judge.random.script import KEYS, NO_LINES

BLOCK, DISK_BYTES, FILES_END = 512, 2494464, 4000
SUPER, INODES = 512, 1024  # where the super-block and the inodes begin
LARGE, TYPES, DIRECTORY, CHARACTER = 0o10000, 0o60000, 0o40000, 0o20000
# the fields of an inode: place, bytes
INODE_FIELDS = {"mode": (0, 2), "links": (2, 1), "owner": (3, 1), "group": (4, 1), "size": (5, 1), "low size": (6, 2),
                **{f"address {n}": (8 + 2 * n, 2) for n in range(8)}, "accessed": (24, 4), "changed": (28, 4)}
# what doesn't make a disk one that is refused
MILD_FIELDS = ("mode", "links", "owner", "group", "size", "low size", "accessed", "changed")
MODES = (0o100644, 0o100755, 0o107777, 0o104755, 0o101755, 0o100000, 1, 0o40755, 0o140755, 0o140000, 0o120666, 0o160666,
         0o110755)
SIZES = (0, 1, 15, 16, 17, 48, 49, 511, 512, 513, 4095, 4096, 4097, 65519, 65520, 65535)
RECORD = {"links": (0, 1, 2, 126, 127, 128, 255), "size": (0, 0, 1, 255)}


def put(image, at, data):
    """The image with these bytes at a place, as long as it must be."""
    out = bytearray(image.ljust(at + len(data), b"\0"))
    out[at : at + len(data)] = data
    return bytes(out)


class Disk:
    """A disk that is spoiled, and where its fields stand."""

    def __init__(self, rng, image):
        self.rng, self.image = rng, image
        self.isize, self.fsize = struct.unpack("<2H", self.bytes_at(SUPER, 4))

    def bytes_at(self, at, count):
        return self.image[at : at + count].ljust(count, b"\0")

    def word(self, at):
        return int.from_bytes(self.bytes_at(at, 2), "little")

    def put(self, at, data):
        self.image = put(self.image, at, data)

    def put_word(self, at, value):
        self.put(at, struct.pack("<H", value & 0xFFFF))

    def odd(self, chance):
        return self.rng.random() < chance

    def inode_at(self, number):
        return INODES + 32 * (number - 1)

    def used(self):
        """The numbers of the inodes in use, with their modes; at most the first 960."""
        numbers = range(1, min(16 * self.isize, 960) + 1)
        return [(number, mode) for number in numbers if (mode := self.word(self.inode_at(number)))]

    def some_block(self):
        """A number of a block: any, one of the edges, or one that a file holds."""
        edges = (0, 1, 2, self.isize + 1, self.isize + 2, self.fsize - 1, self.fsize, 3999, 4000, 4871, 4872, 65535)
        if self.odd(0.4):
            return self.rng.choice(edges) & 0xFFFF
        held = [self.word(self.inode_at(number) + 8 + 2 * n) for number, _ in self.used() for n in range(8)]
        held = [block for block in held if block]
        return self.rng.choice(held) if held and self.odd(0.5) else self.rng.randrange(max(self.fsize, 1))

    # fields

    def super_field(self):
        kinds = [("isize", 512), ("fsize", 514), ("nfree", 516), ("ninode", 718), ("time", 924), ("flags", 920)]
        name, at = self.rng.choice(kinds)
        old = self.word(at)
        values = [0, 1, 2, 99, 100, 101, 4000, 4001, 65535, old + 1, old - 1, self.rng.getrandbits(16), self.fsize, self.isize]
        self.put_word(at, self.rng.choice(values))

    def free_number(self):
        """A number of the free list, in the super-block or in a block that has a group."""
        count, at = self.word(516), 518
        if count and count <= 100 and self.odd(0.5):
            first = self.word(518)
            if self.isize + 2 <= first < self.fsize:
                at = BLOCK * first + 2
                count = min(self.word(at - 2), 100)
                if self.odd(0.2):
                    self.put_word(at - 2, self.rng.choice((0, 1, 100, 101, 65535)))
        self.put_word(at + 2 * self.rng.randrange(max(count, 1)), self.some_block())

    def spare_number(self):
        """A number of the list of free inodes, or how many of them count."""
        if self.odd(0.3):
            self.put_word(718, self.rng.choice((0, 1, 3, 99, 100)))
        values = (0, 1, 16 * self.isize, 16 * self.isize + 1, 60000, 65535, self.rng.randrange(1, 16 * self.isize + 2))
        self.put_word(720 + 2 * self.rng.randrange(8), self.rng.choice(values))

    def inode_field(self, names=tuple(INODE_FIELDS)):
        used = self.used()
        if not used:
            return
        number = self.rng.choice(used)[0]
        name = self.rng.choice(names)
        place, count = INODE_FIELDS[name]
        at = self.inode_at(number) + place
        old = int.from_bytes(self.bytes_at(at, count), "little")
        if name == "mode":
            value = self.rng.choice((*MODES, old ^ 1 << self.rng.randrange(16), old ^ 1 << self.rng.randrange(12)))
        elif name.startswith("address"):
            value = self.some_block()
        elif name == "low size":
            value = self.rng.choice((*SIZES, old + 1, old - 1, old + 512))
        else:
            value = self.rng.choice((*RECORD.get(name, (0, 1, 7, 255)), self.rng.getrandbits(8 * count)))
        self.put(at, (value & (1 << 8 * count) - 1).to_bytes(count, "little"))

    def mild_field(self):
        self.inode_field(MILD_FIELDS)

    def directories(self):
        return [number for number, mode in self.used() if mode & TYPES == DIRECTORY and not mode & LARGE]

    def entry(self):
        """An entry of a directory: its inode, its name, or both."""
        found = self.directories()
        if not found:
            return
        at = self.inode_at(self.rng.choice(found))
        block, size = self.word(at + 8), self.word(at + 6)
        if not self.isize + 2 <= block < self.fsize:
            return
        place = BLOCK * block + 16 * self.rng.randrange(max(min(size, BLOCK) // 16, 1))
        numbers = [number for number, _ in self.used()]
        if self.odd(0.7):
            values = (0, 1, 16 * self.isize, 16 * self.isize + 1, 65535, self.rng.choice(numbers))
            self.put_word(place, self.rng.choice(values))
        if self.odd(0.5):
            names = (b"", b".", b"..", b"a", b"init", b"core", b"a/b", b"\xff" * 14, self.bytes_at(place + 2, 14),
                     self.rng.randbytes(14))
            self.put(place + 2, self.rng.choice(names).ljust(14, b"\0"))

    def table_entry(self):
        """An address in an indirect block."""
        large = [number for number, mode in self.used() if mode & LARGE and not mode & CHARACTER]
        if not large:
            return
        block = self.word(self.inode_at(self.rng.choice(large)) + 8 + 2 * self.rng.choice((0, 0, 0, 1, 6, 7)))
        if self.isize + 2 <= block < self.fsize:
            self.put_word(BLOCK * block + 2 * self.rng.choice((0, 1, 255, self.rng.randrange(256))), self.some_block())

    # bytes

    def some_bytes(self):
        """Bytes anywhere, in the super-block, or in the inodes."""
        end = len(self.image)
        first, last = self.rng.choice(((0, end), (SUPER, INODES), (INODES, INODES + 512 * max(self.isize, 1)), (INODES, end)))
        for _ in range(self.rng.choice((1, 1, 2, 5, 20))):
            at = self.rng.randrange(first, max(min(last, end), first + 1))
            old = self.bytes_at(at, 1)[0]
            value = self.rng.choice((0, 255, old ^ 1 << self.rng.randrange(8), self.rng.randrange(256)))
            self.put(at, bytes((value,)))

    def some_block_of_bytes(self):
        """A whole block becomes zeros, ones, random bytes, or another block."""
        last = max(len(self.image) // BLOCK, 3)
        at, other = BLOCK * self.rng.randrange(1, last), BLOCK * self.rng.randrange(1, last)
        choices = (bytes(BLOCK), b"\xff" * BLOCK, self.rng.randbytes(BLOCK), self.bytes_at(other, BLOCK))
        self.put(at, self.rng.choice(choices))

    def length(self):
        """The image is cut, or gets more bytes than it had, perhaps more than a disk has."""
        kind = self.rng.randrange(6)
        if kind < 3:
            self.image = self.image[: self.rng.randrange(len(self.image) + 1)]
        elif kind == 3:
            self.image = self.image.ljust(self.rng.choice((DISK_BYTES, DISK_BYTES - 1, 2048000, 2048001)), b"\0")
        elif kind == 4:
            self.image = self.image.ljust(DISK_BYTES + self.rng.choice((0, 1, 512, 100000)), b"\1")
        else:
            self.image = self.image[: self.rng.choice((0, 1, 511, 512, 513, 1023, 1024))]


def spoiled_disk(rng, image, mild=False):
    """A disk with one to eight changes. Mild ones are such that it mostly can be run still."""
    disk = Disk(rng, image)
    mild_kinds = (disk.mild_field, disk.mild_field, disk.mild_field, disk.entry, disk.entry, disk.spare_number)
    all_kinds = (*mild_kinds, disk.super_field, disk.free_number, disk.free_number, disk.inode_field, disk.inode_field,
                 disk.table_entry, disk.some_bytes, disk.some_bytes, disk.some_block_of_bytes, disk.length)
    for _ in range(rng.choice((1, 1, 1, 2, 2, 3, 4, 8))):
        rng.choice(mild_kinds if mild else all_kinds)()
    return disk.image


# scripts


def spoiled_line(rng, line):
    """A line with a byte changed, taken away or added, or another one in its place."""
    kind, data = rng.randrange(8), bytearray(line)
    at = rng.randrange(len(line) + 1)
    if kind == 0 and at < len(line):
        data[at] = rng.choice((0, 9, 13, 32, 127, 128, 255, data[at] ^ 1 << rng.randrange(8)))
    elif kind == 1 and at < len(line):
        del data[at]
    elif kind == 2:
        data.insert(at, rng.choice(b" 0179\t\rxX;"))
    elif kind == 3:
        return line + b" " * rng.choice((1, 1, 299))
    elif kind == 4:
        return rng.choice(NO_LINES)
    elif kind == 5:
        return rng.choice((b"", b"tick", b"run 0", b"clock 1", b"disk 1", b"pace 1", b"pace 0", b"line 1", b"hangup 0", b"type", b"byte 177", b"byte 034", b"switch 177777",
                           b"; \xff"))
    elif kind == 6:
        return line[:at]
    else:
        count = rng.choice((295, 296, 298, 299, 300, 301))
        return rng.choice((b"type " + b"x" * (count - 5), b";" * count, b"type " + b" " * (count - 5)))
    return bytes(data)


def spoiled_script(rng, lines, most=3):
    """Lines of a script, some of them spoiled, doubled, left out or moved."""
    lines = list(lines)
    for _ in range(rng.randrange(1, most + 1)):
        kind, at = rng.randrange(6), rng.randrange(len(lines) + 1)
        if not lines or at == len(lines):
            lines.append(spoiled_line(rng, b"run 10"))
        elif kind < 3:
            lines[at] = spoiled_line(rng, lines[at])
        elif kind == 3:
            lines.insert(at, lines[rng.randrange(len(lines))])
        elif kind == 4:
            del lines[at]
        else:
            lines.insert(rng.randrange(len(lines) + 1), lines.pop(at))
    return lines


def random_events(rng):
    """Lines of all kinds in any order, without regard to sense."""
    lines = []
    for _ in range(rng.choice((3, 10, 30, 100, 300))):
        kind = rng.randrange(12)
        if kind < 3:
            lines.append(b"run %d" % rng.choice((0, 1, 1, 2, 5, 10, 60, 200)))
        elif kind == 3:
            lines += [b"tick"] * rng.choice((1, 1, 2, 60, 61))
        elif kind == 4:
            lines.append(b"byte %03o" % rng.choice((*KEYS, 0o177, 0o34, rng.randrange(256))))
        elif kind == 5:
            lines.append(b"type " + bytes(rng.randrange(0o40, 0o177) for _ in range(rng.randrange(20))))
        elif kind == 6:
            lines.append(b"clock %d" % rng.choice((0, 1, 2, 3, 7, 60, 999999999)))
        elif kind == 7:
            lines.append(b"switch %06o" % rng.getrandbits(16))
        elif kind == 8:
            lines.append(b"disk %d" % rng.choice((0, 1, 1, 2, 3, 7, 60, 999999999)))
        elif kind == 9:
            lines.append(b"pace %d" % rng.choice((0, 0, 1, 1, 2, 3, 7, 60, 999999999)))
        elif kind == 10:
            lines.append(rng.choice((b"line %d", b"line %d", b"hangup %d")) % rng.choice((0, 0, 0, 1, 2, 7)))
        else:
            lines += [b"byte %03o" % rng.choice(KEYS)] * rng.choice((1, 2, 255, 256, 257))
    return lines


# programs


def spoiled_words(rng, image, places):
    """An image in which some words change, of those that begin at the places of a program."""
    for _ in range(rng.choice((1, 1, 1, 2, 2, 3, 5, 10))):
        at = rng.choice(places)
        old = int.from_bytes(image[at : at + 2].ljust(2, b"\0"), "little")
        values = (0, 0o177777, 0o240, 0o777, old ^ 1 << rng.randrange(16), old + 1, old - 1, 0o104400 | rng.randrange(64),
                  rng.getrandbits(16), rng.choice((0o177776, 0o160000, 0o157777, 2, 64, 64256, 1)))
        image = put(image, at, struct.pack("<H", rng.choice(values) & 0xFFFF))
    return image
