"""Makes a failing case of the fuzzer small: what is taken away must leave it failing in one of the ways in which it failed."""
import collections
import re
import struct
import time

from judge.fuzz.cases import HEADER, HI, INODE_7, read
from judge.fuzz.judge import differences
from judge.fuzz.hosts import Host
from judge.compare.comparing import without
from judge.random.spoil import Disk, put

NOP, JUMP = 0o240, 0o137
SECONDS, TRIES = 600, 3000  # after which no more is tried
MOST_BLOCKS = 8  # of a program on the plain disk
ROOT = 1
SEEN_IN_ROWS = ("ended", "status", "terminal", "log", "final room", "final count")


def sorts(found):
    """In which ways a case fails: the first words of what is said."""
    return {" ".join(line.split(":")[0].split()[:2]) for line in found}


class Small:
    """A failing case, and the tries to make it smaller."""

    def __init__(self, program, case, found):
        self.program, self.case, self.wanted = program, case, sorts(found)
        self.wanted = self.wanted.intersection(SEEN_IN_ROWS) or self.wanted
        self.until, self.tries, self.valgrind = time.monotonic() + SECONDS, 0, "valgrind" in self.wanted

    def fails(self, case):
        if time.monotonic() > self.until or self.tries >= TRIES:
            return False
        self.tries += 1
        return bool(self.wanted & sorts(differences(self.program, case, collections.Counter(), self.valgrind)))

    def take(self, case):
        """Goes on with another case, where that one fails too."""
        if self.fails(case):
            self.case = case
            return True
        return False

    def lines(self):
        """Leaves out lines of the script."""
        lines = without(self.case.lines, lambda some: self.fails(self.case.with_(lines=some, last_end=b"\n")))
        if lines != self.case.lines:
            self.case = self.case.with_(lines=lines, last_end=b"\n")

    def slots(self):
        """Makes the numbers of slots lower."""
        for at in range(len(self.case.lines)):
            found = re.fullmatch(rb"run ([0-9]{1,9})", self.case.lines[at])
            low, high = 0, int(found[1]) if found else 0
            while low < high:
                middle = (low + high) // 2
                lines = [*self.case.lines[:at], b"run %d" % middle, *self.case.lines[at + 1 :]]
                if self.take(self.case.with_(lines=lines)):
                    high = middle
                else:
                    low = middle + 1

    def core(self):
        if self.case.core != "1200" and "CORE" in self.case.command:
            self.take(self.case.with_(core="1200"))

    def plain_disk(self):
        """The disk of the example in place of the case's, with the same program where that fits there."""
        program = init_bytes(self.case.image)
        images = [read(HI), *([plain_disk(program, 0), plain_disk(program, 30)] if program else [])]
        for image in images:
            if image != self.case.image and self.take(self.case.with_(image=image, places=program_places(image))):
                return

    def disk(self):
        """Takes bytes of the plain disk in place of the case's: blocks, then inodes and entries, then words."""
        base = read(HI)
        image = self.case.image
        if len(image) != len(base):
            for other in (image[: len(base)].ljust(len(base), b"\0"), cut(image)):
                if self.take(self.case.with_(image=other)):
                    break
        for size in (512, 32, 2):
            image = self.case.image
            plain = base[: len(image)].ljust(len(image), b"\0")
            differ = [at for at in range(0, len(image), size) if image[at : at + size] != plain[at : at + size]]

            def with_own(places, image=image, plain=plain, size=size):
                out = bytearray(plain)
                for at in places:
                    out[at : at + size] = image[at : at + size]
                return bytes(out)

            if len(differ) > 3000:
                continue
            kept = without(differ, lambda some: self.fails(self.case.with_(image=with_own(some))))
            self.case = self.case.with_(image=with_own(kept))

    def words(self):
        """Takes words of programs away, so that nothing is done in their place."""
        own = [at for at in self.case.places if self.word(at) != NOP and not HEADER <= at < HEADER + 16]
        kept = set(without(own, lambda some: self.fails(self.case.with_(image=self.with_nops(set(own) - set(some))))))
        self.case = self.case.with_(image=self.with_nops(set(own) - kept))

    def word(self, at):
        return int.from_bytes(self.case.image[at : at + 2], "little")

    def with_nops(self, places):
        image = bytearray(self.case.image)
        for at in places:
            image[at : at + 2] = struct.pack("<H", NOP)
        return bytes(image)

    def header(self):
        """Gives the program of the plain disk a header without more than its size."""
        image, size = self.case.image, int.from_bytes(self.case.image[INODE_7 + 6 : INODE_7 + 8], "little")
        if image[HEADER : HEADER + 2] == b"\7\1" and size >= 16:
            self.take(self.case.with_(image=put(image, HEADER, struct.pack("<8H", 0o407, size - 16, 0, 0, 0, 0, 0, 0))))

    def jumps(self):
        """Puts a jump and zeros where a program of the plain disk has many words that do nothing."""
        places = program_places(self.case.image)[8:]
        start = 0
        while start < len(places):
            end = start
            while end < len(places) and self.word(places[end]) == NOP:
                end += 1
            if end - start > 2:
                words = struct.pack(f"<{end - start}H", JUMP, 2 * end, *[0] * (end - start - 2))
                self.take(self.case.with_(image=put(self.case.image, places[start], words)))
            start = end + 1

    def squeeze(self):
        """Takes words out of the plain disk's program, so that those after them come up."""
        words = self.program_words()
        kept = without(words, lambda some: bool(some) and self.fails(self.case.with_(image=self.with_words(some))))
        if kept != words:
            self.case = self.case.with_(image=self.with_words(kept), places=[])
            self.case.places = program_places(self.case.image)

    def program_words(self):
        is_plain = self.case.image[HEADER : HEADER + 2] == b"\7\1"
        return [self.word(at) for at in program_places(self.case.image)[8:]] if is_plain else []

    def with_words(self, words):
        """The plain disk with other words in its program."""
        return shorter(put(self.case.image, HEADER + 16, struct.pack(f"<{len(words)}H", *words)), 16 + 2 * len(words))

    def end(self):
        """Makes the program of the plain disk shorter, from its end on."""
        image = self.case.image
        low, high = 16, int.from_bytes(image[INODE_7 + 6 : INODE_7 + 8], "little")
        if len(program_places(image)) < 9 or image[HEADER : HEADER + 2] != b"\7\1":
            return
        while low < high:
            middle = (low + high) // 2 & ~1
            if self.take(self.case.with_(image=shorter(self.case.image, middle))):
                self.case.places = [at for at in self.case.places if at < HEADER + middle]
                high = middle
            else:
                low = middle + 2

    def host(self):
        """Leaves out what stands under one name and another, and keeps what is needed."""
        host = self.case.host
        for name in list(host.kinds if host else ()):
            kinds = {other: kind for other, kind in self.case.host.kinds.items() if other != name}
            self.take(self.case.with_(host=Host(kinds, host.same, host.limit)))

    def smallest(self):
        steps = (self.plain_disk, self.lines, self.slots, self.core, self.host, self.words, self.header, self.jumps,
                 self.squeeze, self.end, self.disk, self.words, self.squeeze, self.end, self.lines, self.slots)
        for step in steps:
            step()
        return self.case


def cut(image):
    """An image without the zeros at its end, in whole blocks."""
    return image[: -(-len(image.rstrip(b"\0")) // 512) * 512]


def blocks_of(disk, number):
    """The first blocks of an inode, and its size."""
    at = disk.inode_at(number)
    blocks = [disk.word(at + 8 + 2 * n) for n in range(8)]
    if disk.word(at) & 0o10000:
        blocks = [disk.word(512 * blocks[0] + 2 * n) for n in range(8)]
    return [block for block in blocks if block < 5000], disk.word(at + 6)


def entry(disk, directory, name):
    """The inode of a name in the first block of a directory, or None."""
    blocks, size = blocks_of(disk, directory)
    for at in range(512 * blocks[0], 512 * blocks[0] + min(size, 512), 16) if blocks else ():
        if disk.word(at) and disk.bytes_at(at + 2, 14) == name.ljust(14, b"\0"):
            return disk.word(at)
    return None


def init_bytes(image):
    """The file /etc/init, where it has at most eight blocks, or None."""
    disk = Disk(None, image)
    etc = entry(disk, ROOT, b"etc")
    number = entry(disk, etc, b"init") if etc and etc < 1000 else None
    if not number or number >= 1000:
        return None
    blocks, size = blocks_of(disk, number)
    if size > 512 * MOST_BLOCKS:
        return None
    return b"".join(disk.bytes_at(512 * block, 512) if block else bytes(512) for block in blocks)[:size]


def plain_disk(program, room):
    """The disk of the example with a program of at most eight blocks in the place of its own, and some free blocks."""
    count = -(-len(program) // 512)
    addresses = [66 + n if n < count else 0 for n in range(MOST_BLOCKS)]
    image = put(read(HI), INODE_7 + 6, struct.pack("<9H", len(program), *addresses))
    image = put(image, HEADER, program.ljust(512 * count, b"\0"))
    first = 66 + count
    return put(image, 516, struct.pack(f"<{room + 1}H", room, *range(first + room - 1, first - 1, -1))) if room else image


def program_places(image):
    """Where the words of /etc/init stand on the plain disk."""
    size = int.from_bytes(image[INODE_7 + 6 : INODE_7 + 8], "little")
    return list(range(HEADER, min(HEADER + size, len(image) - 1), 2))


def shorter(image, size):
    """The plain disk whose program has this size, all of it text; what was after that is zeros."""
    old = int.from_bytes(image[INODE_7 + 6 : INODE_7 + 8], "little")
    image = put(image, INODE_7 + 6, struct.pack("<H", size))
    image = put(image, HEADER + 2, struct.pack("<2H", size - 16, 0))
    end = min(HEADER + min(old, MOST_BLOCKS * 512), len(image))
    return put(image, HEADER + size, bytes(end - HEADER - size)) if end > HEADER + size else image
