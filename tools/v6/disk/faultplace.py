"""Where on a disk the fault lies that `v6 check` names: the bytes, the block, the inode and the names of its file."""
import re

from v6.disk.volume import BLOCK, GROUP, LARGE, PACK, ROOT, SWAP

SUPER = 512  # where the super-block begins
FREE, SPARES = SUPER + 4, SUPER + 206  # its lists of free blocks and of free inodes: a count, and the numbers
ADDRESSES = 8  # where an inode has its addresses
KINDS = (
    (r"too long", "too_long"), (r"bad super-block", "bad_super_block"),
    (r"file system of (\d+) blocks leaves no swap", "no_swap"), (r"free count in block (\d+)", "free_count"),
    (r"free block (\d+) outside", "free_outside"),
    (r"inode (\d+) has block (\d+) outside", "inode_outside"), (r"block (\d+) twice", "twice"), (r"no root", "no_root"))


def at_byte(place):
    return f"at byte {place} in block {place // BLOCK}"


class FaultPlace:
    """The places of a surveyed disk."""

    def __init__(self, survey):
        self.survey, self.volume = survey, survey.volume

    def lines(self, fault):
        """Lines that tell where a fault is, which is named as in the report of `v6 check` after `image: `."""
        for pattern, name in KINDS:
            found = re.fullmatch(pattern, fault)
            if found:
                return list(getattr(self, name)(*map(int, found.groups())))
        return []

    # the faults

    def too_long(self):
        yield f"what stands from byte {PACK * BLOCK} on is more than a disk has"

    def bad_super_block(self):
        isize, fsize, count, spares = (self.word(at) for at in (SUPER, SUPER + 2, FREE, SPARES))
        if not isize:
            yield f"the blocks of inodes, {at_byte(SUPER)}, are 0"
        elif isize + 2 > fsize:
            yield (f"the blocks of inodes, {at_byte(SUPER)}, are {isize}, and the file system, {at_byte(SUPER + 2)}, ends with "
                   f"block {fsize - 1}")
        for what, number, at in (("blocks", count, FREE), ("inodes", spares, SPARES)):
            if number > GROUP:
                yield f"the count of free {what}, {at_byte(at)}, is {number}, and at most {GROUP}"

    def no_swap(self, blocks):
        yield f"the file system's end, {at_byte(SUPER + 2)}, is {blocks}, and at most {SWAP}"

    def free_count(self, block):
        yield f"the count {at_byte(BLOCK * block)} is {self.word(BLOCK * block)}, and at most {GROUP}"
        yield from self.in_free_list(block)
        yield from self.in_files(block)

    def free_outside(self, block):
        yield from self.in_free_list(block)
        yield self.range()

    def inode_outside(self, number, block):
        yield from self.in_file(number, block)
        yield self.range()

    def twice(self, block):
        yield from self.in_files(block)
        yield from self.in_free_list(block)

    def no_root(self):
        yield f"inode {ROOT}, {at_byte(self.inode_at(ROOT))}, has mode {self.volume.inode(ROOT).mode:06o}, and is no directory"

    # places

    def word(self, at):
        return int.from_bytes(self.volume.block(at // BLOCK)[at % BLOCK : at % BLOCK + 2], "little")

    def range(self):
        return f"data blocks are {self.volume.isize + 2} to {self.volume.fsize - 1}"

    def inode_at(self, number):
        block, at = self.volume.place(number)
        return BLOCK * block + at

    def in_file(self, number, block):
        """Each place at which a file has the number of a block."""
        for value, at, what in self.addresses(number):
            if value == block:
                yield f"{block} is {what} of inode {number}, {at_byte(at)}: {self.survey.called(number)}"

    def in_files(self, block):
        for number in self.survey.inodes:
            yield from self.in_file(number, block)

    def addresses(self, number):
        """Each number of a block that a file has, where it stands, and what it is."""
        inode, first = self.volume.inode(number), self.inode_at(number) + ADDRESSES
        if inode.is_device():
            return
        for n, value in enumerate(inode.addresses):
            yield value, first + 2 * n, f"address {n}"
            if inode.mode & LARGE and self.volume.is_data(value):
                yield from self.entries(value, "indirect" if n < 7 else "double indirect", n == 7)

    def entries(self, table, kind, is_double):
        for n, value in enumerate(self.volume.words(table)):
            yield value, BLOCK * table + 2 * n, f"entry {n} of the {kind} block {table}"
            if is_double and self.volume.is_data(value):
                yield from self.entries(value, "indirect", False)

    def in_free_list(self, block):
        """Each place at which the free list has a number, as far as it goes."""
        at, met = FREE, set()
        while True:
            count = self.word(at)
            last = None
            for n in range(count if count <= GROUP else 0, 0, -1):
                last = self.word(at + 2 * n)
                if last == block:
                    yield f"{block} is number {n - 1} of {count} of the free list, {at_byte(at + 2 * n)}"
                if last in met or not self.volume.is_data(last):
                    return
                met.add(last)
            if last is None:
                return
            at = BLOCK * last
