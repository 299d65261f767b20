"""A disk of the Sixth Edition in memory: its inodes, its files, its directories and its free blocks.

The layout is that of docs/manual/disk-image.md, the free list goes by docs/manual/blocks.md. A `Volume` is made of an
image that `v6 check` has accepted, so no address is outside and no block comes twice; or of one that is read alone, whose
addresses outside count as blocks that a file doesn't hold.
"""
import heapq
import struct
from dataclasses import dataclass, field

BLOCK = 512
SWAP = 4000  # the first block of the swap area: a file system ends here at the latest
PACK = 4872  # blocks of a disk
ROOT = 1
NAME_BYTES, ENTRY_BYTES = 14, 16
FILE_BYTES, DIRECTORY_BYTES = 2**24 - 1, 65520
MOST_LINKS = 127
GROUP = 100  # numbers in a group of the free list
DIRECT, IN_BLOCK = 8, 256  # addresses in an inode, and in an indirect block
SINGLE = 7 * IN_BLOCK  # data blocks of a large file that need no double indirect block

USED, LARGE, TYPE = 0o100000, 0o010000, 0o060000
PLAIN, CHARACTER, DIRECTORY, BLOCKS = 0, 0o020000, 0o040000, 0o060000
SUPER = struct.Struct("<3H100HH100H4BHH")
INODE = struct.Struct("<H4BH8H4H")


class DiskError(Exception):
    """What can't be done with a disk; the text tells it."""


def plural(count, one, more=None):
    """A number and what is counted: `1 block`, `2 blocks`."""
    return f"{count} {one if count == 1 else more or one + 's'}"


def shown(name):
    """The bytes of a name for people to read: what isn't printed, and a backslash, in three octal digits."""
    return "".join(chr(b) if 0o40 <= b < 0o177 and b != 0o134 else f"\\{b:03o}" for b in name)


@dataclass
class Inode:
    """The fields of an inode. A device has its numbers in the first address."""

    mode: int = 0
    links: int = 0
    owner: int = 0
    group: int = 0
    size: int = 0
    addresses: list = field(default_factory=lambda: [0] * DIRECT)
    accessed: int = 0
    changed: int = 0

    @staticmethod
    def unpack(data):
        mode, links, owner, group, high, low, *rest = INODE.unpack(data)
        accessed, changed = rest[8] << 16 | rest[9], rest[10] << 16 | rest[11]
        return Inode(mode, links, owner, group, high << 16 | low, rest[:8], accessed, changed)

    def pack(self):
        times = [w for t in (self.accessed, self.changed) for w in (t >> 16, t & 0xFFFF)]
        size = (self.size >> 16, self.size & 0xFFFF)
        return INODE.pack(self.mode, self.links, self.owner, self.group, *size, *self.addresses, *times)

    def is_directory(self):
        return self.mode & TYPE == DIRECTORY

    def is_device(self):
        return self.mode & TYPE in (CHARACTER, BLOCKS)


def blocks_for(held):
    """How many blocks a file takes that holds these of its own, in rising order, with its indirect ones."""
    if not held or held[-1] < DIRECT:
        return len(held)
    return len(held) + len({0} | {number // IN_BLOCK for number in held}) + (held[-1] >= SINGLE)


def length(size):
    """How many blocks these bytes have."""
    return -(-size // BLOCK)


class Directory:
    """Where the names of a directory stand, so that one of many is found at once."""

    def __init__(self, data):
        self.end = len(data) // ENTRY_BYTES * ENTRY_BYTES
        self.names, self.empty = {}, []
        for at in range(0, self.end, ENTRY_BYTES):
            number, name = struct.unpack_from("<H14s", data, at)
            if number:
                self.names.setdefault(name.rstrip(b"\0"), (at, number))
            else:
                self.empty.append(at)

    def put(self, at, name, number):
        self.names.setdefault(name, (at, number))
        if self.names[name][0] == at:
            self.names[name] = at, number
        self.end = max(self.end, at + ENTRY_BYTES)


class Volume:
    def __init__(self, image):
        self.data = bytearray(image)
        self.length = len(image)
        self.lowest = ROOT + 1  # all inodes below it are used; none becomes free here
        fields = SUPER.unpack(self.block(1)[: SUPER.size])
        self.isize, self.fsize, count = fields[:3]
        self.group = list(fields[3 : 3 + count])
        spares = fields[103]
        self.spares = list(fields[104 : 104 + spares])
        self.flags = fields[204:208]
        self.time = fields[208] << 16 | fields[209]
        self.directories = {}  # by their numbers, those whose names were asked for
        self.free = None  # how many blocks are free, where that was counted

    @staticmethod
    def empty(blocks, inodes, time, most=SWAP):
        """A new disk with an empty root, on which the lowest free block is taken first."""
        isize = -(-inodes // 16)
        if not (isize >= 1 and isize + 3 <= blocks <= most):
            raise DiskError(f"a disk of {blocks} blocks and {inodes} inodes can't be made: these inodes and a root need "
                            f"{max(isize, 1) + 3} blocks, and there are at most {most}")
        super_block = SUPER.pack(isize, blocks, *[0] * 206, time >> 16, time & 0xFFFF)
        volume = Volume(bytes(BLOCK) + super_block + bytes(BLOCK - SUPER.size))
        for block in range(blocks - 1, isize + 1, -1):
            volume.give(block)
        volume.make_root(time)
        return volume

    def image(self, short=False):
        """The bytes of the disk: as many as it had, or more where blocks after them are used. A short one ends with the
        last block that isn't zeros, or that a file holds."""
        count = len(self.group)
        group = self.group + [0] * (GROUP - count)
        spares = self.spares + [0] * (GROUP - len(self.spares))
        times = self.time >> 16, self.time & 0xFFFF
        self.change(1, 0, SUPER.pack(self.isize, self.fsize, count, *group, len(self.spares), *spares, *self.flags, *times))
        data = bytes(self.data)
        used = -(-len(data.rstrip(b"\0")) // BLOCK) * BLOCK
        wanted = max(used, self.end_of_files()) if short else max(used, self.length)
        return data[:wanted].ljust(wanted, b"\0")

    def end_of_files(self):
        """Where the last block ends that is of inodes, or that a file holds."""
        inodes = (self.inode(number) for number in range(1, 16 * self.isize + 1) if self.is_used(number))
        return BLOCK * (max([self.isize + 1, *(block for inode in inodes for _, block in self.held(inode))]) + 1)

    # blocks

    def block(self, number):
        return bytes(self.data[number * BLOCK : number * BLOCK + BLOCK]).ljust(BLOCK, b"\0")

    def change(self, number, at, data):
        start = number * BLOCK + at
        if len(self.data) < start + len(data):
            self.data.extend(bytes(start + len(data) - len(self.data)))
        self.data[start : start + len(data)] = data

    def words(self, number):
        return struct.unpack("<256H", self.block(number))

    def free_blocks(self):
        """The numbers of the free blocks, in the order in which they would be taken."""
        group, met = list(self.group), []
        while group and group[-1]:
            met.append(group.pop())
            group = group or self.group_in(met[-1])
        return met

    def group_in(self, block):
        """The group of the free list with which a block begins."""
        count, *numbers = self.words(block)[: GROUP + 1]
        return list(numbers[:count])

    def take(self):
        """The next free block, cleared."""
        block = self.group.pop() if self.group else 0
        if not block:
            raise DiskError("no block is free")
        self.group = self.group or self.group_in(block)
        self.change(block, 0, bytes(BLOCK))
        self.free = None if self.free is None else self.free - 1
        return block

    def count_free(self):
        if self.free is None:
            self.free = len(self.free_blocks())
        return self.free

    def give(self, block):
        self.free = None if self.free is None else self.free + 1
        if not self.group:
            self.group.append(0)
        if len(self.group) == GROUP:
            self.change(block, 0, struct.pack(f"<{GROUP + 1}H", GROUP, *self.group))
            self.group = []
        self.group.append(block)

    # inodes

    def place(self, number):
        return (number + 31) // 16, 32 * ((number + 31) % 16)

    def inode(self, number):
        block, at = self.place(number)
        return Inode.unpack(self.block(block)[at : at + 32])

    def set_inode(self, number, inode):
        block, at = self.place(number)
        self.change(block, at, inode.pack())

    def is_used(self, number):
        return 1 <= number <= 16 * self.isize and self.inode(number).mode != 0

    def new_inode(self, inode):
        """Puts an inode under the lowest free number, which it gives."""
        for number in range(self.lowest, 16 * self.isize + 1):
            if not self.is_used(number):
                inode.mode |= USED
                self.set_inode(number, inode)
                self.lowest = number + 1
                return number
        raise DiskError(f"no inode is free: the disk has {16 * self.isize}")

    # the bytes of files

    def is_data(self, block):
        return self.isize + 2 <= block < self.fsize

    def named(self, inode):
        """The addresses of a file, also those outside: (number in the file, block) for its data in rising order,
        (None, block) for the others."""
        if inode.is_device():
            return
        if not inode.mode & LARGE:
            yield from ((n, block) for n, block in enumerate(inode.addresses) if block)
            return
        yield from self.below(enumerate(inode.addresses[:7]))
        double = inode.addresses[7]
        if double:
            yield None, double
            if self.is_data(double):
                yield from self.below(enumerate(self.words(double), 7))

    def below(self, tables):
        """Indirect blocks, given as (number among those of the file, block), each with the blocks that it names."""
        for k, table in tables:
            if table:
                yield None, table
                if self.is_data(table):
                    yield from ((IN_BLOCK * k + n, block) for n, block in enumerate(self.words(table)) if block)

    def held(self, inode):
        """The blocks of a file, as `named` gives them."""
        return ((number, block) for number, block in self.named(inode) if self.is_data(block))

    def holes(self, inode):
        """The numbers of the blocks before its end that a file doesn't hold."""
        held = {number for number, _ in self.held(inode)}
        return [number for number in range(length(inode.size)) if number not in held] if not inode.is_device() else []

    def read(self, inode):
        """The bytes of a file. Blocks that it doesn't hold are zeros."""
        data = bytearray(inode.size)
        for number, block in self.held(inode):
            if number is not None and number * BLOCK < inode.size:
                piece = self.block(block)[: inode.size - number * BLOCK]
                data[number * BLOCK : number * BLOCK + len(piece)] = piece
        return bytes(data)

    def touch(self, inode, number):
        """The block that holds block `number` of a file. What is missing on the way to it is taken."""
        if not inode.mode & LARGE and number < DIRECT:
            return self.in_inode(inode, number)
        if not inode.mode & LARGE:
            table = self.take()
            self.change(table, 0, struct.pack("<8H", *inode.addresses))
            inode.addresses = [table] + [0] * 7
            inode.mode |= LARGE
        k = number // IN_BLOCK
        table = self.in_inode(inode, k) if k < 7 else self.in_table(self.in_inode(inode, 7), k - 7)
        return self.in_table(table, number % IN_BLOCK)

    def in_inode(self, inode, n):
        inode.addresses[n] = inode.addresses[n] or self.take()
        return inode.addresses[n]

    def in_table(self, table, n):
        block = self.words(table)[n]
        if not block:
            block = self.take()
            self.change(table, 2 * n, struct.pack("<H", block))
        return block

    def truncate(self, inode):
        for _, block in reversed(list(self.held(inode))):
            self.give(block)
        inode.addresses, inode.size = [0] * DIRECT, 0
        inode.mode &= ~LARGE

    def write(self, inode, data, holes=()):
        """Makes these the bytes of a file, in the place of those that it had. Of the blocks `holes` it holds none."""
        if len(data) > FILE_BYTES:
            raise DiskError(f"{len(data)} bytes are too many for a file: at most {FILE_BYTES}")
        self.truncate(inode)
        held = sorted(set(range(length(len(data)))) - set(holes))
        needs, free = blocks_for(held), self.count_free()
        if needs > free:
            told = f"{plural(len(data), 'byte')}: {'it needs' if len(data) == 1 else 'they need'} {plural(needs, 'block')}"
            raise DiskError(f"no room for {told}, and {free} {'is' if free == 1 else 'are'} free")
        for number in held:
            self.change(self.touch(inode, number), 0, data[number * BLOCK : number * BLOCK + BLOCK])
        inode.size = len(data)

    # directories

    def entries(self, inode):
        """The entries of a directory that aren't empty: (number of the inode, name)."""
        data = self.read(inode)
        for at in range(0, inode.size % 65536 // ENTRY_BYTES * ENTRY_BYTES, ENTRY_BYTES):
            number, name = struct.unpack_from("<H14s", data, at)
            if number:
                yield number, name.rstrip(b"\0")

    def directory(self, number):
        if number not in self.directories:
            inode = self.inode(number)
            self.directories[number] = Directory(self.read(inode)[: inode.size % 65536])
        return self.directories[number]

    def look(self, number, name):
        """The inode under a name of a directory, or None."""
        if not self.inode(number).is_directory():
            raise DiskError("not a directory")
        _, found = self.directory(number).names.get(name, (None, None))
        return found if found and self.is_used(found) else None

    def find(self, path, start=ROOT):
        """The inode under a path from the root, or from another directory."""
        number, past = start, b""
        for name in components(path):
            try:
                found = self.look(number, name)
            except DiskError as error:
                raise DiskError(f"{shown(past or b'/')}: {error}") from None
            past += b"/" + name
            if found is None:
                raise DiskError(f"{shown(past)}: no such file on the disk")
            number = found
        return number

    def files(self):
        """The path and the inode of each plain file."""
        folders, seen = [(b"", ROOT)], set()
        while folders:
            path, folder = folders.pop()
            seen.add(folder)
            for number, name in self.entries(self.inode(folder)):
                inode = self.inode(number)
                if not self.is_used(number) or inode.is_device() or number in seen:
                    continue
                if inode.is_directory():
                    folders.append((path + b"/" + name, number))
                else:
                    yield shown(path + b"/" + name), inode

    def enter(self, directory, name, number, time):
        """A new entry of a directory, in the place of one of this name, whose inode is free, or in the first empty one, or
        after the others. The inode gets a link more."""
        check_name(name)
        names = self.directory(directory)
        at = names.names[name][0] if name in names.names else names.empty[0] if names.empty else names.end
        if at + ENTRY_BYTES > DIRECTORY_BYTES:
            raise DiskError(f"a directory has at most {DIRECTORY_BYTES // ENTRY_BYTES} entries")
        if self.inode(number).links >= MOST_LINKS:
            raise DiskError(f"at most {MOST_LINKS} links: the directories in a directory are links to it")
        self.set_entry(directory, at, number, name, time)
        if names.empty and names.empty[0] == at:
            heapq.heappop(names.empty)
        names.put(at, name, number)
        self.link(number, 1)

    def set_entry(self, directory, at, number, name, time):
        inode = self.inode(directory)
        self.change(self.touch(inode, at // BLOCK), at % BLOCK, struct.pack("<H14s", number, name))
        inode.size = max(inode.size, at + ENTRY_BYTES)
        inode.accessed = inode.changed = time
        self.set_inode(directory, inode)

    def link(self, number, count):
        inode = self.inode(number)
        inode.links += count
        self.set_inode(number, inode)

    def remove(self, directory, name, time):
        """Takes a name out of a directory. A file whose last name this was gives its blocks back, and its inode is free."""
        at, number = self.directory(directory).names[name]
        self.set_entry(directory, at, 0, name, time)
        del self.directories[directory]
        inode = self.inode(number)
        inode.links = max(inode.links - 1, 0)
        self.set_inode(number, inode)
        if not inode.links:
            self.set_free(number)

    def set_free(self, number):
        inode = self.inode(number)
        self.truncate(inode)
        self.set_inode(number, Inode())
        self.directories.pop(number, None)
        self.lowest = min(self.lowest, number)

    def make_root(self, time):
        self.set_inode(ROOT, Inode(USED | DIRECTORY | 0o755, accessed=time, changed=time))
        for name in (b".", b".."):
            self.enter(ROOT, name, ROOT, time)

    def make_directory(self, parent, name, permissions, time):
        """A new directory with its two entries."""
        number = self.make(parent, name, DIRECTORY | permissions, time)
        self.enter(number, b".", number, time)
        self.enter(number, b"..", parent, time)
        return number

    def make(self, parent, name, mode, time, device=0):
        """A new inode under a name."""
        check_name(name)
        number = self.new_inode(Inode(mode, addresses=[device] + [0] * 7, accessed=time, changed=time))
        self.enter(parent, name, number, time)
        return number

    def write_file(self, number, data, time, holes=()):
        """Makes these the bytes of a plain file."""
        inode = self.inode(number)
        self.write(inode, data, holes)
        inode.accessed = inode.changed = time
        self.set_inode(number, inode)


def components(path):
    """The names of a path, between its slashes."""
    names = [name for name in path.split(b"/") if name]
    for name in names:
        try:
            check_name(name)
        except DiskError as error:
            raise DiskError(f"{shown(name)}: {error}") from None
    return names


def check_name(name):
    if len(name) > NAME_BYTES:
        raise DiskError(f"the name has {len(name)} bytes, and a directory keeps {NAME_BYTES}")
    if not name or b"\0" in name or b"/" in name:
        raise DiskError("no name for a file: it is empty, or has a slash or a NUL")


def gathered(image):
    """A disk with the same files and as much room, whose free list stands in the lowest blocks that are free, and of which what else is
    free is zeros. No program sees in which blocks something stands, so a run of it is the same; and up to its last byte it is shorter."""
    volume = Volume(image)
    free = sorted(volume.free_blocks())
    for block in free:
        if volume.block(block) != bytes(BLOCK):
            volume.change(block, 0, bytes(BLOCK))
    first, volume.group = len(free) // GROUP + 1, []
    links, others = free[:first][::-1], free[first:][::-1]
    while links or others:
        volume.give((links if len(volume.group) == GROUP and links or not others else others).pop())
    return volume.image()
