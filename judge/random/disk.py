"""Small disks made at random, with what a disk of the Sixth Edition may have, odd things too, and without a fault.

A `Tree` has files and directories, and where they are found; `Tree.image` gives the bytes of the disk that holds them.
"""
import struct

USED, LARGE = 0o100000, 0o10000
DIRECTORY, CHARACTER, BLOCKS = 0o40000, 0o20000, 0o60000
CONSOLE, NULL = 0, 8 << 8 | 2
END_OF_FILES = 4000
DIRECTORY_BYTES, FILE_BYTES = 65520, 2**24 - 1

# The last component of a name of the console. Under no other name does a disk or a program have it, so that a program
# can see to it that it never opens the console for reading.
CONSOLE_NAMES = ("tty8", "con")
NAMES = ("a", "b", "c", "d", "e", "x", "y", "core", "init", "abcdefghijklmn", "abcdefghijklmno", "null", "tmp", "o.k",
         "A")
DIRECTORY_MODES = (0o140755, 0o140777, 0o140700, 0o140644, 0o40111)
FILE_MODES = (0o100644, 0o100755, 0o100000, 0o644, 0o107777, 0o101600, 0o100444, 0o100111)
OWNERS = (0, 1, 7, 255)


class Inode:
    """An inode that is to be on the disk, and the bytes of each data block that it holds, by its number in the file."""

    def __init__(self, mode, size=0, blocks=None, device=0):
        self.mode, self.size, self.blocks, self.device = mode, size, blocks or {}, device
        self.nlink, self.owner, self.group, self.times, self.empty = 0, 0, 0, (0, 0), set()

    def is_device(self):
        return bool(self.mode & CHARACTER)

    def indirect(self):
        """The numbers of its indirect blocks."""
        return sorted({n // 256 for n in self.blocks} | self.empty) if self.mode & LARGE else []

    def held(self):
        """How many blocks it holds."""
        names = self.indirect()
        return len(self.blocks) + len(names) + any(k >= 7 for k in names)


def in_blocks(data, first=0):
    return {first + i // 512: data[i : i + 512].ljust(512, b"\0") for i in range(0, len(data), 512)}


def entry(ino, name):
    return struct.pack("<H14s", ino, name)


def words(block, values):
    return struct.pack_into(f"<{len(values)}H", block, 0, *values)


class Tree:
    """Files and directories. `paths` has a path and an inode number for each that is entered."""

    def __init__(self, rng):
        self.rng, self.inodes, self.entries, self.paths = rng, {}, {}, []
        self.isize = rng.choice((1, 1, 2, 2, 3, 4, 8, 20))
        self.count = 16 * self.isize
        self.numbers = rng.sample(range(2, self.count + 1), self.count - 1)
        self.time = rng.choice((0, 1, 0x50A0087, 2**32 - 1, rng.getrandbits(32)))
        self.add_system()
        self.add_more()
        self.add_odd()

    def odd(self, chance):
        return self.rng.random() < chance

    def add(self, parent, name, inode):
        """A new inode under a name in a directory; its number, or none where there is none left."""
        if not self.numbers:
            return None
        ino = self.numbers.pop() if parent else 1
        self.inodes[ino] = inode
        path = ""
        if parent:
            path = f"{self.path_of(parent)}/{name}"
            self.entries[parent].append((ino, name.encode()[:14]))
        if inode.mode & 0o60000 == DIRECTORY:
            self.entries[ino] = [(ino, b"."), (parent or 1, b"..")]
        self.paths.append((path or "/", ino))
        return ino

    def path_of(self, ino):
        return next(path for path, number in self.paths if number == ino).rstrip("/")

    def add_system(self):
        rng = self.rng
        root = self.add(None, "", Inode(0o140755))
        etc, dev = (self.add(root, name, Inode(0o140755)) for name in ("etc", "dev"))
        self.u = self.add(root, "u", Inode(0o140777))
        if self.odd(0.04):
            self.inodes[dev].mode = rng.choice((0o140666, 0o140000))
        self.init = self.add(etc, "init", Inode(rng.choice((0o100755, 0o100111, 0o100001, 0o104711))))
        if self.odd(0.96):
            self.add(dev, "tty8", Inode(0o120000 | rng.choice((0o666, 0o622, 0)), device=CONSOLE))
        if self.odd(0.9):
            self.add(dev, "null", Inode(0o120000 | rng.choice((0o666, 0o222, 0)), device=NULL))
        lines = [(f"tty{line}", CHARACTER, line) for line in range(1, 8) if self.odd(0.3)]
        for name, kind, device in (("rk0", BLOCKS, 0), *(lines if self.odd(0.5) else []), ("mem", CHARACTER, 8 << 8)):
            if kind == CHARACTER and device < 8 or self.odd(0.3):
                self.add(dev, name, Inode(USED | kind | 0o666, rng.choice((0, 0, 700)), device=device))

    def add_more(self):
        rng, parents = self.rng, [1, self.u, self.u]
        for _ in range(rng.randrange(3, 14)):
            parent = rng.choice(parents)
            free = [name for name in NAMES if name.encode()[:14] not in [text for _, text in self.entries[parent]]]
            if not free:
                continue
            if self.odd(0.3):
                ino = self.add(parent, rng.choice(free), Inode(rng.choice(DIRECTORY_MODES)))
                parents += [ino] if ino else []
            elif self.odd(0.1):
                self.add(parent, rng.choice(free), Inode(0o120644, device=rng.choice((NULL, NULL, 5, 0o177777))))
            else:
                self.add(parent, rng.choice(free), self.some_file())

    def some_file(self):
        """A plain file: small, large, with holes, with bytes past its end, or longer than what it holds."""
        rng = self.rng
        inode = Inode(rng.choice(FILE_MODES))
        kind = rng.choice(("empty", "small", "small", "small", "eight", "large", "holes", "far"))
        if kind in ("small", "eight", "large"):
            inode.size = rng.randrange({"small": 1200, "eight": 4097, "large": 12000}[kind])
            inode.blocks = in_blocks(rng.randbytes(inode.size))
        elif kind != "empty":
            far = kind == "far"
            places = (0, 255, 256, 1791, 1792, 2047, 2048, 32767) if far else (0, 1, 2, 5, 7)
            inode.blocks = {n: rng.randbytes(512) for n in rng.sample(places, rng.randrange(1, 4))}
            inode.size = min(512 * max(inode.blocks) + rng.randrange(1, 600), FILE_BYTES)
        if max(inode.blocks, default=0) > 7 or self.odd(0.1):
            inode.mode |= LARGE
            inode.empty = {rng.choice((0, 1, 6, 7, 130))} if self.odd(0.2) else set()
        if self.odd(0.1):
            inode.size = rng.randrange(inode.size + 1)
        return inode

    def add_odd(self):
        """Links, owners, times, inodes without a name, and a directory that is full."""
        rng, few = self.rng, self.odd(0.1)
        for ino, inode in self.inodes.items():
            names = [number for rows in self.entries.values() for number, _ in rows]
            inode.nlink = min(names.count(ino), 255) if self.odd(0.85) else rng.choice((0, 126, 127, 128, 255))
            inode.nlink = rng.choice((0, 1)) if few else inode.nlink
            inode.owner, inode.group = (rng.choice(OWNERS), rng.choice(OWNERS)) if self.odd(0.3) else (0, 0)
            inode.times = (rng.getrandbits(32), rng.getrandbits(32)) if self.odd(0.5) else (0, 0)
        self.inodes[self.init].nlink = rng.choice((0, 1, 1, 1, 1, 1))
        if self.odd(0.05) and self.numbers:
            ino = self.add(self.u, "full", Inode(0o140755))
            self.inodes[ino].nlink = 2
            rows = rng.choice((4093, 4092))
            self.entries[ino] += [(rng.choice((self.count, 1)), b"f%04d" % i) for i in range(rows)]
        if self.odd(0.3):
            for _ in range(len(self.numbers) - rng.randrange(4)):
                self.inodes[self.numbers.pop()] = self.unnamed()

    def unnamed(self):
        inode = Inode(0o100600)
        inode.nlink = 1
        return inode

    def is_searched(self, ino):
        return bool(self.inodes[ino].mode & 0o111)

    def has(self, path):
        """Whether the kernel finds this path, by the first entry of each name."""
        ino = 1
        for name in filter(None, path.split("/")):
            if ino not in self.entries or not self.is_searched(ino):
                return False
            ino = next((number for number, text in self.entries[ino] if text == name.encode()[:14]), None)
        return ino in self.inodes

    # what directories hold

    def odd_rows(self, rows):
        """The entries of a directory, with empty ones, ones to no inode, names that come twice or aren't filled up, and
        as many as a block holds."""
        rng = self.rng
        rows = list(rows)
        if self.odd(0.25):
            rows += [(rng.choice([65535, self.count + 1] + self.numbers), rng.choice((b"gone", b"b")))]
        if self.odd(0.1):
            rows += [(rng.choice(sorted(set(self.inodes) - self.consoles())), rows[-1][1]), (1, b"a\0b")]
        if self.odd(0.05):
            rows = rows[2:]
        if self.odd(0.1):
            rows += [(rng.choice((1, self.u)), b"p%02d" % i) for i in range(rng.choice((31, 32)) - len(rows))]
        for _ in range(rng.randrange(1, 4) if self.odd(0.3) else 0):
            rows.insert(rng.randrange(len(rows) + 1), (0, rng.choice((b"", b"a", b"old"))))
        return rows

    def consoles(self):
        kinds = {ino: (inode.mode & 0o60000, inode.device) for ino, inode in self.inodes.items()}
        return {ino for ino, kind in kinds.items() if kind == (CHARACTER, CONSOLE)}

    def fill(self, ino):
        """Gives a directory its bytes: with an odd size, with a hole, with bytes past its end, or longer than a
        search looks."""
        rng, inode = self.rng, self.inodes[ino]
        data = b"".join(entry(number, name) for number, name in self.odd_rows(self.entries[ino]))
        inode.size = len(data)
        if inode.size < 4096:
            behind = rng.choice((entry(1, b"a"), rng.randbytes(rng.randrange(16)))) if self.odd(0.25) else b""
            inode.size += len(behind) % 16
            hole = self.odd(0.08)
            inode.blocks = in_blocks(data + behind, first=int(hole))
            inode.size += 512 * hole + (65536 if self.odd(0.05) else 0)
        else:
            inode.blocks = in_blocks(data[:DIRECTORY_BYTES])
            inode.size = min(inode.size, DIRECTORY_BYTES)
        if max(inode.blocks, default=0) > 7 or self.odd(0.08):
            inode.mode |= LARGE

    # bytes

    def listing(self):
        """A line for each inode: number, mode, links, owner and group, size, device, first data blocks that it
        holds, and paths."""
        lines = [f"isize {self.isize}, fsize {self.fsize}, time {self.time}"]
        for ino, inode in sorted(self.inodes.items()):
            paths = " ".join(path for path, number in self.paths if number == ino)
            blocks = ",".join(str(n) for n in sorted(inode.blocks)[:9])
            lines.append(f"{ino:4} {inode.mode:06o} {inode.nlink:3} {inode.owner},{inode.group} size {inode.size} "
                         f"device {inode.device} blocks {blocks} {paths}")
        return lines

    def image(self, init, rng):
        """The bytes of the disk whose /etc/init is these bytes, which may leave out a block of zeros at their end."""
        self.rng, inode = rng, self.inodes[self.init]
        inode.size, inode.blocks = len(init), in_blocks(init)
        last = max(inode.blocks)
        if self.odd(0.3) and last and not any(inode.blocks[last]):
            del inode.blocks[last]
        inode.mode |= LARGE if self.odd(0.1) else 0
        for ino in self.entries:
            self.fill(ino)
        used = sum(inode.held() for inode in self.inodes.values() if not inode.is_device())
        room = rng.choice((0, 1, 2, 3, 5, 8, 13, 21, 34, 55, 99, 100, 101, 102, 150, 310))
        self.fsize = min(self.isize + 2 + used + room + rng.randrange(3), END_OF_FILES)
        if self.odd(0.02):
            self.fsize = END_OF_FILES
            room = self.fsize - self.isize - 2 - used
        return Writer(rng, self).written(room)


class Writer:
    """Writes a tree into the blocks of a disk."""

    def __init__(self, rng, tree):
        self.rng, self.tree = rng, tree
        self.disk = {n: bytearray(512) for n in range(tree.isize + 2)}
        self.numbers = list(range(tree.isize + 2, tree.fsize))
        if rng.random() < 0.7:
            rng.shuffle(self.numbers)

    def put(self, data):
        number = self.numbers.pop()
        self.disk[number] = bytearray(data)
        return number

    def addresses(self, inode):
        """The eight addresses of an inode, whose blocks are put on the disk."""
        if inode.is_device():
            return [inode.device] + [self.rng.choice((0, 0, 5))] * 7
        data = {n: self.put(block) for n, block in inode.blocks.items()}
        if not inode.mode & LARGE:
            return [data.get(n, 0) for n in range(8)]
        names = {k: self.indirect([data.get(256 * k + i, 0) for i in range(256)]) for k in inode.indirect()}
        last = self.indirect([names.get(7 + i, 0) for i in range(256)]) if any(k >= 7 for k in names) else 0
        return [names.get(k, 0) for k in range(7)] + [last]

    def indirect(self, values):
        return self.put(struct.pack("<256H", *values))

    def put_inode(self, ino, inode):
        at = 32 * ((ino + 31) % 16)
        fields = (inode.mode, inode.nlink, inode.owner, inode.group, inode.size >> 16, inode.size & 0xFFFF)
        times = [half for time in inode.times for half in (time >> 16, time & 0xFFFF)]
        self.disk[(ino + 31) // 16][at : at + 32] = struct.pack("<HBBBBH8H4H", *fields, *self.addresses(inode), *times)

    def free_list(self, room):
        """Gives blocks back as the kernel does, and then `nfree` and the numbers of the super-block's group."""
        group = [0] if self.rng.random() < 0.8 else []
        for _ in range(room):
            number = self.put(self.rng.choice((bytes(512), self.rng.randbytes(512))))
            if group in ([], [0]):
                self.disk[number] = bytearray(512)  # the last of the list: its group is empty
            if len(group) == 100:
                words(self.disk[number], [100] + group)
                group = []
            group.append(number)
        return len(group), group + self.rng.choices((0, 77, 65535), k=100 - len(group))

    def spare(self):
        rng, tree = self.rng, self.tree
        some = rng.sample(tree.numbers, min(len(tree.numbers), rng.choice((0, 1, 4, 50))))
        some += rng.sample((0, 1, tree.count, tree.count + 1, 65535), rng.randrange(3))
        rng.shuffle(some)
        return len(some), some + rng.choices((0, 3, 65535), k=100 - len(some))

    def written(self, room):
        rng, tree = self.rng, self.tree
        for ino, inode in tree.inodes.items():
            self.put_inode(ino, inode)
        nfree, free = self.free_list(min(room, len(self.numbers)))
        ninode, spare = self.spare()
        self.disk[0][:] = rng.randbytes(512)
        words(self.disk[1], [tree.isize, tree.fsize, nfree, *free, ninode, *spare])
        time = struct.pack("<2H", tree.time >> 16, tree.time & 0xFFFF)
        self.disk[1][408:512] = rng.randbytes(4) + time + rng.randbytes(96)
        image = bytearray(512 * (max(self.disk) + 1))
        for number, block in self.disk.items():
            image[512 * number : 512 * number + 512] = block
        return bytes(image).rstrip(b"\0") if rng.random() < 0.3 else bytes(image)
