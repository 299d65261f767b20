"""All faults of a disk, with the names of the files concerned, in the manner of icheck(VIII) and dcheck(VIII).

`v6 check` tells the first fault for which a disk is refused; this tells each of them, and what no refusal looks at: links,
names and blocks that are lost.
"""
import struct

from v6.disk.volume import BLOCK, GROUP, LARGE, PACK, ROOT, SWAP, USED, Volume, plural, shown

FREE = 0  # stands for the free list where the owners of a block are told
INODES = 16  # in a block
# what the first bytes of a compressed file are, and the command that gives the file back
COMPRESSED = {b"\037\213": "gunzip", b"\037\235": "uncompress", b"BZh": "bunzip2", b"\3757zXZ": "unxz", b"PK\3\4": "unzip"}


def walk(volume, number, path):
    """A file and each one below it: its number, its path, and its name in its directory, which may be an odd one. A
    directory is entered once, also where it has two names."""
    waiting, met = [(number, path, path.split(b"/")[-1])], set()
    while waiting:
        number, path, name = waiting.pop()
        yield number, path, name
        if volume.is_used(number) and volume.inode(number).is_directory() and number not in met:
            met.add(number)
            entries = [entry for entry in volume.entries(volume.inode(number)) if entry[1] not in (b".", b"..")]
            waiting += [(below, path.rstrip(b"/") + b"/" + name, name) for below, name in reversed(entries)]


def unpacked_by(image):
    """The command that makes a disk of a compressed file, by its first bytes, or None. They may be those of a boot program, so that this
    is for an image with a fault."""
    return next((command for begins, command in COMPRESSED.items() if image.startswith(begins)), None)


def damaged(image):
    """A volume of an image that may have any fault, to be read alone. A super-block that can't be is told by the inodes: how many
    there are, and, where they name blocks after the end of the file system, that this end isn't right either."""
    volume = Volume(image[: PACK * BLOCK])
    if not volume.isize or not volume.isize + 2 <= volume.fsize <= PACK:
        fsize, volume.fsize = volume.fsize, SWAP
        volume.isize = guessed_isize(volume)
        if max(last_block(volume), volume.isize + 2) < fsize < SWAP:
            volume.fsize = fsize
    return volume


def last_block(volume):
    """The greatest block that a file or the free list names."""
    files = (volume.inode(number) for number in range(1, INODES * volume.isize + 1) if volume.is_used(number))
    held = [block for inode in files for _, block in volume.held(inode)]
    return max([0, *held, *(block for block in volume.group if block < volume.fsize)])


def guessed_isize(volume):
    """How many blocks of inodes there are, where the super-block doesn't tell: the root, and the files whose inodes come
    before the least block that any of them holds."""
    volume.isize = 1
    first = volume.inode(ROOT).addresses[0]
    end = first if 3 <= first < volume.fsize else volume.fsize
    block = 2
    while block < end:
        for number in range((block - 2) * INODES + 1, (block - 1) * INODES + 1):
            inode = volume.inode(number)
            if inode.mode & USED and not inode.is_device():
                end = min([end, *(address for address in inode.addresses if block < address < end)])
        block += 1
    return end - 2


def behind_end(volume, inodes):
    """The blocks of each file that lie past the end of the image, as far as the file has bytes there: by the file's inode."""
    found = {}
    if volume.length >= volume.fsize * BLOCK:
        return found
    for number in inodes:
        inode = volume.inode(number)
        for n, block in volume.held(inode):
            needs = BLOCK if n is None else min(max(inode.size - n * BLOCK, 0), BLOCK)
            if needs and block * BLOCK + needs > volume.length:
                found.setdefault(number, []).append(block)
    return found


def is_odd(inode):
    """Whether an inode is of a device that can't be: it has the marks of a file."""
    return inode.is_device() and bool(inode.mode & LARGE or inode.size or any(inode.addresses[1:]))


def told_odd(inode):
    marks = [(inode.mode & LARGE, "the bit of a large file"), (inode.size, f"a size of {inode.size}"),
             (any(inode.addresses[1:]), "blocks")]
    return " and ".join(text for there, text in marks if there)


class Survey:
    """What each block is for, what each inode's names are, and all that is wrong."""

    def __init__(self, image):
        self.volume = damaged(image)
        self.lines, self.owners, self.outside = [], {}, {}
        self.super_block(image)
        self.inodes = [n for n in range(1, INODES * self.volume.isize + 1) if self.volume.is_used(n)]
        self.names = self.all_names()
        self.blocks()
        self.free_list()
        self.behind, self.odd = behind_end(self.volume, self.inodes), [n for n in self.inodes if is_odd(self.volume.inode(n))]
        self.twice = {block: who for block, who in self.owners.items() if len(who) > 1}
        self.hurt = {*self.outside, *self.behind, *self.odd}  # the inodes of files that aren't whole
        for who in self.twice.values():
            files = [number for number in who if number != FREE]
            self.hurt |= set(files) if len(files) > 1 else set()

    def super_block(self, image):
        isize, fsize, count = struct.unpack("<3H", self.volume.block(1)[:6])
        self.refused = len(image) > PACK * BLOCK
        if self.refused:
            self.lines.append(f"the image has more than {PACK * BLOCK} bytes")
        (spares,) = struct.unpack("<H", self.volume.block(1)[206:208])
        self.is_bad = not isize or isize + 2 > fsize or count > GROUP or spares > GROUP
        if self.is_bad:
            self.lines.append(f"bad super-block: {isize} blocks of inodes, a file system of {fsize}, {count} numbers of free "
                              f"blocks and {spares} of inodes")
        elif fsize > SWAP:
            self.lines.append(f"file system of {fsize} blocks leaves no swap")

    def is_doubtful(self):
        """Whether nothing tells that these are the bytes of a disk at all."""
        is_root = self.volume.is_used(ROOT) and self.volume.inode(ROOT).is_directory() and ROOT not in self.hurt
        return self.is_bad and not is_root

    def all_names(self):
        """The paths of each inode, from the root on; and what is below directories that have none."""
        self.entries, self.parents, paths, met = [], {}, {}, set()
        tops = [ROOT] + [n for n in self.inodes if self.volume.inode(n).is_directory()]
        for top in tops:
            if top in met or not self.volume.is_used(top) or not self.volume.inode(top).is_directory():
                continue
            path = b"" if top == ROOT else b"#%d" % top
            for number, name, _ in walk(self.volume, top, path):
                paths.setdefault(number, []).append(name or b"/")
                met.add(number)
        return paths

    def called(self, number):
        names = [shown(name) for name in self.names.get(number, []) if not name.startswith(b"#")]
        if number == FREE:
            return "the free list"
        return ", ".join(names) if names else f"inode {number}, which has no name"

    def blocks(self):
        for number in self.inodes:
            inode = self.volume.inode(number)
            for _, block in self.volume.named(inode):
                if self.volume.is_data(block):
                    self.owners.setdefault(block, []).append(number)
                else:
                    self.outside.setdefault(number, []).append(block)

    def free_list(self):
        """Walks the free list up to its end or its first fault. Each block comes once, but for the last of a list that goes
        round."""
        volume, met = self.volume, set()
        count, *numbers = struct.unpack(f"<{GROUP + 1}H", volume.block(1)[4 : 6 + 2 * GROUP])
        where = "the super-block"
        while True:
            if count > GROUP:
                self.lines.append(f"free count of {count} in {where}")
                return
            group = numbers[:count]
            last = None
            for block in reversed(group):
                if not block:
                    return
                if not volume.is_data(block):
                    self.lines.append(f"free block {block} outside")
                    return
                self.owners.setdefault(block, []).append(FREE)
                if block in met:
                    return
                met.add(block)
                last = block
            if last is None:
                return
            where = f"block {last}"
            count, *numbers = volume.words(last)[: GROUP + 1]

    def report(self):
        """What is wrong, a line each."""
        lines = list(self.lines)
        for number, blocks in self.outside.items():
            lines.append(f"{self.called(number)}: block {', '.join(map(str, blocks))} outside")
        for block, who in sorted(self.twice.items()):
            lines.append(f"block {block} twice: {' and '.join(self.called(n) for n in who)}")
        if not self.volume.is_used(ROOT) or not self.volume.inode(ROOT).is_directory():
            lines.append("no root")
        return lines + self.cut() + self.links() + self.lost()

    def cut(self):
        """What lies after the image's end, and devices that can't be."""
        lines, first = [], self.volume.length // BLOCK
        if self.behind or first < self.volume.isize + 2:
            lines.append(f"the image ends at byte {self.volume.length}, before what its files hold")
        if first < self.volume.isize + 2:
            lines.append(f"the inodes from {max((first - 2) * INODES, 0) + 1} on are past that end")
        for number, blocks in self.behind.items():
            lines.append(f"{self.called(number)}: block {', '.join(map(str, blocks))} past that end")
        return lines + [f"{self.called(number)}: a device with {told_odd(self.volume.inode(number))}" for number in self.odd]

    def links(self):
        """Entries whose inode is free, and inodes whose count isn't that of their entries."""
        lines, counts = [], {}
        for number in self.inodes:
            inode = self.volume.inode(number)
            for below, name in self.volume.entries(inode) if inode.is_directory() else ():
                counts[below] = counts.get(below, 0) + 1
                if not self.volume.is_used(below):
                    path = self.names.get(number, [b"#%d" % number])[0].rstrip(b"/") + b"/" + name
                    lines.append(f"{shown(path)}: its inode {below} is free")
        for number in self.inodes:
            links, found = self.volume.inode(number).links, counts.get(number, 0)
            if links != found and (found or number in self.names):
                lines.append(f"{self.called(number)}: {plural(links, 'link')}, and {plural(found, 'entry', 'entries')}")
        return lines + [f"inode {number} has no name: {self.kind(number)}" for number in self.nameless()]

    def kind(self, number):
        inode = self.volume.inode(number)
        if inode.is_device():
            return "a device"
        return f"a {'directory' if inode.is_directory() else 'file'} of {plural(inode.size, 'byte')}"

    def nameless(self):
        """The inodes without a name that aren't below a directory without one either."""
        return [n for n in self.inodes if n != ROOT and
                (n not in self.names or self.names[n][0].startswith(b"#") and b"/" not in self.names[n][0])]

    def lost(self):
        missing = [n for n in range(self.volume.isize + 2, self.volume.fsize) if n not in self.owners]
        if len(missing) == 1:
            return [f"block {missing[0]} is neither free nor of a file"]
        return [f"{len(missing)} blocks are neither free nor of a file, from {missing[0]} on"] if missing else []
