"""What is done to a disk as a whole: more room on it, and a good disk of what is whole on a damaged one."""
import struct

from v6.disk.survey import ROOT, Survey, walk
from v6.disk.tree import PERMISSIONS, Item, own, place_all
from v6.disk.volume import BLOCK, BLOCKS, LARGE, SWAP, DiskError, Volume, check_name, shown

LOST = b"lost"  # the directory that gets what has no name
MOST_INODES = 65535
DOUBTFUL = "neither its super-block nor its root directory is whole: it may be no disk of the Sixth Edition"


# more room


def grow(volume, blocks, isize, most=SWAP):
    """Gives a file system more blocks, and more blocks of inodes. What stands in their place moves."""
    if blocks < volume.fsize or isize < volume.isize:
        raise DiskError(f"it has {volume.fsize} blocks and {16 * volume.isize} inodes, and can't become smaller")
    if blocks > most or 16 * isize > MOST_INODES:
        raise DiskError(f"at most {most} blocks and {MOST_INODES} inodes")
    wanted = set(range(volume.isize + 2, isize + 2))
    free = [block for block in [*volume.free_blocks(), *range(volume.fsize, blocks)] if block not in wanted]
    inodes = [number for number in range(1, 16 * volume.isize + 1) if volume.is_used(number)]
    held = sum(block in wanted for number in inodes for _, block in volume.held(volume.inode(number)))
    if held > len(free) or isize + 2 >= blocks:
        raise DiskError(f"no room for {16 * isize} inodes: {held} blocks must move, and {len(free)} are free")
    volume.fsize, volume.group, volume.free = blocks, [], None
    for block in sorted(free, reverse=True):
        volume.give(block)
    for number in inodes:
        inode = volume.inode(number)
        if not inode.is_device():
            move(volume, inode, wanted)
            volume.set_inode(number, inode)
    for block in wanted:
        volume.change(block, 0, bytes(BLOCK))
    volume.isize = isize


def moved(volume, block, wanted):
    """The block in the place of one that is wanted, with the same bytes."""
    if block not in wanted:
        return block
    other = volume.take()
    volume.change(other, 0, volume.block(block))
    return other


def move(volume, inode, wanted):
    """Moves the blocks of a file that are wanted, and names the new ones in the place of the old."""
    inode.addresses = [moved(volume, block, wanted) for block in inode.addresses]
    if inode.mode & LARGE:
        double = inode.addresses[7]
        if double:
            move_table(volume, double, wanted)
        for table in [*inode.addresses[:7], *(volume.words(double) if double else ())]:
            if table:
                move_table(volume, table, wanted)


def move_table(volume, table, wanted):
    words = [moved(volume, block, wanted) for block in volume.words(table)]
    volume.change(table, 0, struct.pack("<256H", *words))


# a good disk of a damaged one


class Repair:
    """The whole files of a damaged disk, as items, and what is lost of it."""

    def __init__(self, image):
        self.survey = Survey(image)
        self.volume, self.lost, self.items = self.survey.volume, [], {}
        self.root = Item(0o755, below={})
        if self.volume.is_used(ROOT) and self.volume.inode(ROOT).is_directory():
            self.root = self.item(ROOT, b"/")
            self.fill(self.root, ROOT, b"")
        for number in self.survey.nameless():
            self.find_place(number)

    def item(self, number, path):
        """The item for an inode, or None where it isn't whole."""
        if number in self.items:
            return self.items[number]
        inode, whole = self.volume.inode(number), number not in self.survey.hurt
        if not whole:
            self.lost.append(f"{shown(path)}: {'its entries in a damaged block' if inode.is_directory() else 'not whole'}")
        self.items[number] = None
        if whole or inode.is_directory():
            item = Item(inode.mode & (PERMISSIONS | BLOCKS), b"", inode.owner, inode.group)
            item.times = inode.accessed, inode.changed
            if inode.is_directory():
                item.below = {}
            elif inode.is_device():
                item.device = inode.addresses[0]
            else:
                item.data, item.holes = self.volume.read(inode), self.volume.holes(inode)
            self.items[number] = item
        return self.items[number]

    def fill(self, top, number, path):
        """Puts what is below a directory into its item."""
        made = {path: top}
        for below, full, name in walk(self.volume, number, path):
            folder = made.get(full[: -len(name) - 1]) if full != path else None
            if full == path or folder is None:
                continue
            item = self.entry(below, full, name, folder)
            if item is not None:
                folder.below[name] = item
                if item.below is not None:
                    made[full] = item

    def entry(self, number, path, name, folder):
        """The item for an entry, or None where it can't be kept."""
        why = None if self.volume.is_used(number) else f"its inode {number} is free"
        try:
            check_name(name)
        except DiskError as error:
            why = why or str(error)
        if name in folder.below:
            why = why or "the name comes twice in its directory"
        known = self.items.get(number)
        if known is not None and known.below is not None:
            why = why or "a directory under a second name"
        if why:
            self.lost.append(f"{shown(path)}: {why}")
            return None
        return self.item(number, path)

    def find_place(self, number):
        """Puts an inode without a name into the directory for these, under its number."""
        name = b"%d" % number
        item = self.item(number, b"#" + name)
        if item is not None:
            lost = self.root.below.setdefault(LOST, Item(0o040755, below={}))
            (lost if lost.below is not None else self.root).below[name] = item
            if item.below is not None:
                self.fill(item, number, b"#" + name)

    def image(self, most=SWAP):
        """The bytes of the good disk, which has so many blocks at most."""
        old = self.volume
        blocks = min(old.fsize, most)
        volume = Volume.empty(blocks, 16 * max(old.isize, 1), old.time, most)
        own(volume, ROOT, self.root)
        place_all(volume, ROOT, b"/", self.root, old.time)
        volume.change(0, 0, old.block(0))
        volume.length = blocks * BLOCK
        return volume.image()
