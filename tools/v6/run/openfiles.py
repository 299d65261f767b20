"""Files that a process has open: which of a disk's files they may be, and where they stand, by the bytes that their reads gave. All that
fit are kept, so what all of them give next is surely right. See docs/manual/calls.md for reads, writes and seeks."""
from collections import Counter

from v6.disk.volume import BLOCK, TYPE, Volume
from v6.pdp11.names import signed

LEAST, FEW = 8, 4  # bytes that tell a file and its place, as a rule, and reads after which fewer are taken
LONGEST = 4096  # bytes of its last reads that are kept
MOST = 1024  # places that may be those of one open file
FIRST = 2  # the read after which it is looked for the file the first time, and the write
PLACES, LAST_MODE, BELOW_0 = 2**32, 5, 0o100000
TERMINAL = 0  # in the place of the number of an inode
KEYS = bytes.maketrans(b"\rABCDEFGHIJKLMNOPQRSTUVWXYZ|{}`~", b"\nabcdefghijklmnopqrstuvwxyz!()'^")  # bytes that one key may become


def sought(place, size, offset, mode):
    """Where a seek moves an open file of this size from a place; None where that isn't known, and the new place comes from it."""
    mode = 2 if mode >= BELOW_0 else min(mode, LAST_MODE)
    base = (0, place, size)[mode % 3]
    moves = (signed(offset) if mode % 3 else offset) * (BLOCK if mode >= 3 else 1)
    return None if base is None else (base + moves) % PLACES


def is_due(count):
    """Whether it is looked for a file after so many calls: after a few, and where they have doubled."""
    return count >= FIRST and not count & count - 1


class File:
    """The bytes of a file, and which of its blocks are holes: a read of these takes a block."""

    def __init__(self, volume, number):
        inode = volume.inode(number)
        self.number, self.data = number, volume.read(inode)
        self.holes = set(volume.holes(inode))

    def at(self, place, count):
        return self.data[place : place + count]

    def answer(self, place, count):
        """The bytes of a read, or None where they aren't known."""
        found = self.at(place, count)
        blocks = range(place // BLOCK, -(-(place + len(found)) // BLOCK)) if found else ()
        return found if self.holes.isdisjoint(blocks) else None

    def places(self, tail, end, is_end):
        """After which places bytes stand, where one is known after that, and where the file ends after them."""
        if is_end or end is not None:
            end = len(self.data) if end is None else end
            is_there = self.data[max(end - len(tail), 0) : end] == tail and (end == len(self.data) or not is_end)
            return [end] if is_there else []
        found, at = [], self.data.find(tail)
        while at >= 0 and len(found) <= MOST:
            found.append(at + len(tail))
            at = self.data.find(tail, at + 1)
        return found


class Open:
    """An open file: its last bytes that were read one after the other, the place after them where that is known, and whether the file
    ends there; which files it may be, where that was found, each with the place at which it stands; and how many reads were asked for."""

    def __init__(self):
        self.reads, self.may_be = 0, None
        self.loses()

    def loses(self):
        """What was read so far tells nothing any more."""
        self.tail, self.place, self.is_end, self.may_be = b"", None, False, None

    def answer(self, count):
        found = {file.answer(place, count) for file, place in self.may_be or ()}
        return found.pop() if len(found) == 1 else None

    def takes(self, data, count):
        """A read of so many bytes has given these."""
        if self.may_be is not None:
            self.may_be = [(file, place + len(data)) for file, place in self.may_be if file.at(place, count) == data]
            if not self.may_be:
                self.loses()
        self.tail, self.is_end = (self.tail + data)[-LONGEST:], len(data) < count
        self.place = None if self.place is None else self.place + len(data)

    def moves(self, offset, mode):
        found = None if self.may_be is None else [(one, sought(place, len(one.data), offset, mode)) for one, place in self.may_be]
        place = sought(self.place, None, offset, mode)
        self.loses()
        self.may_be, self.place = found, place

    def is_one_of(self, number):
        """Whether it was found among others that it may be this file."""
        return any(file.number == number for file, _ in self.may_be or ())


class OpenFiles:
    """Those of a process, by their entries: what was read from them, and which file each write goes to."""

    def __init__(self):
        self.read, self.written, self.targets = {}, Counter(), {}  # the last by entries: (number, the file's bytes when it was found)

    def others(self):
        """Somebody else may have written, or moved what both have open."""
        self.read, self.written = {}, Counter()
        self.targets = {entry: found for entry, found in self.targets.items() if found[0] == TERMINAL}

    def closed(self, entry):
        self.read.pop(entry, None)
        self.written.pop(entry, None)
        self.unwritten(entry)

    def moved(self, entry, offset, mode):
        """By a seek; of a file that is written, a place may be written twice from then on."""
        if entry in self.read:
            self.read[entry].moves(offset, mode)
        if self.number(entry) != TERMINAL:
            self.unwritten(entry)

    def number(self, entry):
        """That of the file to which a write goes, or None."""
        return self.targets[entry][0] if entry in self.targets else None

    def unwritten(self, entry):
        """It isn't known any more to which file a write goes, nor so whether that was only added to."""
        if self.targets.pop(entry, (TERMINAL,))[0] != TERMINAL:
            self.loses(lambda one: one.may_be is None)

    def answer(self, entry, count):
        """The bytes of a read, or None where they aren't known."""
        return self.read[entry].answer(count) if entry in self.read else None

    def took(self, entry, count, data, is_pipe, then):
        """What a read gave: one that wasn't asked for, or `then` is the moment after it; and whether it may be one of a pipe."""
        one = self.read.setdefault(entry, Open())
        one.reads += then is not None
        one.takes(data, count)
        is_enough = len(one.tail) >= LEAST or one.tail and one.reads >= FEW
        if then and one.may_be is None and is_enough and is_due(one.reads):
            one.may_be = self.found(one, is_pipe, then)

    def found(self, one, is_pipe, then):
        """Which files an open one may be, or None where it may be a terminal, a pipe, a file that was changed meanwhile, or too many."""
        disk = then.disk()
        if disk is None or is_within(one.tail, then.typed()):
            return None
        volume, found = Volume(disk), []
        if is_pipe and any(not inode.links and not inode.mode & TYPE for _, inode in inodes_of(volume)):
            return None
        if not self.is_appended(volume):
            return None
        for number, _ in inodes_of(volume):
            file = File(volume, number)
            found += [(file, place) for place in file.places(one.tail, one.place, one.is_end)]
            if len(found) > MOST:
                return None
        return found or None

    def is_appended(self, volume):
        """Whether the files that were written meanwhile have only grown, each place being written once: so what was read is there."""
        written = [found for found in self.targets.values() if found[0] != TERMINAL]
        return len({number for number, _ in written}) == len(written) and all(
            volume.is_used(number) and volume.read(volume.inode(number)).startswith(old) for number, old in written)

    def wrote(self, entry, then):
        """A write has changed a file; `then` is the moment after it where it was asked for. Only what is read from others stays known."""
        self.written[entry] += 1
        if then and self.read and entry not in self.targets and is_due(self.written[entry]):
            target = then.target()
            if target is not None:
                self.targets[entry] = target
                self.loses(lambda one: target[0] != TERMINAL and one.may_be is None)
        number, own = self.number(entry), self.read.get(entry)  # whose place has moved
        self.loses(lambda one: number is None or one is own)
        for one in self.read.values():
            if one.is_one_of(number):
                one.may_be = None  # until more was read, which tells whether it is

    def loses(self, is_lost=lambda one: True):
        """What was read from some of them tells nothing any more."""
        for one in filter(is_lost, self.read.values()):
            one.loses()


def is_within(data, typed):
    """Whether a terminal may have given these bytes: they come of keys that were typed, in their order."""
    keys = bytes(key & 0o177 for key in typed).translate(KEYS)
    at = 0
    for byte in data.translate(KEYS):
        at = keys.find(byte, at) + 1
        if not at:
            return False
    return True


def inodes_of(volume):
    """The inodes of files that have bytes on the disk."""
    for number in range(1, 16 * volume.isize + 1):
        if volume.is_used(number):
            inode = volume.inode(number)
            if not inode.is_device():
                yield number, inode


def target_of(before, after):
    """What a write has changed, by the disk and what the terminal has shown before and after it: (number of the file, its bytes), TERMINAL
    for the number of the terminal; or None where that isn't seen."""
    (old, shown), (new, shows) = before, after
    (old, new) = ({number: volume.read(inode) for number, inode in inodes_of(volume)} for volume in (Volume(old), Volume(new)))
    changed = [number for number in {*old, *new} if old.get(number) != new.get(number)]
    if not changed:
        return (TERMINAL, b"") if len(shows) > len(shown) else None
    return (changed[0], new[changed[0]]) if len(changed) == 1 and changed[0] in new else None
