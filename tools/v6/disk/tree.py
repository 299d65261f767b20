"""What is to be on a disk: files, directories and devices, from a folder of the host and a table. docs/tools/disk.md."""
import os
import re
import stat
from dataclasses import dataclass

from v6.disk.volume import BLOCKS, CHARACTER, DIRECTORY, FILE_BYTES, PLAIN, DiskError, components, shown
from v6.host.files import read_bytes, read_sparse

PERMISSIONS = 0o7777
KINDS = {PLAIN: "-", CHARACTER: "c", DIRECTORY: "d", BLOCKS: "b"}
DEVICES = {"c": CHARACTER, "b": BLOCKS}
MOST_TIME = 2**32 - 1
FORMS = "PATH MODE, PATH MODE OWNER GROUP, or these and c or b MAJOR MINOR is wanted"


@dataclass
class Item:
    """A directory with what is below it, a device, or a file: one of the host, or its bytes. One item under two names is a
    file with two names."""

    mode: int
    source: bytes = b""
    owner: int = 0
    group: int = 0
    device: int = 0
    below: dict = None
    times: tuple = None  # of the last access and the last change, where they aren't the disk's
    holes: list = None  # where they aren't those of the host's file
    data: bytes = None

    def is_plain(self):
        return self.below is None and not self.mode & CHARACTER

    def contents(self):
        """The bytes of a file, and the blocks that it doesn't hold."""
        data, holes = (self.data, []) if self.data is not None else read_sparse(self.source)
        return data, holes if self.holes is None else self.holes


def scan(source):
    """The item for a file or a folder of the host, with all that is below it. Two names of one file are one item."""
    known = {}
    root = alone(source, known)
    waiting = [(source, root)]
    for folder, item in waiting:
        for name in sorted(os.listdir(folder)) if item.below is not None else ():
            path = os.path.join(folder, name)
            item.below[name] = alone(path, known)
            waiting.append((path, item.below[name]))
    return root


def alone(source, known):
    """The item for a file of the host, or for a folder as if it were empty."""
    if source == b"-":
        return Item(0o644, source)
    status = os.lstat(source)
    mode, same = status.st_mode, (status.st_dev, status.st_ino)
    if stat.S_ISDIR(mode):
        return Item(DIRECTORY | 0o755, below={})
    if not stat.S_ISREG(mode):
        kind = "a symbolic link" if stat.S_ISLNK(mode) else "a socket, a pipe or a device"
        raise DiskError(f"{os.fsdecode(source)}: {kind}, and only files and folders can be put on a disk")
    if status.st_size > FILE_BYTES:
        raise DiskError(f"{os.fsdecode(source)}: {status.st_size} bytes are too many for a file: at most {FILE_BYTES}")
    return known.setdefault(same, Item(0o755 if mode & 0o100 else 0o644, source))


# tables


def row(volume, number, path):
    """The line of a table for a file."""
    inode = volume.inode(number)
    words = [plain_name(path) + ("/" if inode.is_directory() and path != b"/" else ""),
             f"{inode.mode & PERMISSIONS:04o}", str(inode.owner), str(inode.group)]
    if inode.is_device():
        words += [KINDS[inode.mode & BLOCKS], str(inode.addresses[0] >> 8), str(inode.addresses[0] & 255)]
    if (inode.accessed, inode.changed) != (volume.time, volume.time):
        words += ["times", str(inode.accessed), str(inode.changed)]
    holes = volume.holes(inode)
    return " ".join(words + (["holes", spans(holes)] if holes else [])) + "\n"


def plain_name(path):
    return shown(path).replace(" ", "\\040")


def spans(numbers):
    """Rising numbers as in 3,5-9."""
    found = []
    for number in numbers:
        if found and found[-1][1] == number - 1:
            found[-1][1] = number
        else:
            found.append([number, number])
    return ",".join(str(low) if low == high else f"{low}-{high}" for low, high in found)


def number(text, base, most, what):
    try:
        value = int(text, base)
    except ValueError:
        value = -1
    if not (text.isascii() and text.isdigit() and 0 <= value <= most):
        raise DiskError(f"'{text}': no {what}")
    return value


def numbers(text):
    """The numbers of `spans`."""
    found = []
    for span in text.split(","):
        ends = [number(end, 10, 32767, "number of a block: 0 to 32767") for end in span.split("-")]
        if len(ends) > 2:
            raise DiskError(f"'{span}': no span of blocks")
        found += range(ends[0], ends[-1] + 1)
    return found


def path_of(word):
    if not word.startswith("/"):
        raise DiskError(FORMS)
    return re.sub(rb"\\([0-3][0-7][0-7])", lambda m: bytes([int(m[1], 8)]), os.fsencode(word))


def read_row(words):
    """A line of a table: its path, whether it is a directory's, and the item."""
    path = path_of(words[0])
    item = Item(0)
    if len(words) > 2 and words[-2] == "holes":
        item.holes = numbers(words[-1])
        words = words[:-2]
    if len(words) > 3 and words[-3] == "times":
        item.times = tuple(number(word, 10, MOST_TIME, f"time: 0 to {MOST_TIME} seconds") for word in words[-2:])
        words = words[:-3]
    if len(words) not in (2, 4, 7):
        raise DiskError(FORMS)
    item.mode = number(words[1], 8, PERMISSIONS, "mode: four octal digits, at most 7777")
    if len(words) > 2:
        item.owner, item.group = (number(word, 10, 255, "owner or group: 0 to 255") for word in words[2:4])
    if len(words) == 7:
        if words[4] not in DEVICES:
            raise DiskError(f"'{words[4]}': a device is c or b")
        major, minor = (number(word, 10, 255, "number of a device: 0 to 255") for word in words[5:])
        item.mode, item.device = item.mode | DEVICES[words[4]], major << 8 | minor
    elif path.endswith(b"/"):
        item.mode, item.below = item.mode | DIRECTORY, {}
    return components(path), item


def above(root, names):
    """The directory for the last of these names, which is made where it isn't there."""
    at = root
    for name in names[:-1]:
        at = at.below.setdefault(name, Item(DIRECTORY | 0o755, below={}))
        if at.below is None:
            raise DiskError(f"{shown(name)}: not a directory")
    return at


def apply_row(root, names, item):
    """Puts a line of a table into the tree of a folder: the modes of what is there, devices and directories that aren't."""
    at = above(root, names)
    there = at.below.get(names[-1]) if names else root
    kind = item.mode & BLOCKS
    if there is None and kind == PLAIN:
        raise DiskError("the folder has no such file; the path of a directory ends with a slash")
    if there is None:
        at.below[names[-1]] = item
    elif there.mode & BLOCKS != kind:
        raise DiskError("the folder has something else under this name")
    else:
        there.mode, there.owner, there.group = item.mode, item.owner, item.group
        there.times, there.holes = item.times, item.holes


def apply_name(root, path, other):
    """A second name of a file: PATH = OTHER."""
    names, there = components(path), root
    for name in components(other):
        there = there.below.get(name) if there and there.below is not None else None
    if there is None or there.below is not None or not names:
        raise DiskError(f"'{shown(other)}': no file that can have a second name")
    above(root, names).below[names[-1]] = there


def apply_table(root, name):
    """Puts a table into the tree of a folder. Gives the sizes and the time of the disk that it is of, where it tells them."""
    disk = None
    for count, text in enumerate(read_bytes(name).decode("ascii", "replace").split("\n"), 1):
        words = text.split()
        try:
            if not words or words[0].startswith("#"):
                continue
            if words[0] == "disk" and len(words) == 4:
                disk = [number(word, 10, most, "size or time") for word, most in zip(words[1:], (65535, 65535, MOST_TIME))]
            elif len(words) == 3 and words[1] == "=":
                apply_name(root, path_of(words[0]), path_of(words[2]))
            else:
                apply_row(root, *read_row(words))
        except DiskError as error:
            raise DiskError(f"{name}: line {count}: {error}") from None
    return disk


# onto the disk


def place(volume, directory, name, item, time, placed):
    """An item under a name of a directory of the disk. What is there already keeps its mode and its owner."""
    there = volume.look(directory, name)
    if there is not None and volume.inode(there).mode & BLOCKS != item.mode & BLOCKS:
        raise DiskError("the disk has something else under this name")
    if there is None and id(item) in placed:
        volume.enter(directory, name, placed[id(item)], time)
        return placed[id(item)]
    if there is None:
        if item.below is not None:
            there = volume.make_directory(directory, name, item.mode & PERMISSIONS, time)
        else:
            there = volume.make(directory, name, item.mode, time, item.device)
        own(volume, there, item)
    if item.is_plain():
        data, holes = item.contents()
        volume.write_file(there, data, time, holes)
    placed[id(item)] = there
    return there


def own(volume, inode_number, item):
    inode = volume.inode(inode_number)
    inode.mode = inode.mode & ~PERMISSIONS | item.mode & PERMISSIONS
    inode.owner, inode.group = item.owner, item.group
    volume.set_inode(inode_number, inode)


def place_all(volume, directory, path, root, time):
    """What is below an item, level by level and each level by the names' bytes; then the times, which putting sets."""
    waiting, placed, timed = [(directory, path, root)], {}, [(directory, root)]
    for directory, path, item in waiting:
        for name, below in sorted(item.below.items()):
            full = path.rstrip(b"/") + b"/" + name
            try:
                there = place(volume, directory, name, below, time, placed)
            except DiskError as error:
                raise DiskError(f"{shown(full)}: {error}") from None
            timed.append((there, below))
            if below.below is not None:
                waiting.append((there, full, below))
    for there, item in timed:
        if item.times is not None:
            inode = volume.inode(there)
            inode.accessed, inode.changed = item.times
            volume.set_inode(there, inode)
