"""A folder of the host goes to the disk of a program that is tried, and comes back. See docs/tools/try.md."""
import os
import stat
import tempfile

from v6.disk.survey import walk
from v6.disk.tree import DIRECTORY, Item, place_all, scan
from v6.disk.volume import BLOCKS, PLAIN, ROOT, DiskError, check_name, shown
from v6.host.files import told, uninterrupted


def put_folder(volume, name, here):
    """A folder of the host, or an empty one, becomes a directory of the root."""
    root = Item(DIRECTORY | 0o755, below={}) if name is None else scan(os.fsencode(os.path.realpath(name)))
    if root.below is None:
        raise DiskError(f"{name}: not a folder")
    if volume.look(ROOT, here) is not None:
        raise DiskError(f"the disk has /{shown(here)} already, and the folder is to be there")
    place_all(volume, ROOT, b"/", Item(0, below={here: root}), volume.time)


class Home:
    """A folder of the host that is made of a directory of the disk. `passed` has the devices in it, of which nothing comes."""

    def __init__(self, volume, target):
        self.volume, self.target, self.names, self.passed = volume, target, {}, []

    def fill(self, start):
        for number, path, name in walk(self.volume, start, b""):
            if not self.volume.is_used(number):
                raise DiskError(f"{shown(path)}: its inode {number} is free")
            if path:
                check_name(name)
            self.put(number, self.volume.inode(number), path)

    def put(self, number, inode, path):
        target = self.target + path
        if inode.is_device():
            self.passed.append(path)
        elif number in self.names:
            if inode.is_directory():
                raise DiskError(f"{shown(path)}: a directory under a second name")
            os.link(self.target + self.names[number], target)
        elif inode.is_directory():
            self.names[number] = path
            os.mkdir(target)
        elif inode.mode & BLOCKS == PLAIN:
            self.names[number] = path
            with open(target, "xb") as file:
                file.write(self.volume.read(inode))
            if inode.mode & stat.S_IXUSR:
                os.chmod(target, os.stat(target).st_mode | 0o111)


def bring_folder(volume, here, name):
    """Makes the folder, whole or not at all, of what stands in its directory of the disk. Gives the devices there."""
    target = os.path.abspath(os.fsencode(name))
    with uninterrupted():
        made = tempfile.TemporaryDirectory(dir=os.path.dirname(target), prefix=b".new-")
    with made as beside:
        home = Home(volume, beside + b"/it")
        home.fill(volume.find(here))
        os.rename(beside + b"/it", target)
    return home.passed


def bring(image, volume, here, options):
    """Brings a folder back, and gives what is to be told. Where it can't be made the disk is kept in a file, which is told."""
    try:
        devices = bring_folder(volume, here, options.back)
    except (OSError, DiskError) as error:
        why = told(error) if isinstance(error, OSError) else str(error)
        raise DiskError(f"{options.back}: {why}; the disk is in {options.final or kept(image, options.back)}") from None
    return [f"/{shown(here)}{shown(path)}: a device, which stays on the disk" for path in devices]


def kept(image, name):
    """A new file for the disk, beside the folder that couldn't be made, or else where the host keeps what is for a while."""
    words = {"prefix": os.path.basename(name) + ".", "suffix": ".disk"}
    try:
        handle, path = tempfile.mkstemp(dir=os.path.dirname(os.path.abspath(name)), **words)
    except OSError:
        handle, path = tempfile.mkstemp(**words)
    with os.fdopen(handle, "wb") as file:
        file.write(image)
    return path
