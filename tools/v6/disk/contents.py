"""What is on a disk, whatever blocks it stands in, so that two disks can be compared."""
from v6.disk.survey import walk
from v6.disk.volume import ROOT, Volume


def contents(image):
    """Each path of a disk with its inode's number and fields, but not the time of the last access, and its bytes."""
    volume, found = Volume(image), {}
    for number, path, _ in walk(volume, ROOT, b"/"):
        if volume.is_used(number):
            inode = volume.inode(number)
            device = inode.addresses[0] if inode.is_device() else None
            data = None if inode.is_device() else volume.read(inode)
            found[path] = number, inode.mode, inode.links, inode.owner, inode.group, inode.size, inode.changed, device, data
    return found
