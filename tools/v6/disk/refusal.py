"""Why a disk isn't run, and what to do about it, in the same words wherever one is refused."""
import os
import shlex

from v6.disk.survey import behind_end, unpacked_by
from v6.disk.volume import BLOCK, PACK, Volume
from v6.host.files import read_bytes

PORTS = {"image: ": "image", "second image: ": "second"}  # how the program tells the fault of a disk


def cut(volume):
    """How an image ends before what its files hold, or nothing: v6 takes what is past the end for zeros."""
    is_cut = volume.length // BLOCK < volume.isize + 2
    if is_cut or behind_end(volume, [n for n in range(1, 16 * volume.isize + 1) if volume.is_used(n)]):
        return f"it ends at byte {volume.length}, before what its files hold"
    return ""


def unpacking(image):
    """What to do about a fault of an image that is compressed, or nothing."""
    command = unpacked_by(image)
    return f": it is compressed, and {command} makes the disk of it" if command else ""


def way_on(name, image, port="image"):
    """What to do about a fault of an image that was to be run, or to stand beside one."""
    pack = "--pack " * (port == "second")
    return unpacking(image) or f": tools/disk.py {pack}check {shlex.quote(name)} tells all faults"


def told_cut(name, image, port="image"):
    """Why an image isn't run that is cut, or nothing. Of one whose super-block can't be the program tells that."""
    volume = Volume(image[: PACK * BLOCK])
    is_bad = not volume.isize or not volume.isize + 2 <= volume.fsize <= PACK
    said = "" if is_bad or len(image) >= volume.fsize * BLOCK else cut(volume)
    return said and f"{name}: {said}{way_on(name, image, port)}"


def hint(said, files):
    """What to do about what the program says, where that is a fault of one of the disks, or nothing."""
    for begins, port in PORTS.items():
        if said.startswith(begins) and files.get(port) and os.path.isfile(files[port]):
            return way_on(files[port], read_bytes(files[port]), port)
    return ""
