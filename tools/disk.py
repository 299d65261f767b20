#!/usr/bin/env python3
"""Takes files out of disks of the Sixth Edition, puts files in; makes, checks and repairs disks: see docs/tools/disk.md."""
import signal

if __name__ == "__main__":
    signal.signal(signal.SIGINT, signal.SIG_DFL)  # an interrupt before main ends it without a word

import argparse
import contextlib
import datetime
import os
import re
import sys
import tempfile

sys.path.insert(0, os.path.dirname(os.path.abspath(__file__)))
from v6.disk.archives import FORMS, Member
from v6.disk.faultplace import FaultPlace
from v6.disk.refusal import cut, unpacking
from v6.disk.repair import DOUBTFUL, Repair, grow
from v6.disk.survey import Survey, damaged, walk
from v6.disk.tree import KINDS, MOST_TIME, PERMISSIONS, Item, above, apply_table, number, own, place_all, plain_name, row, scan
from v6.disk.volume import BLOCK, BLOCKS, DIRECTORY, PACK, PLAIN, ROOT, SWAP, DiskError, Volume, check_name, components, plural, shown
from v6.disk.wants import table
from v6.host.files import STREAMS, guarded, place_of, put_out, read_bytes, replace, same_file, uninterrupted
from v6.host.program import V6, ProgramError, add_version, call
from v6.host.progress import Progress

NUMBERED = re.compile(rb"#([0-9]{1,5})(?![^/])")  # at the beginning of a path: an inode
NO_SWAP = re.compile("(?:image: )?file system of ([0-9]+) blocks leaves no swap")
TO_READ = ": `check` tells all faults, and --damaged reads what is there"
BESIDE = "disk.py --pack is for disks that are mounted beside another"
MOST = PACK * BLOCK + 1  # what is read of a disk: one that is longer is too long


# the file of the disk


def fault_of(options, image):
    """The status and the line of v6 about a disk: `v6 check` tells its first fault. Of a pack it is `v6 run2` that does, of the second
    disk beside one that is made for it, in a run without a slot."""
    if not options.pack:
        return call(options.v6, "check", "/dev/stdin", data=image)
    with tempfile.TemporaryDirectory() as folder:
        first, script, nowhere = os.path.join(folder, "first"), os.path.join(folder, "script"), os.devnull
        replace(script, b"")
        status, said = call(options.v6, "make", "0", first)
        if not status:
            words = first, "64", script, nowhere, nowhere, nowhere, "/dev/stdin", nowhere
            status, said = call(options.v6, "run2", *words, data=image)
    return status, said


def check(options, image, name):
    """Asks v6 for the disk's first fault."""
    status, said = fault_of(options, image)
    if status:
        raise DiskError(f"{name}: {said}{way_on(options, said, image)}")


def way_on(options, said, image):
    """What to do about a fault of a disk that may be none, where that is told by its kind or by its first bytes."""
    if is_whole_pack(options, said):
        return f"; {BESIDE}"
    return unpacking(image)


def is_whole_pack(options, said):
    """Whether a disk is refused for the one reason that it has no swap area, as a pack that is mounted needs none."""
    found = NO_SWAP.fullmatch(said)
    return bool(found) and not options.pack and int(found[1]) <= PACK


def most_blocks(options):
    return PACK if options.pack else SWAP


@contextlib.contextmanager
def up_to(options, blocks):
    """Names --pack where a disk can't have as many blocks without it."""
    try:
        yield
    except DiskError as error:
        raise DiskError(f"{error}; {BESIDE}") if SWAP < blocks <= PACK and not options.pack else error from None


def open_disk(options):
    """The volume of the disk, which v6 has accepted as it was read."""
    options.image = read_bytes(options.disk, MOST)
    check(options, options.image, options.disk)
    return uncut(Volume(options.image), options.disk)


def uncut(volume, name):
    """A volume whose image doesn't end before what its files hold: v6 takes what is past the end for zeros."""
    said = cut(volume)
    if said:
        raise DiskError(f"{name}: {said}{TO_READ}")
    return volume


def open_for_reading(options):
    """The volume of a disk that isn't changed. It may fill a whole pack, which leaves no swap; and it may have any fault
    where that is asked for."""
    image = read_bytes(options.disk, MOST)
    if options.damaged:
        return damaged(image)
    status, said = fault_of(options, image)
    if status and not is_whole_pack(options, said):
        raise DiskError(f"{options.disk}: {said}{way_on(options, said, image) or TO_READ}")
    if status:
        volume, faults = damaged(image), Survey(image)
        if faults.outside or faults.twice or len(faults.lines) > 1 or not volume.inode(ROOT).is_directory():
            raise DiskError(f"{options.disk}: a pack with faults{TO_READ}")
        return volume
    return uncut(Volume(image), options.disk)


def save(options, volume, short=False):
    """Writes the disk beside its place, has it checked there, and puts it there, where the disk is still what was read."""
    def look(name):
        check(options, read_bytes(name), options.disk)
        if options.image is not None and read_bytes(options.disk, MOST) != options.image:
            raise DiskError(f"{options.disk}: it has changed since it was read")

    replace(options.disk, volume.image(short), look=look)


def path_of(text):
    """A path as it is told: from the root on with a slash before it, or from an inode on, `#12`, without."""
    path = os.fsencode(text)
    return b"/" * (not NUMBERED.match(path)) + b"/".join(components(path))


def find(volume, path):
    """The inode under a path; `#12` is the inode 12, and what follows is below it."""
    found = NUMBERED.match(path)
    if not found:
        return volume.find(path)
    if not volume.is_used(int(found[1])):
        raise DiskError(f"{shown(found[0])}: no file has this inode")
    return volume.find(path[found.end() :], int(found[1]))


# list, cat and get


def bits(mode):
    """The permissions of a mode as ls(I) writes them."""
    text = ""
    for at, special, letter in ((6, 0o4000, "s"), (3, 0o2000, "s"), (0, 0o1000, "t")):
        three = mode >> at & 7
        last = letter if mode & special else "x" if three & 1 else "-"
        text += ("r" if three & 4 else "-") + ("w" if three & 2 else "-") + last
    return text


def date(seconds):
    return datetime.datetime.fromtimestamp(seconds, datetime.timezone.utc).strftime("%Y-%m-%d %H:%M:%S")


def line(volume, number, path, long=False):
    dates = "  " + " " * 19 if long else ""
    if not volume.is_used(number):
        return f"{number:5}  ?                                 {dates}  {shown(path)}"
    inode = volume.inode(number)
    device = inode.addresses[0]
    size = f"{device >> 8},{device & 255}" if inode.is_device() else str(inode.size)
    kind = KINDS[inode.mode & BLOCKS]
    dates = f"  {date(inode.changed)}" if long else ""
    return (f"{number:5}  {kind}{bits(inode.mode)} {inode.links:3} {inode.owner:3} {inode.group:3} {size:>9}{dates}"
            f"  {shown(path)}")


def list_disk(options):
    volume = open_for_reading(options)
    path = path_of(options.path)
    tops = [(find(volume, path), path)]
    if options.damaged and path == b"/":
        tops = tops[: volume.inode(ROOT).is_directory()]
        tops += [(inode, b"#%d" % inode) for inode in Survey(read_bytes(options.disk, MOST)).nameless()]
    for top, path in tops:
        for inode, below, _ in walk(volume, top, path):
            print(line(volume, inode, below, options.long))


def cat(options):
    volume = open_for_reading(options)
    for path in options.paths:
        put_out("-", file_bytes(volume, path_of(path))[1])


def file_bytes(volume, path):
    """The inode of a file, or of a directory, and its bytes."""
    inode = volume.inode(find(volume, path))
    if inode.is_device():
        raise DiskError(f"{shown(path)}: a device has no bytes")
    return inode, volume.read(inode)


def get_file(volume, inode, data, target):
    replace(target, data, 0o755 if inode.mode & 0o111 else 0o644, holes=volume.holes(inode))


def refusal(volume, number, name, target, made):
    """Why the host can't have a file of the disk under this name of its directory, or None."""
    if not volume.is_used(number):
        return f"its inode {number} is free"
    try:
        check_name(name)
    except DiskError as error:
        return str(error)
    if os.path.lexists(target):
        return "the name comes twice in its directory"
    return "a directory under a second name" if number in made else None


class Folder:
    """A folder that is made of a directory of the disk, and its table."""

    def __init__(self, volume, target, table):
        self.volume, self.target, self.table = volume, target, table
        self.rows, self.made, self.names = [], set(), {}
        self.devices, self.others = 0, 0

    def fill(self, start):
        absent = set()
        for number, path, name in walk(self.volume, start, b""):
            if any(path.startswith(above + b"/") for above in absent):
                continue
            why = refusal(self.volume, number, name, self.target + path, self.made) if path else None
            if why:
                absent.add(path)
                print(f"disk.py: {shown(path)}: passed over: {why}", file=sys.stderr)
                continue
            absent.discard(path)
            self.put(number, path)
        if not self.table and (self.devices or self.others):
            lost = [plural(self.devices, "device")] * bool(self.devices)
            lost += [f"modes, owners or times of {plural(self.others, 'file')}"] * bool(self.others)
            print(f"disk.py: {', and '.join(lost)} {'is' if lost == ['1 device'] else 'are'} not in the folder: remove it and take it again "
                  "with --table FILE, which keeps that", file=sys.stderr)

    def put(self, number, path):
        inode = self.volume.inode(number)
        if number in self.names:
            self.rows.append(f"{plain_name(path)} = {plain_name(self.names[number])}\n")
            if not inode.is_device():
                os.link(self.target + self.names[number], self.target + path)
            return
        self.rows.append(row(self.volume, number, path or b"/"))
        if inode.is_directory():
            self.made.add(number)
            os.mkdir(self.target + path)
        else:
            self.names[number] = path
            self.devices += inode.is_device()
        if inode.mode & BLOCKS == PLAIN:
            get_file(self.volume, inode, self.volume.read(inode), self.target + path)
        self.others += not (inode.is_device() or self.is_usual(inode))

    def is_usual(self, inode):
        """Whether a new disk has these mode, owner and times without a table."""
        modes = (0o755,) if inode.is_directory() else (0o644, 0o755)
        times = (inode.accessed, inode.changed) == (self.volume.time,) * 2
        return times and (inode.owner, inode.group) == (0, 0) and inode.mode & PERMISSIONS in modes


def get(options):
    volume = open_for_reading(options)
    path = path_of(options.path)
    if options.form:
        put_out(options.out, FORMS[options.form][1](members_of(volume, find(volume, path), path)))
        return
    start, target = find(volume, path), os.fsencode(options.out)
    inode, name = volume.inode(start), b"/" + path.split(b"/")[-1]
    if inode.is_device():
        raise DiskError(f"{shown(path)}: a device has no bytes")
    if options.table:
        place_of(options.table)
    if inode.is_directory():
        rows = get_folder(options, volume, start, target)
    else:
        data, rows = volume.read(inode), [row(volume, start, name)]
        if options.out in STREAMS:
            put_out(options.out, data)
        else:
            get_file(volume, inode, data, target + name if os.path.isdir(target) else target)
    if options.table:
        sizes = f"disk {volume.fsize} {16 * volume.isize} {volume.time}\n"
        replace(options.table, (sizes + "".join(rows)).encode("ascii"))


def members_of(volume, start, path):
    """The files below a directory, or a file, for an archive; what isn't a plain file is passed over, and told."""
    members, top = [], path.rstrip(b"/")
    for number, full, name in walk(volume, start, path):
        if not volume.is_used(number) or volume.inode(number).is_device():
            print(f"disk.py: {shown(full)}: passed over: no file", file=sys.stderr)
            continue
        inode = volume.inode(number)
        if not inode.is_directory():
            inner = full[len(top) + 1 :] if full != path else name
            owners = inode.owner, inode.group
            members.append(Member(inner, volume.read(inode), inode.changed, inode.mode & PERMISSIONS, *owners))
    return members


def get_folder(options, volume, start, target):
    if os.path.lexists(target):
        raise DiskError(f"{options.out}: there already, and a folder is to be made")
    try:
        with uninterrupted():
            made = tempfile.TemporaryDirectory(dir=os.path.dirname(os.path.abspath(target)), prefix=b".new-")
    except OSError as error:
        raise OSError(error.errno, error.strerror, options.out) from None
    with made as beside:
        folder = Folder(volume, beside + b"/it", options.table)
        folder.fill(start)
        os.rename(beside + b"/it", target)
    return folder.rows


# put and new


def put(options):
    volume = open_disk(options)
    time = time_of(options, volume)
    source = os.fsencode(options.source)
    item, path = items_of(options, source) if options.form else scan(source), path_of(options.path)
    at = maybe(volume, path)
    if item.below is None and at is not None and volume.inode(at).is_directory():
        if source == b"-":
            raise DiskError("-: a name on the disk is wanted for the standard input")
        path = path_below(path, os.path.basename(source))
    if item.below is not None and at is not None and volume.inode(at).is_directory():
        place_all(volume, at, path, item, time)
    else:
        parent, name, folder = parent_of(volume, path)
        place_all(volume, parent, folder, Item(0, below={name: item}), time)
    if options.mode is not None:
        if item.below is not None:
            raise DiskError("--mode is for a file")
        set_mode(volume, find(volume, path), options.mode)
    save(options, volume)


def items_of(options, source):
    """What is in an archive, as the folder that it is of."""
    root = Item(DIRECTORY | 0o755, below={})
    try:
        for one in FORMS[options.form][0](read_bytes(source)):
            names = components(one.path)
            if not names:
                raise DiskError("a file without a name")
            mode = 0o644 if one.mode is None else one.mode
            item = Item(mode, b"", one.owner, one.group, times=(one.time, one.time), data=one.data)
            above(root, names).below[names[-1]] = item
    except DiskError as error:
        raise DiskError(f"{options.source}: {error}") from None
    return root


def time_of(options, volume):
    return volume.time if options.time is None else options.time


def maybe(volume, path):
    """The inode under a path, or None."""
    try:
        return find(volume, path)
    except DiskError:
        return None


def path_below(folder, name):
    """The path of a name in a directory."""
    return folder.rstrip(b"/") + b"/" + name


def parent_of(volume, path):
    """The directory of a path, the last name, and the directory's path."""
    if path == b"/":
        raise DiskError("the root is a directory")
    folder, slash, name = path.rpartition(b"/")
    if not slash:
        raise DiskError(f"{shown(path)}: an inode, where a name is wanted; /{shown(path)} is a name")
    folder = folder or b"/"
    parent = find(volume, folder)
    if not volume.inode(parent).is_directory():
        raise DiskError(f"{shown(folder)}: not a directory")
    return parent, name, folder


def set_mode(volume, at, mode):
    inode = volume.inode(at)
    own(volume, at, Item(mode, owner=inode.owner, group=inode.group))


def new(options):
    if os.path.lexists(options.disk) and not options.replace:
        raise DiskError(f"{options.disk}: there already; --replace makes it anew")
    root = scan(os.fsencode(options.folder))
    if root.below is None:
        raise DiskError(f"{options.folder}: not a folder")
    sizes = (apply_table(root, options.table) if options.table else None) or (4000, 960, 0)
    given = (options.blocks, options.inodes, options.time)
    blocks, inodes, time = (old if one is None else one for one, old in zip(given, sizes))
    with up_to(options, blocks):
        volume = Volume.empty(blocks, inodes, time, most_blocks(options))
    own(volume, ROOT, root)
    place_all(volume, ROOT, b"/", root, time)
    volume.length = blocks * BLOCK
    save(options, volume, options.short)


# what changes names


def make_directory(options):
    volume = open_disk(options)
    for path in options.paths:
        parent, name, _ = parent_of(volume, path_of(path))
        refuse_if_there(volume, parent, name, path)
        volume.make_directory(parent, name, 0o755, time_of(options, volume))
    save(options, volume)


def refuse_if_there(volume, parent, name, path):
    if name in (b".", b"..") or volume.look(parent, name) is not None:
        raise DiskError(f"{path}: there already")


def remove(options):
    volume = open_disk(options)
    for path in options.paths:
        parent, name, _ = parent_of(volume, path_of(path))
        find(volume, path_of(path))
        remove_entry(volume, parent, name, options.all, path, time_of(options, volume))
    save(options, volume)


def remove_entry(volume, parent, name, everything, path, time):
    """Takes a name out of a directory, and what is below a directory before it."""
    if name in (b".", b".."):
        raise DiskError(f"{path}: a directory keeps its entries . and ..")
    at = volume.look(parent, name)
    if at is not None and volume.inode(at).is_directory():
        below = [entry for _, entry in volume.entries(volume.inode(at)) if entry not in (b".", b"..")]
        if below and not everything:
            raise DiskError(f"{path}: a directory that isn't empty; -r removes what is in it")
        for entry in below:
            remove_entry(volume, at, entry, True, f"{path}/{shown(entry)}", time)
        for own_name, up in ((b".", at), (b"..", parent)):
            if own_name in volume.directory(at).names:
                volume.remove(at, own_name, time) if own_name == b"." else volume.link(up, -1)
    volume.remove(parent, name, time)


def link(options):
    volume = open_disk(options)
    old = find(volume, path_of(options.old))
    if volume.inode(old).is_directory():
        raise DiskError(f"{options.old}: a directory has one name")
    parent, name, _ = target_of(volume, options)
    refuse_if_there(volume, parent, name, options.new)
    if NUMBERED.match(os.fsencode(options.old)) and old in Survey(options.image).nameless():
        volume.link(old, -volume.inode(old).links)  # of names that it hasn't any more
    volume.enter(parent, name, old, time_of(options, volume))
    save(options, volume)


def target_of(volume, options):
    """Where a new name goes: a path, or a directory, where the old name is kept."""
    path, old = path_of(options.new), path_of(options.old)
    at = maybe(volume, path)
    if at is not None and volume.inode(at).is_directory():
        path = path_below(path, parent_of(volume, old)[1])
    return parent_of(volume, path)


def move(options):
    volume, time = open_disk(options), None
    time = time_of(options, volume)
    from_parent, from_name, _ = parent_of(volume, path_of(options.old))
    old = find(volume, path_of(options.old))
    parent, name, folder = target_of(volume, options)
    if from_name in (b".", b"..") or old in ancestors(volume, folder, parent):
        raise DiskError(f"{options.old}: a directory can't go below itself")
    there = volume.look(parent, name)
    if there == old:
        raise DiskError(f"{options.old} and {options.new} are one file")
    if there is not None and (volume.inode(there).is_directory() or volume.inode(old).is_directory()):
        raise DiskError(f"{options.new}: there already")
    if there is not None:
        volume.remove(parent, name, time)
    volume.enter(parent, name, old, time)
    volume.remove(from_parent, from_name, time)
    if volume.inode(old).is_directory() and parent != from_parent:
        at, _ = volume.directory(old).names[b".."]
        volume.set_entry(old, at, parent, b"..", time)
        del volume.directories[old]
        volume.link(from_parent, -1)
        volume.link(parent, 1)
    save(options, volume)


def ancestors(volume, path, at):
    """The directories of a path, and those that the entry .. names from its end on, where it begins at an inode."""
    names, found = components(path), []
    if not NUMBERED.match(path):
        return [volume.find(b"/".join(names[:count])) for count in range(1, len(names) + 1)]
    while at is not None and at not in found:
        found.append(at)
        at = volume.look(at, b"..")
    return found


def change_mode(options):
    volume = open_disk(options)
    for path in options.paths:
        set_mode(volume, find(volume, path_of(path)), options.mode)
    save(options, volume)


def change_owner(options):
    volume = open_disk(options)
    for path in options.paths:
        at = find(volume, path_of(path))
        own(volume, at, Item(volume.inode(at).mode, owner=options.owner, group=options.group))
    save(options, volume)


# the disk as a whole


def grow_disk(options):
    volume = open_disk(options)
    blocks = options.blocks if options.blocks is not None else volume.fsize
    with up_to(options, blocks):
        grow(volume, blocks, -(-options.inodes // 16) if options.inodes is not None else volume.isize, most_blocks(options))
    save(options, volume)


def check_disk(options):
    """Tells all faults, and where the one lies for which v6 refuses the disk; the status is 1 where there is any. Of what seems to be no
    disk it tells that alone."""
    image = read_bytes(options.disk, MOST)
    survey = Survey(image)
    if survey.is_doubtful() and not options.damaged:
        print(f"{options.disk}: {DOUBTFUL}{way_on(options, '', image) or '; with --damaged, check tells all faults'}")
        return 1
    lines = [text for text in survey.report() if not (options.pack and NO_SWAP.fullmatch(text))]
    for text in lines:
        print(f"{options.disk}: {text}")
    status, said = fault_of(options, image)
    if status:
        print(f"{options.disk}: v6 refuses it: {said}")
        for text in FaultPlace(survey).lines(said.removeprefix("second ").removeprefix("image: ")):
            print(f"{options.disk}: {text}")
        if is_whole_pack(options, said):
            print(f"{options.disk}: {BESIDE}")
    return int(bool(lines or status))


def wants(options):
    """Tells what the programs of a disk want that isn't there; the status is 1 where there is anything to tell."""
    volume = open_for_reading(options)
    paths = [path_of(path) for path in options.paths]
    tops = [(find(volume, path), path) for path in paths]
    with Progress("disk.py") as progress:
        lines, (programs, devices, others, told) = table(volume, tops, progress)
    for text in lines:
        print(text)
    counted = f"{plural(programs, 'program')} and {plural(devices, 'device')}" + f", and {plural(others, 'other file')}" * bool(others)
    print(f"{counted}; {told} with a line")
    return int(bool(told))


def repair_disk(options):
    if os.path.lexists(options.new) and not options.replace:
        raise DiskError(f"{options.new}: there already; --replace makes it anew")
    if same_file(options.disk, options.new):
        raise DiskError(f"{options.new}: the damaged disk itself, which is kept")
    repair = Repair(read_bytes(options.disk, MOST))
    image = repair.image(most_blocks(options))
    replace(options.new, image, look=lambda name: check(options, read_bytes(name), options.new))
    for text in repair.lost:
        print(f"{options.disk}: lost: {text}")
    kept = sum(item is not None for item in repair.items.values())
    print(f"{options.new}: {kept} files and directories, {len(repair.lost)} lost")
    is_doubtful = repair.survey.is_doubtful()
    if is_doubtful:
        print(f"disk.py: {options.disk}: {DOUBTFUL}", file=sys.stderr)
    return int(is_doubtful)


# the command line


def octal(text):
    return number(text, 8, PERMISSIONS, "mode")


def seconds(text):
    return number(text, 10, MOST_TIME, f"time: 0 to {MOST_TIME} seconds")


def byte(text):
    return number(text, 10, 255, "owner or group: 0 to 255")


class Commands:
    """The words of each command."""

    def __init__(self, parser):
        self.all = parser.add_subparsers(dest="command", required=True, metavar="COMMAND")

    def add(self, name, does, about, *places, **options):
        one = self.all.add_parser(name, help=about, description=about)
        one.set_defaults(does=does, image=None, damaged=False)
        one.add_argument("disk")
        for where in places:
            one.add_argument(where, **({"nargs": "+"} if where == "paths" else {}))
        for option, (what, told) in options.items():
            flag = {"action": "store_true"} if what is bool else {"type": what} if what else {}
            one.add_argument("--" + option, help=told, **flag)
        return one


DAMAGED = {"damaged": (bool, "read what can be read of a disk with faults")}
TIME = {"time": (seconds, "the time of what is put, in seconds")}
REPLACE = {"replace": (bool, "in the place of a disk that is there")}


def options_of(words):
    parser = argparse.ArgumentParser(prog="disk.py", description="Disks of the Sixth Edition: docs/tools/disk.md")
    parser.add_argument("--v6", metavar="COMMAND", default=V6, help="the program that checks disks (bin/v6)")
    parser.add_argument("--pack", action="store_true", help=f"a second disk, of up to {PACK} blocks, from which no system runs")
    add_version(parser)
    add = Commands(parser).add
    listing = add("list", list_disk, "lists what is on a disk", **DAMAGED)
    listing.add_argument("path", nargs="?", default="/")
    listing.add_argument("-l", dest="long", action="store_true", help="with the time of the last change")
    add("cat", cat, "writes files of a disk to the standard output", "paths", **DAMAGED)
    getting = add("get", get, "takes a file or a folder out of a disk", "path", "out", **DAMAGED,
                  table=(None, "write a table of modes, owners, times and devices to this file"))
    putting = add("put", put, "puts a file or a folder on a disk", "source", "path", **TIME,
                  mode=(octal, "the permissions of the file, in octal"))
    for one in (getting, putting):
        one.add_argument("--as", dest="form", choices=FORMS, help="an archive of ar(I), a tape of tp(I), or one of SIMH")
    making = add("new", new, "makes a disk of a folder", "folder", **TIME, **REPLACE,
                 table=(None, "a table of modes, owners, times and devices"), short=(bool, "leave out the zeros at the end"))
    growing = add("grow", grow_disk, "gives a disk more blocks and inodes")
    for one in (making, growing):
        one.add_argument("--blocks", type=int, help="the size of the file system (4000 for a new one)")
        one.add_argument("--inodes", type=int, help="how many files it can have (960 for a new one)")
    add("mkdir", make_directory, "makes directories", "paths", **TIME)
    removing = add("rm", remove, "removes files and empty directories", "paths", **TIME)
    removing.add_argument("-r", dest="all", action="store_true", help="directories with all that is in them")
    add("mv", move, "gives a file or a directory another name", "old", "new", **TIME)
    add("ln", link, "gives a file a second name", "old", "new", **TIME)
    modes = add("chmod", change_mode, "sets permissions")
    modes.add_argument("mode", type=octal)
    owners = add("chown", change_owner, "sets owner and group, by their numbers")
    owners.add_argument("owner", type=byte)
    owners.add_argument("group", type=byte)
    for one in (modes, owners):
        one.add_argument("paths", nargs="+")
    add("check", check_disk, "tells all faults of a disk", damaged=(bool, "also of what seems to be no disk at all"))
    wanting = add("wants", wants, "tells what programs want that isn't there", **DAMAGED)
    wanting.add_argument("paths", nargs="*", default=["/"], metavar="path",
                         help="a program, or a directory with those below it (all of the disk)")
    add("repair", repair_disk, "makes a good disk of what is whole on a damaged one", "new", **REPLACE)
    return parser.parse_args(words)


def main(words):
    def body():
        options = options_of(words)
        return options.does(options)

    return guarded("disk.py", body, DiskError, ProgramError)


if __name__ == "__main__":
    sys.exit(main(sys.argv[1:]))
