"""Archives of ar(V), tapes of tp(V), and such tapes in the form of the simulator SIMH: their files, read and written."""
import struct
from dataclasses import dataclass

from v6.disk.volume import BLOCK, DiskError, shown

AR_MAGIC = 0o177555
AR_ENTRY = struct.Struct("<8s2H2BH")  # name, time, user, mode, size
TP_ENTRY = struct.Struct("<32sH3BBHHHH16sH")  # name, mode, user, group, unused, size, time, address, unused, sum
TP_DIRECTORIES = (24, 62)  # blocks of the directory of a DECtape and of a magnetic tape
TP_TAPE = 62
SMALL = 65535  # of sizes and of blocks that a word counts
END_OF_TAPE = 0xFFFFFFFF


@dataclass
class Member:
    """A file of an archive."""

    path: bytes
    data: bytes
    time: int
    mode: int = None  # where the archive has it whole
    owner: int = 0
    group: int = 0


def words_of_time(time):
    return time >> 16, time & 0xFFFF


# ar(V)


def read_ar(data):
    if data[:2] != struct.pack("<H", AR_MAGIC):
        raise DiskError("no archive: it doesn't begin with 0177555")
    at, members = 2, []
    while at < len(data):
        if at + AR_ENTRY.size > len(data):
            raise DiskError("the archive ends in the middle of a header")
        name, high, low, owner, _, size = AR_ENTRY.unpack_from(data, at)
        at += AR_ENTRY.size
        if at + size > len(data):
            raise DiskError(f"the archive ends in the middle of {shown(name.rstrip(bytes(1)))}")
        members.append(Member(name.rstrip(b"\0"), data[at : at + size], high << 16 | low, owner=owner))
        at += size + (size & 1)
    return members


def write_ar(members):
    data = struct.pack("<H", AR_MAGIC)
    for one in members:
        name = one.path.split(b"/")[-1]
        if len(name) > 8 or len(one.data) > SMALL:
            raise DiskError(f"{shown(one.path)}: an archive has names of 8 bytes and files of {SMALL}")
        data += AR_ENTRY.pack(name, *words_of_time(one.time), one.owner, one.mode & 0o377, len(one.data))
        data += one.data + bytes(len(one.data) & 1)
    return data


# tp(V)


def is_entry(entry):
    return sum(struct.unpack("<32H", entry)) & 0xFFFF == 0


def read_tp(data):
    """The files of a tape. A directory ends where its sums don't hold; that of a DECtape has 24 blocks, and the first file
    comes after it."""
    members, at = [], BLOCK
    while at + 64 <= min(len(data), BLOCK * (TP_TAPE + 1)) and is_entry(data[at : at + 64]):
        name, mode, owner, group, _, high, low, *times, address, _, _ = TP_ENTRY.unpack_from(data, at)
        at += 64
        if not name[0] and not name[1]:
            continue
        size, path = high << 16 | low, name.split(b"\0")[0]
        start = address * BLOCK
        if start + size > len(data):
            raise DiskError(f"the tape ends in the middle of {shown(path)}")
        members.append(Member(path, data[start : start + size], times[0] << 16 | times[1], mode & 0o7777, owner, group))
    if at == BLOCK:
        raise DiskError("no tape of tp(I): its directory isn't one")
    return members


def write_tp(members):
    directory, files = b"", b""
    if len(members) > 8 * TP_TAPE:
        raise DiskError(f"a tape has at most {8 * TP_TAPE} files")
    for one in members:
        path, address = one.path.lstrip(b"/"), 1 + TP_TAPE + len(files) // BLOCK
        if len(path) > 31 or address > SMALL:
            raise DiskError(f"{shown(one.path)}: a tape has names of 31 bytes, and {SMALL} blocks")
        fields = (path, one.mode, one.owner, one.group, 0, len(one.data) >> 16, len(one.data) & 0xFFFF,
                  *words_of_time(one.time),
                  address, b"")
        entry = TP_ENTRY.pack(*fields, 0)
        directory += TP_ENTRY.pack(*fields, -sum(struct.unpack("<32H", entry)) & 0xFFFF)
        files += one.data + bytes(-len(one.data) % BLOCK)
    return bytes(BLOCK) + directory.ljust(BLOCK * TP_TAPE, b"\0") + files


# a tape of SIMH: records between their lengths


def read_tap(data):
    """The blocks of a tape's records up to its first mark, as they follow each other."""
    at, found = 0, b""
    while at + 4 <= len(data):
        (size,) = struct.unpack_from("<I", data, at)
        if size in (0, END_OF_TAPE):
            break
        if at + 8 + size > len(data):
            raise DiskError("the tape ends in the middle of a record")
        found += data[at + 4 : at + 4 + size]
        at += 8 + size + (size & 1)
    return read_tp(found)


def write_tap(members):
    data, records = write_tp(members), []
    for at in range(0, len(data), BLOCK):
        size = struct.pack("<I", BLOCK)
        records.append(size + data[at : at + BLOCK] + size)
    return b"".join(records) + bytes(8) + struct.pack("<I", END_OF_TAPE)


FORMS = {"ar": (read_ar, write_ar), "tp": (read_tp, write_tp), "tap": (read_tap, write_tap)}
