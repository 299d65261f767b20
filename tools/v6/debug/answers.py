"""Answers of calls that follow from what is known of a process, by docs/manual/calls.md, so that the program needn't be asked for
them. Whoever takes them compares what they lead to: walk.py."""
from collections import Counter, namedtuple

from v6.disk.volume import BLOCK, FILE_BYTES, INODE, Volume
from v6.pdp11.names import ARGUMENTS, CALLS
from v6.pdp11.stepcode import MASK
from v6.run.openfiles import OpenFiles, sought

SYS, NUMBER, CARRY = 0o104400, 0o77, 1
NAMES = {number: name for name, number in CALLS.items()}
USER, GROUP, FILES, DESCRIPTORS = 18, 19, 104, 15  # in the u area: docs/manual/u-area.md
EBADF = 9
CODE_C = 11  # where a stepper has the carry
KEEP = {"read", "write", "seek", "close", "getpid", "getuid", "getgid", "time"}  # calls after which all is known that was before
ENOUGH = 4  # writes into a file that are asked for before its disk is
BLOCKS_OF_ONE = 4  # that a block of a file may take: itself, three that lead to it

Made = namedtuple("Made", "name words end")  # a call that begins, the words after it, and PC after these
Answer = namedtuple("Answer", "name words r0 r1 carry end data")  # the last are the bytes of a read


def made(process):
    """The call at which a process stands, or None."""
    at, word = process.pc, process.word(process.pc)
    is_indirect = word == SYS
    if is_indirect:
        at = process.word(process.pc + 2)
        word = None if at is None else process.word(at)
    if word is None or not SYS < word <= SYS | 0o377 or not word & NUMBER:
        return None
    name = NAMES.get(word & NUMBER)
    words = [process.word(at + 2 + 2 * number) for number in range(ARGUMENTS.get(name, 0))]
    if name is None or None in words:
        return None
    return Made(name, words, process.pc + (4 if is_indirect else 2 + 2 * len(words)) & MASK)


class Room:
    """How much a disk has room for: its free blocks, and the size of its largest file. Of files that were written then, and that nobody
    else reads or writes, each place is within that size."""

    def __init__(self, disk, entries):
        volume = Volume(disk)
        inodes = disk[2 * BLOCK : (2 + volume.isize) * BLOCK]
        self.blocks = volume.count_free()
        self.size = max((one[4] << 16 | one[5] for one in INODE.iter_unpack(inodes)), default=0)
        self.bytes = dict.fromkeys(entries, 0)  # that were written since

    def moved(self, entry, place):
        """A file that is written goes on at a place, which may be None; what was written takes its blocks all the same."""
        if entry in self.bytes:
            self.blocks -= needs(self.bytes[entry])
            self.bytes[entry], self.size = 0, FILE_BYTES + 1 if place is None else max(self.size, place)

    def take(self, entry, count):
        """Takes the room for more bytes of a file, and tells whether there was surely so much."""
        self.bytes[entry] += count
        self.size += count
        return sum(map(needs, self.bytes.values())) <= self.blocks and self.size <= FILE_BYTES


def needs(count):
    """How many blocks so many bytes of a file may take that come one after the other."""
    return BLOCKS_OF_ONE * (count // BLOCK + 2)


class Answers:
    """What is known of a process: the entries of open files that a seek has moved, so that they are no pipes, how many writes each has
    taken, how much room there is for more, and what was read."""

    def __init__(self):
        self.forget()

    def forget(self):
        self.moved, self.written, self.room, self.files = set(), Counter(), None, OpenFiles()

    def others(self):
        """Somebody else has been in the kernel, who may have written, or moved what both have open."""
        self.written, self.room = Counter(), None
        self.files.others()

    def of(self, process, number, now):
        """The answer of the call at which the process of this number stands, or None where it isn't known. `now` is the time, or None."""
        call = made(process)
        if call is None:
            return None
        found = KNOWN[call.name](self, process, call) if call.name in KNOWN else None
        if call.name == "getpid":
            found = number, process.registers[1], 0
        if call.name == "time" and now is not None:
            found = now >> 16, now & MASK, 0
        return None if found is None else Answer(call.name, call.words, *found[:3], call.end, b"".join(found[3:]))

    def user(self, process, call):
        at = USER if call.name == "getuid" else GROUP
        return process.u[at + 2] | process.u[at] << 8, process.registers[1], 0

    def close(self, process, call):
        r0, r1 = process.registers[:2]
        return (r0, r1, 0) if entry_of(process) else (EBADF, r1, CARRY)

    def seek(self, process, call):
        return (*process.registers[:2], 0) if entry_of(process) in self.moved else None

    def read(self, process, call):
        at, count = call.words
        found = self.files.answer(entry_of(process), count)
        return None if found is None or not process.is_open(at, len(found)) else (len(found), process.registers[1], 0, found)

    def write(self, process, call):
        entry, (at, count) = entry_of(process), call.words
        if self.room is None or entry not in self.room.bytes or not count or len(process.bytes(at, count)) < count:
            return None
        if not self.room.take(entry, count):
            self.room = None
            return None
        return count, process.registers[1], 0

    def learn(self, before, after, then):
        """What a call tells that was asked for, by the process before and after it, and the moment after it."""
        call, entry = made(before), entry_of(before)
        if call is None or call.name not in KEEP:
            self.forget()
        elif call.name == "close":
            self.closed(entry)
        elif call.name == "seek" and not after.carry:
            self.moved.add(entry)
            self.moves(entry, *call.words)
        elif call.name == "read":
            self.took(entry, *call.words, after, then)
        elif call.name == "write":
            self.wrote(entry, call.words[1], after, then)

    def closed(self, entry):
        """An open file may have gone."""
        self.moved.discard(entry)
        self.written.pop(entry, None)
        self.files.closed(entry)
        if self.room is not None:
            self.room.bytes.pop(entry, None)

    def moves(self, entry, offset, mode):
        """The place of an open file has moved."""
        self.written.pop(entry, None)
        self.files.moved(entry, offset, mode)
        if self.room is not None:
            self.room.moved(entry, sought(None, None, offset, mode))

    def took(self, entry, at, count, after, then):
        if self.room is not None:  # a read of a hole takes blocks
            self.room.blocks -= needs(count)
        if after.carry:
            return self.files.closed(entry)
        return self.files.took(entry, count, after.bytes(at, after.registers[0]), entry not in self.moved, then)

    def wrote(self, entry, count, after, then):
        if after.carry or after.registers[0] != count or not count:
            self.files.loses()
            return self.closed(entry)
        self.files.wrote(entry, then)
        self.written[entry] += 1
        if self.room is not None and entry in self.room.bytes and not self.room.take(entry, count):
            self.room = None
        if self.written[entry] >= ENOUGH and (self.room is None or entry not in self.room.bytes):
            found = then.disk()
            entries = [one for one, times in self.written.items() if times >= ENOUGH]
            self.room = None if found is None else Room(found, entries)
        return None

    def go_on(self, process, answer):
        """The process goes on with an answer that wasn't asked for."""
        entry = entry_of(process)
        if answer.name == "close" and not answer.carry:
            at = FILES + process.registers[0]
            self.closed(entry)
            process.u = process.u[:at] + b"\0" + process.u[at + 1 :]
        elif answer.name == "seek":
            self.moves(entry, *answer.words)
        elif answer.name == "read":
            self.files.took(entry, answer.words[1], answer.data, False, None)
        elif answer.name == "write":
            self.files.wrote(entry, None)
        process.registers[0], process.registers[1], process.registers[7] = answer.r0, answer.r1, answer.end
        process.registers[CODE_C] = answer.carry


KNOWN = {"getuid": Answers.user, "getgid": Answers.user, "close": Answers.close, "seek": Answers.seek,
         "read": Answers.read, "write": Answers.write}


def entry_of(process):
    """The entry of the open file that the descriptor in R0 names, or None."""
    return process.u[FILES + process.registers[0]] or None if process.registers[0] < DESCRIPTORS else None
