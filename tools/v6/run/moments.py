"""Moments of a run: its script is cut there and run again, for its log and for the bytes of core and of the swap area."""
import bisect
import collections
import mmap
import os
import threading

from v6.disk.volume import gathered
from v6.host.files import read_bytes, short
from v6.host.program import ProgramError, call, named
from v6.log.processes import SWAP_FIRST, SWAP_LAST
from v6.run.openfiles import target_of
from v6.run.script import COUNT, OTHER, fault, lines_of, ticks_of, with_line

CLICK, BLOCK, SEGMENT, U_AREA, ADDRESSES = 64, 512, 8192, 1024, 65536
SWAP_BYTES = (SWAP_LAST - SWAP_FIRST + 1) * BLOCK
DONE, USAGE = 0, 1  # of the program's statuses: docs/manual/commands.md
WORKERS = len(os.sched_getaffinity(0)) if hasattr(os, "sched_getaffinity") else os.cpu_count() or 1
FURTHER = range(1, 8)  # the lines of a terminal beside the console
NO_MEMORY = "core isn't known of a run with eight lines or a second disk, since `v6 memory` has one of each"
ENDS = ("trap", "sleep", "exit")  # words of the lines with which a turn in the kernel ends


def workers():
    """As many threads as there are processors; what they take is imported where they are wanted, since a tool begins sooner so."""
    from concurrent.futures import ThreadPoolExecutor

    return ThreadPoolExecutor(WORKERS)


def is_turn(line):
    """Whether with this line of a log a turn in the kernel ends, of another than the swapper."""
    word, _, rest = line.partition(" ")
    return word in ENDS and rest.partition(" ")[0] != "0"


class MomentError(Exception):
    """Why a moment can't be shown; the text tells it."""


class Script:
    """The lines of a script, and how many slots they ask for."""

    def __init__(self, data):
        self.data, self.lines = data, []  # of each line its bytes, and the slots of a `run`, or None
        self.pauses = set()  # after how many slots something else comes
        for number, line in enumerate(lines_of(data), 1):
            found = COUNT.fullmatch(line)
            if not found and not OTHER.fullmatch(line):
                raise fault(number, line, data)
            self.lines.append((line, int(found[2]) if found and found[1] == b"run" else None))
        self.slots, self.passed, self.places = 0, [], [0]  # how many slots have passed before each line, and where each ends
        for line, count in self.lines:
            if count is None:
                self.pauses.add(self.slots)
            self.passed.append(self.slots)
            self.places.append(self.places[-1] + len(line) + 1)
            self.slots += count or 0
        self.text = b"".join(line + b"\n" for line, _ in self.lines)
        self.is_paced = any(line.startswith(b"pace") for line, _ in self.lines)

    def events(self):
        """After which slots something comes from outside, and how many ticks; 0 where something else comes too."""
        found, slots = collections.Counter(ticks_of(self.data)), 0
        for line, count in self.lines:
            slots += count or 0
            if line.startswith((b"type", b"byte", b"pace", b"hangup")):
                found[slots] = 0
        return found

    def typed(self, slots):
        """The bytes that are typed until so many slots have passed, and before the next one."""
        out = bytearray()
        for line, _ in self.lines[: bisect.bisect_right(self.passed, slots)]:
            if line.startswith(b"type"):
                out += line[5:] + b"\r"
            elif line.startswith(b"byte"):
                out.append(int(line[5:], 8))
        return bytes(out)

    def cut(self, slots, more=False):
        """The script up to where so many slots have passed; with `more` also what comes before the next slot."""
        count = bisect.bisect_left(self.passed, slots)  # lines before which fewer have passed
        last = self.lines[count - 1][1] if count else None
        if last is not None and self.passed[count - 1] + last > slots:
            return self.text[: self.places[count - 1]] + b"run %d\n" % (slots - self.passed[count - 1])
        while more and count < len(self.lines) and not self.lines[count][1]:
            count += 1
        return self.text[: self.places[count]]


class Run:
    """A run of an image in a core under a script, which can be cut after each of its slots; with eight lines or a second image too."""

    def __init__(self, v6, image, core, script, folder, eight=False, second=None):
        self.v6, self.image, self.core, self.script, self.folder = v6, image, core, Script(script), folder
        self.eight, self.second, self.has_memory = eight, second, not eight and second is None
        self.disks = [image, *[second] * (second is not None)]
        self.forked("")
        self.lines, self.status, self.said = self.played(script)
        self.copy()
        self.log = self.lines + ["end"] * (self.status == DONE)  # all lines of the log's file
        self.before = {}  # slots, more: how many lines the log has then

    def forked(self, mark):
        """In a process of its own, whose files have this mark in their names."""
        self.mark, self.files, self.guard = mark, {}, threading.Lock()

    def copy(self):
        """From now on each run is made on a disk that is as good as what the disk is, and is read sooner."""
        for number, name in enumerate(self.disks):
            if os.path.isfile(name):
                self.disks[number] = os.path.join(self.folder, f"disk.{number}")
                with open(self.disks[number], "wb") as file:
                    file.write(short(gathered(read_bytes(name))))

    def names(self, *wanted):
        """Files for one run, those of the thread that makes it."""
        with self.guard:
            number = self.files.setdefault(threading.get_ident(), len(self.files))
        return [os.path.join(self.folder, f"{self.mark}{number}.{name}") for name in wanted]

    def cut(self, script):
        """The file of a script."""
        (name,) = self.names("script")
        with open(name, "wb") as file:
            file.write(script)
        return name

    def played(self, script):
        """The lines of the log of a script without its last line `end`, the status, and what the program says."""
        term, log = self.names("term", "log")
        if os.path.exists(log):
            os.unlink(log)
        word = "run8" if self.eight else "run2" if self.second else "run"
        second = [*self.disks[1:], os.devnull] if self.second else []
        status, said = call(self.v6, word, self.disks[0], str(self.core), self.cut(script), term, log, os.devnull, *second)
        if not os.path.exists(log):
            files = {"image": self.image, "second": self.second, "script": getattr(script, "name", None)}
            raise MomentError(named(with_line(said, script), files, self.core))
        lines = read_bytes(log).decode("ascii", "replace").split("\n")[:-1]
        return lines[:-1] if lines and lines[-1] == "end" else lines, status, said

    def terminal(self, slots, line=0):
        """What a line of the terminal has shown after so many slots, and what comes before the next one."""
        self.played(self.script.cut(slots, True))
        (term,) = self.names("term")
        return read_bytes(f"{term}.{line}" if line else term)

    def known(self, more):
        """The moments whose count of lines is known, in their order: (slots, how many lines)."""
        with self.guard:
            found = list(self.before.items())
        return sorted((slots, count) for (slots, late), count in found if late == (more and slots in self.script.pauses))

    def count(self, slots, more=False):
        """How many lines the log has after so many slots; with `more` after all that comes before the next one too."""
        more = more and slots in self.script.pauses
        if (slots, more) not in self.before:
            lines, *_ = self.played(self.script.cut(slots, more))
            if lines != self.lines[: len(lines)]:
                raise MomentError(f"{self.image}: the run isn't the same each time; has the disk changed?")
            with self.guard:
                self.before[slots, more] = len(lines)
        return self.before[slots, more]

    def parts(self, lines, more):
        """The lines between the nearest moments whose counts are known: (slots, slots, lines)."""
        known, parts = self.known(more), {}
        counts = [count for _, count in known]
        for line in lines:
            place = bisect.bisect_right(counts, line)
            high = known[place][0] if place < len(known) else self.script.slots
            parts.setdefault((known[place - 1][0], high), []).append(line)
        return [(low, high, found) for (low, high), found in parts.items()]

    def slots_of(self, wanted, more=False):
        """For each of these lines, counted from 0 on, the slot of the run in which it came, from 1 on; 0 is before the first. With
        `more` what comes between two slots counts to the one before it.

        They are found by halving, all of them at once: where the log of a cut script has grown over several of them, it is cut in
        the middle again."""
        found, wanted = {}, sorted(wanted)
        first = self.count(0, more)
        found.update({line: 0 for line in wanted if line < first})
        parts = self.parts([line for line in wanted if line >= first], more)
        with workers() as pool:
            while parts := [part for part in parts if part[2]]:
                middles = [(low + high) // 2 for low, high, _ in parts if high - low > 1]
                counts = dict(zip(middles, pool.map(lambda middle: self.count(middle, more), middles)))
                later = []
                for low, high, lines in parts:
                    if high - low <= 1:
                        found.update({line: high for line in lines})
                        continue
                    middle = (low + high) // 2
                    later.append((low, middle, [line for line in lines if line < counts[middle]]))
                    later.append((middle, high, [line for line in lines if line >= counts[middle]]))
                parts = later
        return found

    def end(self):
        """After how many slots the run can be shown last: all of the script's, or fewer where it comes to a panic."""
        if self.status == DONE:
            return self.script.slots
        low, high = -1, self.script.slots
        while high - low > 1:
            middle = (low + high) // 2
            done = self.played(self.script.cut(middle, True))[1] == DONE
            low, high = (middle, high) if done else (low, middle)
        if low < 0:
            raise MomentError(self.said)
        return low

    def memory(self, slots, more=False):
        """The bytes of core and of the swap area after so many slots."""
        if not self.has_memory:
            raise MomentError(NO_MEMORY)
        (final,) = self.names("memory")
        status, said = call(self.v6, "memory", self.disks[0], str(self.core), self.cut(self.script.cut(slots, more)), final)
        if status == USAGE:
            raise ProgramError(f"{self.v6} has no command `memory`, which tells what core and the swap area hold")
        if status != DONE:
            raise MomentError(said)
        data = mapped(final)
        if len(data) != self.core * CLICK + SWAP_BYTES:
            raise MomentError(f"the memory has {len(data)} bytes, and {self.core * CLICK + SWAP_BYTES} are wanted")
        return Memory(data, self.core)

    def left(self, slots, more=True):
        """The bytes of the disk that is left after so many slots, and what the terminal has shown; None where the run doesn't come so far."""
        term, final = self.names("term", "final")
        script = self.cut(self.script.cut(slots, more))
        status, _ = call(self.v6, "run", self.disks[0], str(self.core), script, term, os.devnull, final)
        return None if status else (read_bytes(final), read_bytes(term))


class Then:
    """The moment after a call that was asked for, for those who learn from it."""

    def __init__(self, run, slots):
        self.run, self.slots = run, slots

    def disk(self):
        """The bytes of the disk, or None."""
        found = self.run.left(self.slots)
        return found and found[0]

    def typed(self):
        """What was typed until then."""
        return self.run.script.typed(self.slots)

    def target(self):
        """What the call has changed: see openfiles.py; None where that isn't seen."""
        before, after = self.run.left(self.slots - 1), self.run.left(self.slots, False)
        return target_of(before, after) if before and after and not self.run.script.is_paced else None


def mapped(name):
    """The bytes of a file, of which only those are read that are asked for. The file itself is no more."""
    with open(name, "rb") as file:
        size = os.fstat(file.fileno()).st_size
        data = mmap.mmap(file.fileno(), size, access=mmap.ACCESS_READ) if size else b""
    os.unlink(name)
    return data


def word(data, at):
    return int.from_bytes(data[at : at + 2], "little")


class Memory:
    """Core, from click 1 on, and after it the swap area, from block 4000 on: docs/manual/core.md."""

    def __init__(self, data, core):
        self.data, self.core = data, core

    def start(self, place):
        """Where the bytes of a place begin."""
        if place.where == "at":
            return (place.start - 1) * CLICK
        return self.core * CLICK + (place.start - SWAP_FIRST) * BLOCK

    def process(self, row, text=None):
        """What a process has, by its row of the table and that of its text."""
        return Process(self, row, text)


class Process:
    """The u area and the memory of a process: docs/manual/u-area.md."""

    def __init__(self, memory, row, text=None):
        self.data, self.at = memory.data, memory.start(row.place)
        self.u = self.data[self.at : self.at + U_AREA]
        self.registers = [word(self.u, 2 * number) for number in range(8)]
        self.pc, self.carry = self.registers[7], self.u[16] & 1
        self.text, data, stack = (CLICK * word(self.u, at) for at in (24, 26, 28))
        self.pending = self.u[30]
        self.kept = [word(self.u, 32 + 2 * number) for number in range(8)]
        first = -(-self.text // SEGMENT) * SEGMENT
        self.parts = [(first, data, self.at + U_AREA), (ADDRESSES - stack, stack, self.at + U_AREA + data)]
        if row.state == "dead":  # of whom half of the u area is kept
            self.parts = []
        elif self.text and text:
            at = CLICK * (text.click - 1) if text.loaded else memory.core * CLICK + (text.block - SWAP_FIRST) * BLOCK
            self.parts.append((0, self.text, at))

    def byte(self, address):
        """The byte at an address, or None where nothing is."""
        address %= ADDRESSES
        for first, size, at in self.parts:
            if first <= address < first + size:
                return self.data[at + address - first]
        return None

    def word(self, address):
        """The word at an address, or None."""
        low, high = self.byte(address), self.byte(address + 1)
        return None if address & 1 or low is None or high is None else low | high << 8

    def bytes(self, address, most):
        """The bytes from an address on, as far as there are any."""
        out = bytearray()
        while len(out) < most and (byte := self.byte(address + len(out))) is not None:
            out.append(byte)
        return bytes(out)

    def string(self, address, most=510):
        """The bytes from an address on up to a NUL."""
        return self.bytes(address, most).partition(b"\0")[0]
