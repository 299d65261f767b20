"""A process that runs alone: its instructions are done here, as many as come before the kernel takes over. See docs/tools/look.md.

What the kernel does stays with the kernel: a call, a trap, a fault, a larger stack. A stepper stops before such an instruction."""
import struct

from v6.debug.answers import CARRY, Answers
from v6.pdp11.stepcode import MASK, STORED, TOP, row_at, single

ADDRESSES = 65536
HOT = 100  # times that an instruction is done alone before a row is made of it and those after it
SINGLES = {}  # functions by the first word of an instruction
ROWS = {}  # by an address the rows that were made there, each with its words, for whichever process
MOST_ROWS = 8  # that are kept for one address


def single_of(word):
    if word not in SINGLES:
        SINGLES[word] = single(word)
    return SINGLES[word]


class Stepper:
    """The registers, codes and memory of a process: docs/manual/core.md. Places that are looked for stop it: after `run`, `hit` tells
    whether PC has come into one of the ranges, or a word that is watched has changed."""

    def __init__(self, process, ranges=(), words=()):
        self.words, self.kept, self.heat, self.rows, self.covered = [None] * ADDRESSES, [1] * ADDRESSES, {}, {}, {}
        self.zones = [0] * ADDRESSES if ranges else None
        for number, (low, high) in enumerate(ranges):
            for at in range(low, high + 1):
                self.zones[at] |= 1 << number
        self.parts, self.hit, self.answers = [], None, Answers()
        self.fill(process)
        self.closed = list(self.kept)  # what can't be stored in for good, where `kept` also has what is watched and what rows are made of
        self.watched = {at: self.words[at] for at in words}
        for at in self.watched:
            self.kept[at] = 1

    def fill(self, process):
        """The registers and the memory of a process."""
        self.told(process)
        self.parts = process.parts
        for first, size, at in process.parts:
            found = struct.unpack_from(f"<{size // 2}H", process.data, at)
            self.words[first : first + size : 2] = found
            if not is_text(process, first):
                self.kept[first : first + size : 2] = [0] * (size // 2)

    def told(self, process):
        """The registers, the codes and the u area that the program tells; no call has been answered here since."""
        self.registers, self.pending = [*process.registers, *codes(process.u[16]), -1], process.pending
        self.u, self.is_asked = process.u, True

    def is_as(self, process):
        """Whether a process is what is here."""
        return process.registers == self.registers[:8] and process.u[16] & 15 == self.code() and self.changes(process) == {}

    def would_be(self, answer, process, changed):
        """Whether a process, with these words that are others, is what this one would be with an answer."""
        registers = [answer.r0, answer.r1, *self.registers[2:7], answer.end]
        is_same = process.registers == registers and process.u[16] & 15 == self.code() & ~CARRY | answer.carry
        return is_same and changed == {at: word for at, word in self.filled(answer).items() if word != self.words[at]}

    def answered(self, answer):
        """Goes on with the answer of a call that wasn't asked for."""
        self.store(self.filled(answer))
        self.answers.go_on(self, answer)
        self.is_asked = False

    def is_open(self, at, count):
        """Whether so many bytes can be stored from an address on, none of them after the last address."""
        return at + count <= ADDRESSES and not any(self.closed[at & MASK - 1 : at + count : 2])

    def filled(self, answer):
        """The words into which an answer puts bytes, by their addresses."""
        if not answer.data:
            return {}
        at, data = answer.words[0], answer.data
        first, end = at & MASK - 1, at + len(data)
        whole = self.bytes(first, at - first) + data + self.bytes(end, end & 1)
        return dict(zip(range(first, end, 2), struct.unpack(f"<{len(whole) // 2}H", whole)))

    def code(self):
        """The condition codes: N 8, Z 4, V 2, C 1."""
        n, z, v, c = self.registers[8:12]
        return (n & TOP) >> 12 | (0 if z else 4) | (2 if v else 0) | (1 if c else 0)

    def changes(self, process):
        """What the same process has after the kernel has done something for it: the words that are others, by their addresses, or
        None where it has another size."""
        if [part[:2] for part in process.parts] != [part[:2] for part in self.parts]:
            return None
        changed = {}
        for first, size, at in process.parts:
            found, old = struct.unpack_from(f"<{size // 2}H", process.data, at), self.words[first : first + size : 2]
            if list(found) != old:
                changed.update((first + 2 * place, word) for place, word in enumerate(found) if word != old[place])
        return changed

    def take(self, process, changed):
        """Goes on with the registers of a process and with words that are others."""
        self.told(process)
        self.store(changed)

    def store(self, changed):
        """Other words, by their addresses."""
        for at, word in changed.items():
            self.words[at] = word
            if self.kept[at] and not self.closed[at]:
                self.touch(at)

    # what a process has, for those who ask a moment for it

    @property
    def pc(self):
        return self.registers[7]

    def word(self, at):
        return self.words[at & MASK]

    def byte(self, at):
        found = self.words[at & MASK - 1]
        return None if found is None else found >> 8 if at & 1 else found & 255

    def bytes(self, at, most):
        at &= MASK
        found = self.words[at & MASK - 1 : at + most : 2]
        found = found[: found.index(None)] if None in found else found
        out = struct.pack(f"<{len(found)}H", *found)[at & 1 :][:most]
        if at + len(out) == ADDRESSES and len(out) < most:
            out += self.bytes(0, most - len(out))  # after the last address comes the first
        return out

    def string(self, at, most=510):
        return self.bytes(at, most).partition(b"\0")[0]

    def state(self):
        """In which of the ranges PC is, by their bits, and the words that are looked for."""
        return self.zones[self.pc] if self.zones else 0, [self.words[at] for at in self.watched]

    def run(self, limit):
        """Does so many instructions, fewer where the kernel takes over or something is found, and gives how many it did."""
        done, r, rows, words, kept, zones = 0, self.registers, self.rows, self.words, self.kept, self.zones
        self.hit = None
        while done < limit:
            pc = r[7]
            found = rows.get(pc)
            count = found[0](r, words, kept, limit - done) if found and found[1] <= limit - done else 0
            if not count:
                count = self.step(pc)
                if not count:
                    break
            done += count
            if zones and zones[r[7]] & ~zones[pc]:
                self.hit = "pc"
            if self.hit:
                break
        return done

    def step(self, pc):
        """Does one instruction, and tells whether it did."""
        r, word = self.registers, self.words[pc]
        does = None if word is None else single_of(word)
        if does is None:
            return 0
        r[STORED] = -1
        if not does(r, self.words, self.closed, pc):
            return 0
        at = r[STORED]
        if at >= 0 and self.kept[at]:
            self.touch(at)
        heat = self.heat[pc] = self.heat.get(pc, 0) + 1
        if heat == HOT or heat == 1 and pc in ROWS:
            self.make(pc, heat == HOT)
        return 1

    def touch(self, at):
        """Something was stored where a row has its words, or in a word that is watched."""
        for start in self.covered.pop(at, ()):
            self.rows.pop(start, None)
            self.heat[start] = 0
        self.kept[at] = 0
        if at in self.watched:
            self.kept[at] = 1
            if self.words[at] != self.watched[at]:
                self.watched[at], self.hit = self.words[at], "word"

    def known(self, pc):
        """A row that was made of the same words at an address, perhaps for another process, or None."""
        words, zones = self.words, self.zones
        for found, had in ROWS.get(pc, ()):
            is_within = not zones or all(zones[at] == zones[pc] for at in found[2])
            if is_within and all(words[at] == word for at, word in zip(found[2], had)):
                return found
        return None

    def make(self, pc, is_hot=True):
        """Makes a row of the instructions at an address, where they can stand in one. Where that isn't hot yet, only a known one is
        taken."""
        zones, found = self.zones, self.known(pc)
        if found is None and is_hot:
            found = row_at(self.words, pc, (lambda at: True) if zones is None else (lambda at: zones[at] == zones[pc]))
            if found:
                rows = ROWS.setdefault(pc, [])
                rows.append((found, [self.words[at] for at in found[2]]))
                del rows[:-MOST_ROWS]
        if found is None:
            return
        self.rows[pc] = found
        for at in found[2]:
            self.kept[at] = 1
            self.covered.setdefault(at, set()).add(pc)


def is_text(process, first):
    return process.text > 0 and first == 0


def codes(value):
    """N, Z, V and C as rows have them."""
    return TOP if value & 8 else 0, 0 if value & 4 else 1, TOP if value & 2 else 0, value & 1
