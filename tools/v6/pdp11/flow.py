"""Which words of a program are instructions, as far as its file tells: a walk of the code from the entry on, without a run.

Each branch is taken to go both ways. Where a jump goes is known if the place stands in the instruction, and not if a register or a
word of memory has it. A routine is taken to come back just after its call.
"""
import struct

from v6.pdp11.disassembler import known, more_words
from v6.pdp11.names import ARGUMENTS, CALLS, SEGMENT, SHARED, signed

HEADER = 16  # bytes
FLOATING = 0o170000  # from here on: those of a floating-point unit
OPERAND = 0o170100  # from here on they have one
FIS = range(0o075000, 0o075040)
SPACES = (*range(0o006500, 0o006700), *range(0o106500, 0o106700))  # MFPI, MTPI, MFPD and MTPD
WORD = 0o177777
PC = 7
STOPS = ("rts", "rti", "rtt", "mark")
TESTS = ("cmp", "bit", "tst", "cmpb", "bitb", "tstb")
ARGUMENTS_OF = {CALLS[name]: count for name, count in ARGUMENTS.items()}
EXIT, INDIRECT = CALLS["exit"], CALLS["indir"]
ROUTINE = 64  # instructions of a routine that are looked at


class Program:
    """The file of a program of magic 0407 or 0410, and the words that memory has of it at first."""

    def __init__(self, data):
        self.magic, self.text, self.size, self.bss = struct.unpack("<4H", data[:8])
        text, rest = data[HEADER : HEADER + self.text], data[HEADER + self.text : HEADER + self.text + self.size]
        start = -(-self.text // SEGMENT) * SEGMENT if self.magic == SHARED else self.text
        self.parts = [(0, text), (start, rest)] if self.magic == SHARED else [(0, text + rest)]

    def word(self, at):
        """The word at an address, or None."""
        for start, part in self.parts:
            if start <= at < start + len(part) - 1 and not at & 1:
                return int.from_bytes(part[at - start : at - start + 2], "little")
        return None

    def words_at(self, at):
        """How many words the instruction at an address has, as one of a floating-point unit too; the arguments of a call count."""
        word = self.word(at)
        if 0o104400 <= word <= 0o104777:
            return 1 + ARGUMENTS_OF.get(word & 0o77, 0)
        found = known(word)
        if found:
            return found[2]
        return 1 + (more_words(word & 0o77) if word >= OPERAND or word in SPACES else 0)

    def call_at(self, at):
        """The number of the call at an address, whether it stands there itself, and the address of its arguments; else None. That of
        an indirect call stands elsewhere, as it is at first."""
        word = self.word(at)
        if word is None or not 0o104400 <= word <= 0o104777:
            return None
        if word & 0o77 != INDIRECT:
            return word & 0o77, True, at + 2
        place = self.word(at + 2)
        there = self.word(place) if place is not None else None
        return (there & 0o77, False, place + 2) if there is not None and 0o104400 <= there <= 0o104777 else None

    def target(self, at):
        """Where the jump at an address goes, or None where that isn't known."""
        spec, word = self.word(at) & 0o77, self.word(at + 2)
        if word is None or spec not in (0o37, 0o67):
            return None
        return word if spec == 0o37 else word + at + 4 & WORD

    def next(self, at):
        """The addresses at which the program may go on after the instruction at one, as far as they are known."""
        word, after = self.word(at), at + 2 * self.words_at(at)
        found = known(word)
        if found is None:
            return [after] if word >= FLOATING or word in FIS or word in SPACES else []
        name, form, _ = found
        if form == "call":
            return [after] if word & 0o77 != EXIT else []
        if form == "b":
            return [at + 2 + 2 * signed(word, 8) & WORD] + [after] * (name != "br")
        if form == "r,b":
            return [at + 2 - 2 * (word & 0o77) & WORD, after]
        if name in ("jmp", "jsr"):
            target = self.target(at)
            comes_back = name == "jsr" and (word >> 6 & 7 == PC or target is not None and not self.takes_words(target, word >> 6 & 7))
            return [after] * comes_back + ([target] if target is not None else [])
        into_pc = form in ("s,d", "d", "r,d") and word & 0o77 == PC and name not in TESTS
        return [after] if name not in STOPS and not into_pc else []

    def takes_words(self, at, link):
        """Whether a routine looks at what stands after its call, through the register that has the place of it, or through one to
        which that is moved. As far as a row of its instructions goes."""
        holders = {link}
        for _ in range(ROUTINE):
            word = self.word(at)
            found = known(word) if word is not None else None
            if not found or not holders:
                return False
            name, form, count = found
            specs = {"s,d": (word >> 6 & 0o77, word & 0o77)}.get(form, (word & 0o77,) if form in ("d", "s,r", "r,d") else ())
            if any(spec & 7 in holders and spec >> 3 for spec in specs):
                return True
            if name in STOPS or name in ("jmp", "br"):
                return False
            low = word & 0o77
            if form == "s,d" and name == "add" and low in holders:
                return True
            if form in ("s,d", "d") and low < PC and name not in TESTS:
                holders.discard(low)
                if name == "mov" and word >> 6 & 0o77 in holders:
                    holders.add(low)
            at += 2 * count
        return False

    def reached(self):
        """The addresses of the instructions to which the entry leads; the entry is 0."""
        found, waiting = set(), [0]
        while waiting:
            at = waiting.pop()
            if at not in found and self.word(at) is not None:
                found.add(at)
                waiting += self.next(at)
        return found

    def others(self, reached):
        """The addresses of the words of the text that would be instructions next: those to which no way is known, in a row."""
        covered = {at + 2 * n for at in reached for n in range(self.words_at(at))}
        at = 0
        while at < self.text and self.word(at) is not None:
            if at in covered:
                at += 2
            else:
                yield at
                at += 2 * self.words_at(at)
