"""Programs of random instructions, for /etc/init: operands of all modes at the edges of text, data and stack, and faults that
are caught. Some have a shared text, some a child, so that images move while they run.

Each step notes where the next one begins, sets some registers and words of the data, does an instruction or two, and ends with
BPT. That signal and those of faults have a handler, which adds R0 to R5 to a sum and goes on at the next step.
"""
import random
import struct

from judge import TOP
from judge.random.hostile import BRANCHES, CLOSE_TO, FORK, ONE, SIGNAL, TRAP, TWO
from judge.random.program import Words

HI = f"{TOP}/examples/hi/image"
INODE_7, BLOCK = 1216, 66  # of /etc/init on the disk of examples/hi
CAUGHT = (4, 5, 6, 7, 10, 11, 12)
BREAK, GETPID, NICE = 17, 20, 34
NOTE = 20  # which word of the data it is; after it comes the sum
CORES = (100, 110, 128, 150, 200, 3968)
ALONE = (1, 2, 3, 4, 5, 6, 0o240, 0o257, 0o277, 0o207, 0o200, 0o6402, 0o104000, 0o170011, 0o7000)


class Instructions:
    """Puts together a program of at most so many bytes of words. With a shared text its data are words after it."""

    def __init__(self, rng, room, is_shared):
        self.rng, self.room, self.w = rng, room, Words()
        self.is_shared, self.start = is_shared, 8192 if is_shared else room
        self.data, self.steps = rng.choice((64, 200, 1000)), 0

    def address(self):
        """An address, most often at an edge or in the data."""
        end = (self.start + self.data + 63) // 64 * 64
        edges = (end, end, 64256, 64256, 65536, self.room, 65536 - 1280 - 1280, 32768, *((0, 8192) if self.is_shared else ()))
        kind = self.rng.random()
        if kind < 0.6:
            return (self.rng.choice(edges) + self.rng.choice(CLOSE_TO)) % 65536
        return self.cell() if kind < 0.95 else self.rng.randrange(self.start, 65536)

    def cell(self):
        """An address of a word of the data: none of the note and the sum."""
        return self.start + 2 * self.rng.choice((self.rng.randrange(NOTE), self.rng.randrange(NOTE + 2, self.data // 2)))

    def begin(self):
        """A jump over the handlers; then signals are caught. In the data are the note and the sum."""
        w = self.w
        w.put(0o000137, "start")                                     # JMP @#start
        w.labels |= {"note": self.start + 2 * NOTE, "sum": self.start + 2 * NOTE + 2}
        for sig in CAUGHT:
            w.label(f"handler {sig}")
            w.put(0o010046, TRAP | SIGNAL, sig, f"handler {sig}", 0o012600)      # MOV R0,-(SP); signal; MOV (SP)+,R0
            w.put(0o000137, "sums")                                  # JMP @#sums
        w.label("sums")
        for register in range(6):
            w.put(0o060037 | register << 6, "sum")                   # ADD Rn,@#sum
        w.put(0o013716, "note", 0o000002)                            # MOV @#note,(SP); RTI
        w.label("start")
        for sig in CAUGHT:
            w.put(TRAP | SIGNAL, sig, f"handler {sig}")

    def step(self):
        """A step, with a stack pointer that is good but for once in a while."""
        w, rng = self.w, self.rng
        w.label(f"step {self.steps}")
        self.steps += 1
        w.put(0o012737, f"step {self.steps}", "note")                # MOV #step,@#note
        w.put(0o012706, rng.choice((65520, 65500, 64300, 64258)))    # MOV #..,SP
        for _ in range(rng.choice((1, 2, 2, 3))):
            rng.choice((self.sets_register, self.sets_register, self.sets_pointer))()
        for _ in range(rng.choice((1, 1, 2))):
            self.instruction()
        if rng.random() < 0.03:
            self.call()
        w.put(0o000003)                                              # BPT

    def sets_register(self):
        register = 6 if self.rng.random() < 0.02 else self.rng.randrange(6)
        self.w.put(0o012700 | register, self.address())              # MOV #address,Rn

    def sets_pointer(self):
        self.w.put(0o012737, self.address(), self.cell())            # MOV #address,@#cell

    def instruction(self):
        rng = self.rng
        kind = rng.random()
        if kind < 0.1:
            self.w.put(rng.choice(ALONE))
        elif kind < 0.2:
            self.w.put(rng.choice(BRANCHES) | rng.choice((0, 1, 2, 3)))
        else:
            is_two = kind < 0.7
            places = [rng.choice((0o20, 0o30, 0o40, 0o50, 0o60, 0, 0o10, 0o70)) | rng.randrange(8) for _ in range(1 + is_two)]
            if rng.random() < 0.8:
                places = [place & 0o70 | rng.randrange(6) for place in places]
            if is_two and rng.random() < 0.3:
                places = [0o20 | rng.randrange(6), rng.choice((0o10, 0o20, 0o40, 0o60)) | rng.randrange(7)]      # from (R)+
            places = [0o27 if place in (0o47, 0o57) else place for place in places]      # -(PC) goes on for ever
            register = rng.randrange(8) << 6
            one = rng.choice(ONE)
            one |= register if one in (0o004000, 0o070000, 0o071000, 0o072000, 0o073000, 0o074000) else 0
            word = rng.choice(TWO) | places[0] << 6 | places[1] if is_two else one | places[0]
            extra = [self.address() for place in places if place >= 0o60 or place in (0o27, 0o37)]
            self.w.put(word, *extra)

    def call(self):
        number = self.rng.choice((GETPID, GETPID, BREAK, NICE, FORK))
        self.w.put(0o012700, 0, TRAP | number)
        if number == BREAK:
            self.w.put(self.start + self.rng.choice((64, 128, 500, 1000, 2000)))
        if number == FORK:
            self.w.put(0o000240)                                     # the child's first word does nothing

    def program(self):
        """The file: its header and its words."""
        self.begin()
        if self.rng.random() < 0.5:
            self.w.put(TRAP | FORK, 0o000240)
        while self.w.at() < self.room - 64:
            self.step()
        self.w.label(f"step {self.steps}")
        self.w.put(0o000137, "start")                                # JMP @#start
        words = self.w.bytes()
        words += b"\xa0\0" * ((self.room - len(words)) // 2)         # NOP
        if not self.is_shared:
            return struct.pack("<8H", 0o407, self.room, 0, self.data, 0, 0, 0, 0) + words
        data = struct.pack(f"<{NOTE}H4x", *(self.address() for _ in range(NOTE))).ljust(self.data, b"\0")
        return struct.pack("<8H", 0o410, self.room, self.data, 0, 0, 0, 0, 0) + words + data


def disk_with(program):
    """The disk of examples/hi with this file of at most 4,096 bytes as /etc/init."""
    with open(HI, "rb") as file:
        image = bytearray(file.read())
    count = (len(program) + 511) // 512
    image[512 * BLOCK :] = program.ljust(512 * count, b"\0")
    image[INODE_7 + 6 : INODE_7 + 8] = struct.pack("<H", len(program))
    image[INODE_7 + 8 : INODE_7 + 8 + 2 * count] = struct.pack(f"<{count}H", *range(BLOCK, BLOCK + count))
    return bytes(image)


class InstructionCase:
    """What a seed gives: a disk, a size of core and a script."""

    def __init__(self, seed):
        rng = random.Random(f"instructions {seed}")
        self.seed, self.core = seed, rng.choice(CORES)
        self.image = disk_with(Instructions(rng, rng.choice((1280, 3000)), rng.random() < 0.4).program())
        slots, ticks = (5, 20, 100, 300), (1, 60, 60)
        lines = (rng.choice((b"run %d\n" % rng.choice(slots), b"tick\n" * rng.choice(ticks))) for _ in range(40))
        self.script = b"".join(lines)

    def write(self, folder):
        for name, data in {"image": self.image, "script": self.script, "core": b"%d\n" % self.core}.items():
            with open(f"{folder}/{name}", "wb") as file:
                file.write(data)
