"""Programs made at random that open, read, write, set and close the eight lines of a terminal, and scripts for them.

The first process forks some children, before or after it has opened a line, and each does steps of its own, over and over or once.
A disk has /dev/tty8, which is line 0, and /dev/tty1 to /dev/tty7.
"""
import struct

from judge.random.program import Words

EXIT, FORK, READ, WRITE, OPEN, CLOSE, WAIT, GETPID, STTY, GTTY, KILL, DUP, SIGNAL = 1, 2, 3, 4, 5, 6, 7, 20, 31, 32, 37, 41, 48
TRAP, MOV_R0, JMP, MOV_TO_STACK, MOV_FROM_STACK, RTI = 0o104400, 0o012700, 0o000137, 0o010046, 0o012600, 0o000002
LINE_NODES = 8  # the inode of line 1
TEXT = b"abcdefghijklmnopqrstuvwxyzABCXYZ 0123456789{}|~`()!^'" * 3 + b"\n\n\n\n\n\n\t\t\t\r\b\x04\x07\x81\xff"
KEYS = (4, 0o12, 0o12, 0o15, 0o11, ord("#"), ord("@"), ord("\\"), 0o141, 0o101, 0o177, 0o177, 0o34)
FLAGS = (0, 2, 4, 8, 16, 32, 0o36, 0o36, 0o32, 0o76, 0o56, 0o40)
MOST_STEPS, BLOCKS = 14, 8


def name_of(line):
    return b"/dev/tty%d\0" % (line or 8)


class Lines:
    """Puts together the program of /etc/init."""

    def __init__(self, rng, lines):
        self.rng, self.w, self.lines = rng, Words(), lines
        self.caught = rng.sample((1, 2, 3, 14), rng.randrange(4))

    def begin(self):
        """A jump over the names, the bytes that are written and read, the modes and the routines of signals."""
        w, rng = self.w, self.rng
        w.put(JMP, "start")
        for line in range(8):
            w.label(f"tty{line}")
            w.data(name_of(line))
        w.label("text")
        w.data(bytes(rng.choice(TEXT) for _ in range(rng.choice((60, 200, 300)))))
        w.label("buffer")
        w.data(bytes(64))
        for number in range(3):
            w.label(f"modes{number}")
            w.put(rng.getrandbits(16), rng.choice((0o40043, 0o40043, rng.getrandbits(16))), rng.choice(FLAGS))
        for sig in self.caught:
            w.label(f"catch{sig}")
            w.put(MOV_TO_STACK, TRAP | SIGNAL, sig, f"catch{sig}", MOV_FROM_STACK, RTI)
        w.label("start")

    def call(self, number, *arguments):
        if self.rng.random() < 0.9:
            self.w.put(MOV_R0, self.rng.choice((0, 0, 0, 1, 1, 2, 3)))
        self.w.put(TRAP | number, *arguments)

    def opens(self):
        self.w.put(TRAP | OPEN, f"tty{self.rng.choice(self.lines)}", self.rng.choice((2, 2, 2, 2, 1, 0)))

    def writes(self):
        self.call(WRITE, "text", self.rng.choice((1, 3, 10, 30, 48, 50, 51, 52, 60, 100, 200)))

    def step(self):
        rng, kind = self.rng, self.rng.random()
        if kind < 0.16:
            self.opens()
        elif kind < 0.52:
            self.writes()
        elif kind < 0.68:
            self.call(READ, "buffer", rng.choice((0, 1, 2, 10, 64)))
        elif kind < 0.74:
            self.call(WRITE, "buffer", rng.choice((1, 10, 64)))
        elif kind < 0.80:
            self.call(STTY, f"modes{rng.randrange(3)}")
        elif kind < 0.82:
            self.call(GTTY, "buffer")
        elif kind < 0.87:
            self.call(CLOSE)
        elif kind < 0.90:
            self.call(DUP)
        elif kind < 0.93:
            sig = rng.choice((1, 2, 3, 14))
            self.call(SIGNAL, sig, rng.choice((f"catch{sig}", 1) if sig in self.caught else (1, 0)))
        elif kind < 0.95:
            self.w.put(MOV_R0, 0, TRAP | KILL, rng.choice((1, 2, 14)))
        elif kind < 0.97:
            self.call(WRITE, 64250, 20)  # nothing is there: a fault at once, or after some bytes of the stack
        else:
            self.w.put(TRAP | GETPID)

    def catches(self):
        for sig in self.caught:
            self.w.put(TRAP | SIGNAL, sig, self.rng.choice((f"catch{sig}", f"catch{sig}", 1)))

    def body(self, name):
        w, rng = self.w, self.rng
        w.label(name)
        if rng.random() < 0.8:
            self.catches()
        for _ in range(rng.randrange(1, 4)):
            self.opens()
        w.label(f"again {name}")
        for _ in range(rng.randrange(1, MOST_STEPS)):
            self.step()
        if rng.random() < 0.6:
            w.put(JMP, f"again {name}")
        w.put(MOV_R0, rng.randrange(4), TRAP | EXIT)

    def fork(self, child):
        """The child's word is a BR over the parent's jump, to a jump of its own."""
        self.w.put(TRAP | FORK, 0o000402, JMP, f"behind {child}", JMP, child)
        self.w.label(f"behind {child}")

    def bytes(self):
        rng = self.rng
        self.begin()
        children = [f"child{n}" for n in range(rng.choice((0, 1, 1, 2, 2, 3, 5)))]
        if rng.random() < 0.3:
            self.opens()
        for child in children:
            self.fork(child)
            if rng.random() < 0.2:
                self.opens()
        if rng.random() < 0.3:
            self.w.put(TRAP | WAIT)
        for name in ("parent", *children):
            self.body(name)
        data = self.w.bytes()
        return struct.pack("<8H", 0o407, len(data), 0, 0, 0, 0, 0, 0) + data


def put(image, at, data):
    image[at : at + len(data)] = data


def disk(base, program):
    """The disk of examples/hi with the lines in /dev, a program of some blocks, and some blocks that are free."""
    image = bytearray(base.ljust(512 * 200, b"\0"))
    put(image, 1094, struct.pack("<H", 16 * 11))
    for line in range(1, 8):
        ino = LINE_NODES + line - 1
        put(image, 1024 + 32 * (ino - 1), struct.pack("<HBBBBHH", 0o120666, 1, 0, 0, 0, 0, line))
        put(image, 32768 + 16 * (3 + line), struct.pack("<H14s", ino, b"tty%d" % line))
    blocks = [66 + n for n in range(BLOCKS)]
    put(image, 1216 + 6, struct.pack("<9H", len(program), *blocks))
    put(image, 512 * 66, program.ljust(512 * BLOCKS, b"\0"))
    free = range(66 + BLOCKS, 66 + BLOCKS + 60)
    put(image, 516, struct.pack("<H", len(free)) + struct.pack(f"<{len(free)}H", *free))
    return bytes(image)


def keys(rng):
    kind = rng.random()
    if kind < 0.5:
        return [b"type " + bytes(rng.choice(b"abcxyzABC 09#@") for _ in range(rng.randrange(12)))]
    if kind < 0.9:
        return [b"byte %03o" % rng.choice(KEYS) for _ in range(rng.randrange(1, 5))]
    return [b"byte %03o" % rng.choice((0o11, 0o141))] * rng.choice((126, 130, 255, 256, 257))


def script(rng, lines, slots):
    """Lines of a script in which some slots go by."""
    out, run = [], 0
    if rng.random() < 0.7:
        out.append(b"pace %d" % rng.choice((1, 1, 2, 3, 5, 20, 1000)))
    if rng.random() < 0.3:
        out.append(b"clock %d" % rng.choice((1, 3, 10, 60)))
    if rng.random() < 0.2:
        out.append(b"disk %d" % rng.choice((1, 3, 10)))
    while run < slots:
        kind, line = rng.random(), rng.choice((*lines, *lines, rng.randrange(8)))
        if kind < 0.45:
            run += (count := rng.choice((1, 2, 3, 5, 10, 21, 22, 40, 100, 300)))
            out.append(b"run %d" % count)
        elif kind < 0.70:
            out += [*([b"line %d" % line] if rng.random() < 0.6 else []), *keys(rng)]
        elif kind < 0.86:
            out.append(b"pace %d" % rng.choice((0, 0, 1, 1, 2, 3, 7, 50)))
        elif kind < 0.92:
            out.append(b"hangup %d" % line)
        elif kind < 0.96:
            out += [b"tick"] * rng.choice((1, 1, 3, 60))
        else:
            out.append(rng.choice((b"clock %d", b"disk %d")) % rng.choice((0, 1, 2, 10)))
    return out


def over(rng, base, lines, slots):
    """An image with a program over these lines, and the lines of a script for it."""
    program = Lines(rng, lines).bytes()
    while len(program) > 512 * BLOCKS:
        program = Lines(rng, lines).bytes()
    return disk(base, program), script(rng, lines, slots)


def random_lines(rng, base):
    """An image, the lines of a script, and whether the machine has eight lines."""
    lines = rng.sample(range(8), rng.choice((1, 2, 2, 3, 8)))
    is_eight = rng.random() < 0.8
    lines = lines if is_eight else [0, 0, 0, lines[0]]
    return *over(rng, base, lines, rng.choice((300, 1000, 3000))), is_eight
