"""Scripts made at random, of all kinds of lines, for programs that read the console.

A share of them has a line that is none, or too many slots, and a share a key that makes a signal.
"""
import re

SIGNALS = (0o177, 0o34)
KEYS = (4, 4, 4, 0o12, 0o15, 0o11, 0o10, 0, ord("#"), ord("@"), ord("\\"), ord("A"), 0o204, 0o212, 0o215, 0o376)
TEXT = b"abcxyzABCXYZ 019" + b"##@@\\\\\\" + b"!()'^{}|~`" + b"#\\"
PRINTED = bytes(range(0o40, 0o177))
MOST_SLOTS = 200_000_000
LONG = 1_048_576
NO_LINES = (
    b"walk", b"run", b"run ", b"run 1234567890", b"run  5", b" run 5", b"run 5 ", b"run -1", b"Run 5", b"run 5\r",
    b"run\t5", b"run 5;", b"tick ", b"tick 1", b"ticks", b"clock", b"clock ", b"clock 1x", b"byte 08", b"byte 400",
    b"byte 7", b"byte 0101", b"byte 018", b"switch 1", b"switch 200000", b"switch 17777", b"switch 1777777", b"typed",
    b"type a\tb", b"type \x7f", b"type \x80", b"type a\r", b"\t", b" ", b"\r", b"\0", b"hangup", b"disk", b"disk ",
    b"disk 1234567890", b"disk 3 ", b"line", b"pace", b"pace ", b"pace 1234567890", b"pace -1", b"pace 1 2", b"line 8",
    b"line 00", b"line 1 ", b"hangup 9", b"hangup 0 0", b"; " + b"x" * 299, b"type " + b"x" * 296)


class Script:
    """Lines without their ends, and those ends."""

    def __init__(self, lines, ends):
        self.lines, self.ends = lines, ends

    def bytes(self):
        return b"".join(line + end for line, end in zip(self.lines, self.ends))

    def without(self, first, last):
        """The script that lacks some lines; the last line keeps its end."""
        ends = self.ends[:first] + self.ends[last:]
        lines = self.lines[:first] + self.lines[last:]
        return Script(lines, [end or b"\n" for end in ends[:-1]] + ends[-1:])

    def signal_line(self):
        """The number of the first line that types a key which makes a signal, or 0."""
        for number, line in enumerate(self.lines, 1):
            if line.startswith(b"byte ") and int(line[5:], 8) % 128 in SIGNALS:
                return number
        return 0


class Typist:
    """Chooses lines."""

    def __init__(self, rng):
        self.rng, self.lines, self.slots = rng, [], 0
        self.most = rng.choice((500, 2000, 4000, 6000))

    def put(self, *lines):
        self.lines += lines

    def runs(self, slots=None):
        slots = self.rng.choice((0, 1, 2, 5, 20, 60, 100, 100, 200, 200, 400, 1000)) if slots is None else slots
        self.slots += slots
        self.put(b"run %0*d" % (self.rng.choice((1, 1, 1, 9)), slots))

    def text(self, most):
        count = self.rng.randrange(most + 1)
        return bytes(self.rng.choice(TEXT if self.rng.random() < 0.8 else PRINTED) for _ in range(count))

    def types(self):
        self.put(b"type " + self.text(self.rng.choice((3, 6, 12, 12, 30, 80, 295))))

    def types_and_runs(self):
        self.types()
        self.runs(self.rng.choice((20, 60, 100, 200, 300)))

    def types_nothing(self):
        self.put(self.rng.choice((b"type", b"type ")))

    def byte(self):
        value = self.rng.choice(KEYS) if self.rng.random() < 0.6 else self.rng.randrange(256)
        self.put(b"byte %03o" % (value if value % 128 not in SIGNALS else 4))

    def bytes(self):
        for _ in range(self.rng.randrange(1, 8)):
            self.byte()

    def ends_file(self):
        self.put(b"byte 004")
        self.runs(self.rng.choice((20, 100)))

    def escapes(self):
        """A line with marks after a \\, and after two."""
        marks = b"#@!()'^ab\\Z$"
        some = (bytes((self.rng.choice(marks),)) for _ in range(self.rng.randrange(1, 8)))
        self.put(b"type " + b"".join(b"\\" * self.rng.randrange(4) + mark for mark in some))

    def fills(self):
        """As many keys as the line holds, or nearly, and perhaps more."""
        keys = self.rng.choice((252, 253, 254, 254, 255, 255, 256, 256, 257, 258, 300, 520))
        line = b"byte 15%o" % self.rng.randrange(8)
        self.put(*[line] * keys)
        self.rng.choice((self.types, self.types_nothing, self.types_nothing, self.byte))()
        self.runs(self.rng.choice((0, 200, 1000)))

    def types_much(self):
        for _ in range(self.rng.randrange(2, 9)):
            self.put(b"type " + self.text(70))

    def ticks(self):
        self.put(*[b"tick"] * self.rng.choice((1, 1, 2, 30, 59, 60, 61, 119, 120, 240)))

    def clock(self):
        self.put(b"clock %d" % self.rng.choice((0, 0, 1, 1, 2, 3, 7, 10, 60, 100, 999999999)))

    def disk(self):
        self.put(b"disk %d" % self.rng.choice((0, 0, 1, 1, 2, 3, 4, 7, 20, 60, 500)))

    def pace(self):
        """A pace, which is mostly turned off or changed some time later."""
        self.put(b"pace %d" % self.rng.choice((0, 0, 1, 1, 1, 2, 3, 7, 20, 100)))

    def chooses_line(self):
        """What is typed on a line, or on the console once more; or a hangup. Most disks have the console alone."""
        if self.rng.random() < 0.3:
            self.put(b"hangup %d" % self.rng.choice((0, 0, 0, 1, 3, 7)))
        else:
            self.put(b"line %d" % self.rng.choice((0, 0, 0, 0, 1, 1, 2, 3, 7)))

    def switch(self):
        self.put(b"switch %06o" % self.rng.getrandbits(16))

    def remark(self):
        data = bytes(byte for byte in self.rng.randbytes(self.rng.choice((0, 3, 20, 298))) if byte != 0o12)
        self.put(self.rng.choice((b"", b";" + data + b".")))

    def line(self):
        kinds = ((self.runs, 8), (self.types_and_runs, 14), (self.types, 6), (self.types_nothing, 2), (self.bytes, 5),
                 (self.ends_file, 3), (self.escapes, 3), (self.fills, 1), (self.types_much, 1), (self.ticks, 2),
                 (self.clock, 3), (self.disk, 2), (self.pace, 3), (self.chooses_line, 1), (self.switch, 1), (self.remark, 2))
        self.rng.choices([kind for kind, _ in kinds], [weight for _, weight in kinds])[0]()

    def fault(self):
        """A line that is none, or that asks for too many slots; or too many bytes."""
        place, kind = self.rng.randrange(len(self.lines) + 1), self.rng.random()
        if kind < 0.8:
            self.lines.insert(place, self.rng.choice(NO_LINES))
        elif kind < 0.95:
            least = self.rng.random() < 0.5
            self.lines.insert(place, b"run %d" % (MOST_SLOTS - self.slots * least))
            self.put(b"run 1")
        else:
            self.put(*[b";" * 255] * (LONG // 256))


def random_script(rng):
    typist = Typist(rng)
    if rng.random() < 0.7:
        typist.runs(rng.choice((10, 100, 200)))
    while typist.slots < typist.most:
        typist.line()
    if rng.random() < 0.04:
        place, key = rng.randrange(len(typist.lines) + 1), rng.choice((0o177, 0o34, 0o377, 0o234))
        typist.lines.insert(place, b"byte %03o" % key)
    for _ in range(rng.choice((1, 1, 2)) if rng.random() < 0.08 else 0):
        typist.fault()
    returns = rng.choice((0, 0, 0.1, 1))
    ends = [b"\r\n" if rng.random() < returns else b"\n" for _ in typist.lines]
    return Script(typist.lines, ends[:-1] + [b"" if rng.random() < 0.2 else ends[-1]])


def slowed(rng, lines, there, most=3000):
    """Lines of a script up to so many slots, with a slow disk and a pace from near the start on, more lines of both after it,
    and hangups; and of the lines of a terminal that are there beside the console what is typed on one."""
    out, slots = [], 0
    for line in lines:
        found = re.fullmatch(rb"run ([0-9]{1,9})", line)
        slots += int(found[1]) if found else 0
        if slots > 3 * most:
            break
        out.append(line)
        if slots > most:
            break
    first = [b"disk %d" % rng.choice((1, 1, 2, 3, 5, 7, 20, 60, 300)), b"pace %d" % rng.choice((1, 1, 1, 2, 3, 7, 20))]
    at = rng.choice((0, 0, 0, min(2, len(out))))
    out[at:at] = rng.sample(first, 2)
    more = [b"disk %d" % rng.choice((0, 1, 1, 2, 3, 7, 50, 400)) for _ in range(rng.randrange(3))]
    more += [b"pace %d" % rng.choice((0, 0, 1, 1, 2, 3, 9, 100)) for _ in range(rng.randrange(5))]
    more += [b"hangup %d" % rng.choice((0, 0, *there, rng.randrange(8))) for _ in range(rng.choice((0, 0, 0, 1, 2)))]
    more += [b"line %d" % rng.choice((0, *there, *there)) for _ in range(rng.randrange(1, 7) if there else 0)]
    for line in more:
        out.insert(rng.randrange(len(out) + 1), line)
    return out
