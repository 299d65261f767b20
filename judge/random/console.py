"""Programs made at random that use the console, for /etc/init of a small disk.

A program opens the console and goes round a body of steps. A step reads what was typed and writes it back, changed or
in octal, sets or tells the modes, closes the console and opens it, writes bytes, or uses a file, whose times then tell
when it was. What a step comes to is told as in random_program: a line of C and R0.
"""
import struct

from judge.random.program import (CALLS, EXIT, MOST_BYTES, STACK, TOP, TRAP, Call, Words, put_call, tell_on_console,
                            tell_words, with_skip)

READ, WRITE, OPEN, CLOSE, STTY, GTTY, SEEK, FSTAT, DUP = 3, 4, 5, 6, 31, 32, 19, 28, 41
NAMES = {**CALLS, STTY: "stty", GTTY: "gtty"}
XTABS, LCASE, ECHO, CRMOD, RAW = 0o2, 0o4, 0o10, 0o20, 0o40
MODES = (XTABS, LCASE, ECHO, CRMOD, RAW)
CONSOLE, NULL = "/dev/tty8", "/dev/null"
FD = 0  # the number of the console, and of what is told
BEFORE_ARGUMENTS = 65480  # the program's own stack grows down from above here
COUNTS = (1, 1, 2, 3, 5, 10, 80, 100, 100, 253, 254, 255, 256, 512, 60000, 65535)
KEYS = (ord("#"), ord("@"), ord("a"), ord("\\"), 0o10, 0o177, 4, 0o12, 0, 0o377, 0o243)
NO_CALLS = (0, 26, 27, 29, 33, 39, 40, 44, 45, 49, 63)  # 0 takes the word after it as an address, which isn't one
NO_INSTRUCTIONS = (0, 3, 0o104000, 0o77)
# what is done to each byte of a buffer, which R2 points to
CHANGES = {"COMB": (0o105122,), "INCB": (0o105222,), "NEGB": (0o105422,), "ASLB": (0o106322,),
           "BISB #40": (0o152722, 0o40), "BICB #240": (0o142722, 0o240)}


class Program:
    """Steps before the loop, the steps of its body, what comes at its end, how many bytes of room are at address 4, and
    how often the body is done, where 0 is 65,536 times."""

    def __init__(self, first, body, ending, room, rounds):
        self.first, self.body, self.ending, self.room, self.rounds = first, body, ending, room, rounds

    def steps(self):
        return self.first + self.body + self.ending

    def calls(self):
        return [item for step in self.steps() for item in step if isinstance(item, Call)]


class Writes:
    """Bytes that the program has, and writes to the console."""

    def __init__(self, data):
        self.data = data

    def put(self, w):
        w.put(0o012700, FD, TRAP | WRITE, self.label(), len(self.data))

    def label(self):
        return "=" + self.data.hex()


class Sets:
    """stty of three words that the program has."""

    def __init__(self, words, fd):
        self.data, self.fd = struct.pack("<3H", *words), fd

    def put(self, w):
        w.put(0o012700, self.fd, TRAP | STTY, self.label())
        w.put(0o004737, "tell")

    def label(self):
        return "=" + self.data.hex()


class Code:
    """Words as they stand; a text is a label."""

    def __init__(self, *words):
        self.words = words

    def put(self, w):
        w.put(*self.words)


TELL = Code(0o004737, "tell")                                        # JSR PC,@#tell
KEEP = Code(0o010037, "count")                                       # MOV R0,@#count


class Echoes:
    """Writes back what a read gave, whose number of bytes is in `count`."""

    def __init__(self, buffer):
        self.buffer = buffer

    def put(self, w):
        w.put(0o013737, "count", w.at() + 14, 0o012700, FD)          # MOV @#count,@#the last word; MOV #fd,R0
        w.put(TRAP | WRITE, self.buffer, 0)


class Changes:
    """Changes each byte of what a read gave."""

    def __init__(self, buffer, change):
        self.buffer, self.change = buffer, change

    def put(self, w):
        w.put(0o013701, "count", 0o001400 | 3 + len(self.change))    # MOV @#count,R1; BEQ after
        w.put(0o012702, self.buffer)                                     # MOV #at,R2
        w.put(*self.change)
        w.put(0o077101 + len(self.change))                           # SOB R1


class Tells:
    """Tells some words in octal."""

    def __init__(self, buffer, count):
        self.buffer, self.count = buffer, count

    def put(self, w):
        w.put(0o012704, self.buffer, 0o012703, self.count, 0o004737, "word")    # MOV #at,R4; MOV #count,R3; JSR


class Waits:
    """Stays in one place."""

    def __init__(self, rounds):
        self.rounds = rounds

    def put(self, w):
        w.put(0o012701, self.rounds, 0o077101)                       # MOV #rounds,R1; SOB R1,.


def said(item):
    """A line of the listing: a call, or the kind of what is done and its values."""
    if isinstance(item, Call):
        return " ".join([NAMES.get(item.number, str(item.number)), *str(item).split(" ")[1:]])
    values = [f"{value:o}" if isinstance(value, int) else str(value) for value in list(vars(item).values())[:-1]]
    return " ".join([type(item).__name__, *values])


def assembled(program):
    """The bytes of the program."""
    w = Words()
    w.put(0o000137, "start")                                         # JMP @#start
    w.put(*[0] * (program.room // 2))
    put_data(w, program)
    tell_on_console(w, FD)
    tell_words(w)
    w.label("start")
    w.put(0o012705, 15)                                              # MOV #15.,R5: nothing is open there
    put_steps(w, program.first)
    w.label("loop")
    put_steps(w, program.body)
    w.put(0o005337, "rounds", 0o001402, 0o000137, "loop")            # DEC @#rounds; BEQ .+6; JMP @#loop
    put_steps(w, program.ending)
    w.put(*[0o000777] * 5)                                           # BR .
    w.words = [with_skip(w, word) for word in w.words]
    return w.bytes()


def put_data(w, program):
    w.label("count")
    w.put(0)
    w.label("rounds")
    w.put(program.rounds)
    data = {item.label(): item.data for step in program.steps() for item in step if isinstance(item, (Writes, Sets))}
    names = {arg[0] for call in program.calls() for arg in call.args if isinstance(arg, tuple)}
    for name in sorted(names):
        w.label("=" + name)
        w.data(name.encode() + b"\0")
    for label, value in sorted(data.items()):
        w.label(label)
        w.data(value)


def put_steps(w, steps):
    for step in steps:
        for item in step:
            item.at = w.at()
            if isinstance(item, Call):
                put_call(w, item)
            else:
                item.put(w)


def init_of(program):
    """The file /etc/init."""
    body = assembled(program)
    return struct.pack("<8H", 0o407, len(body), 0, 0, 0, 0, 0, 0) + body


class Chooser:
    """Chooses steps."""

    def __init__(self, rng, tree):
        self.rng, self.room = rng, rng.choice((0, 0, 64, 300))
        consoles = tree.consoles()
        plain = [path for path, ino in tree.paths if ino not in tree.entries and ino not in consoles]
        self.files = [path for path in plain if not tree.inodes[dict(tree.paths)[path]].is_device() and tree.has(path)]

    def odd(self, chance):
        return self.rng.random() < chance

    def buffer(self):
        """Where a line of 254 bytes has room: in the stack, or from its end round to the room at address 4."""
        if self.room == 300 and self.odd(0.3):
            return self.rng.choice((TOP - 1, TOP - 4, 4, 0))
        return STACK + self.rng.randrange(BEFORE_ARGUMENTS - 300 - STACK)

    def fd(self):
        return FD if self.odd(0.9) else self.rng.choice((1, 2, 14, 15, 0o400))

    def reads(self, count=None):
        count = self.rng.choice(COUNTS) if count is None else count
        at = self.buffer()
        return at, [Call(READ, at, count, r0=self.fd()), KEEP]

    def echoes(self):
        at, read = self.reads()
        return read + [Echoes(at)]

    def changes(self):
        at, read = self.reads()
        return read + [Changes(at, self.rng.choice(list(CHANGES.values()))), Echoes(at)]

    def tells(self):
        return self.reads()[1][:1] + [TELL]

    def tells_words(self):
        at, read = self.reads()
        return read[:1] + [TELL, Tells(at + at % 2 if at < TOP - 4 else STACK, self.rng.choice((1, 2, 4)))]

    def reads_none(self):
        """A read of no bytes, at any address: it waits for a line all the same."""
        return [Call(READ, self.rng.choice((1, 0o60000, STACK)), 0, r0=FD), TELL]

    def flags(self):
        return sum(mode for mode in MODES if self.odd(0.6 if mode != RAW else 0.3)) | self.more_flags()

    def more_flags(self):
        return self.rng.getrandbits(16) & ~0o76 if self.odd(0.3) else 0

    def key(self, usual):
        return ord(usual) if self.odd(0.4) else self.rng.choice(KEYS)

    def sets(self):
        keys = self.key("#") | self.key("@") << 8
        return [Sets((self.rng.getrandbits(16), keys, self.flags()), self.fd())]

    def gets(self):
        """The modes are told as words, written as bytes, or some of them changed and set."""
        at = STACK + 2 * self.rng.randrange(500)
        get = [Call(GTTY, at, r0=self.fd())]
        kind = self.rng.choice(("words", "bytes", "change", "change"))
        if kind == "words":
            return get + [TELL, Tells(at, 3)]
        if kind == "bytes":
            return get + [Code(0o012737, 6, "count"), Echoes(at)]     # MOV #6,@#count
        mode = self.rng.choice(MODES)
        change = self.rng.choice((0o052737, 0o042737))                # BIS, BIC
        return get + [Code(change, mode, at + 4), Call(STTY, at, r0=FD), TELL]

    def writes(self):
        some = b"\t\t\b\r\n\x04{}|~`'azAZ \x7f\x80\xe1"
        data = bytes(self.rng.choice(some) for _ in range(self.rng.randrange(1, 20)))
        return [Writes(self.rng.randbytes(self.rng.randrange(1, 9)) if self.odd(0.3) else data)]

    def opens(self):
        return [Call(OPEN, (CONSOLE, 0), self.rng.choice((2, 2, 2, 0, 1))), TELL]

    def opens_anew(self):
        """The console is closed, perhaps under each of its numbers; what is typed meanwhile is lost."""
        closes = [Call(CLOSE, r0=fd) for fd in range(FD, self.rng.choice((1, 2, 15)))]
        waits = [Waits(self.rng.choice((1, 30, 200)))] * self.odd(0.7)
        return closes + waits + [Call(OPEN, (CONSOLE, 0), self.rng.choice((2, 2, 2, 2, 0, 1))), TELL]

    def gives_again(self):
        return [Call(DUP, r0=FD), TELL] + [Call(CLOSE, r0=self.rng.randrange(3)), TELL] * self.odd(0.5)

    def refuses(self):
        """A call that is refused before its bad address is looked at."""
        at, number = self.rng.choice((1, 0o60000, STACK)), self.rng.choice((STTY, GTTY, READ, WRITE))
        if number in (READ, WRITE):
            return [Call(number, at, 5, r0=15), TELL]
        name = self.rng.choice([NULL] + self.files[:4])
        opened = [Call(OPEN, (name, 0), 0, keep=True), Code(0o103401, 0o010005)]         # BCS .+4; MOV R0,R5
        return opened + [Call(number, at, r0="last"), TELL, Call(CLOSE, r0="last"), Code(0o012705, 15)]

    def seeks(self):
        return [Call(SEEK, self.rng.choice((0, 5, 512)), self.rng.choice((0, 1, 3)), r0=FD), TELL]

    def tells_status(self):
        """The status of the console; its last words are its times."""
        return [Call(FSTAT, STACK, r0=FD), TELL] + [Tells(STACK + 28, 4)] * self.odd(0.5)

    def uses_file(self):
        """A file is made or changed, with the time of the moment."""
        name = self.rng.choice(self.files[:4] + ["/u/new", "/new", "/u/made"])
        calls = (Call(8, (name, 0), 0o644), Call(15, (name, 0), self.rng.choice((0o644, 0o700))), Call(10, (name, 0)),
                 Call(14, (name, 0), 0o100644, 0), Call(36), Call(9, (name, 0), ("/u/link", 0)))
        call = self.rng.choice(calls)
        return [call, TELL] + [Call(CLOSE, r0=self.rng.randrange(1, 3))] * (call.number == 8)

    def waits(self):
        return [Waits(self.rng.choice((1, 10, 50, 300)))]

    def step(self):
        kinds = ((self.echoes, 10), (self.changes, 4), (self.tells, 4), (self.tells_words, 4), (self.reads_none, 1),
                 (self.sets, 4), (self.gets, 4), (self.writes, 3), (self.opens, 1), (self.opens_anew, 2),
                 (self.gives_again, 1), (self.refuses, 1), (self.seeks, 1), (self.tells_status, 2), (self.uses_file, 2),
                 (self.waits, 2))
        return self.rng.choices([kind for kind, _ in kinds], [weight for _, weight in kinds])[0]()

    def broken(self):
        """A call or an instruction that makes a signal."""
        bad = self.rng.choice((0o60000, 0o60001, STACK - 1, STACK - 3))
        odd = self.rng.choice((STACK + 1, STACK - 2, 0o60000))
        kinds = (Call(READ, bad, 5, r0=FD), Call(READ, bad, 5, r0=FD), Call(WRITE, bad, 7, r0=FD),
                 Call(STTY, odd, r0=FD), Call(GTTY, odd, r0=FD), Call(self.rng.choice(NO_CALLS), r0=FD),
                 Code(self.rng.choice(NO_INSTRUCTIONS)))
        return [self.rng.choice(kinds)]


def random_program(rng, tree):
    """A program over this disk, with as many steps as there is room for."""
    chooser = Chooser(rng, tree)
    first = [[Call(OPEN, (CONSOLE, 0), rng.choice((2, 2, 2, 2, 2, 2, 2, 0, 1))), TELL]]
    first += [chooser.sets() for _ in range(rng.randrange(2))] + [chooser.step() for _ in range(rng.randrange(2))]
    body = [chooser.echoes()] + [chooser.step() for _ in range(rng.randrange(1, 8))]
    rng.shuffle(body)
    chance = rng.random()
    rounds = rng.choice((1, 1, 2, 3, 5)) if chance < 0.3 else 0
    ending = [chooser.broken()] if chance < 0.12 else [[Call(EXIT, r0=3)]] if chance < 0.25 else []
    program = Program(first, body, ending, chooser.room, rounds)
    while len(assembled(program)) > MOST_BYTES:
        program.body.pop()
    return program
