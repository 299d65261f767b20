"""Programs made at random of many processes, for /etc/init of a small disk, and scripts for them.

A program opens the console and does steps. A step makes a child or some, waits for them, sleeps, exits, makes
another call on processes, uses a file that processes share, reads what is typed, or just computes, so that a tick
may come between. What a step comes to is told as in random_program: a line of C and R0. A child does steps of its
own, and then exits, stays in one place, or goes on with its parent's steps.
"""
import struct

from judge.random.console import CHANGES, CONSOLE, KEEP, NO_CALLS, NO_INSTRUCTIONS, Changes, Echoes
from judge.random.program import (CALLS, EXIT, MOST_BYTES, STACK, TRAP, Call, Words, put_call, tell_on_console, tell_words,
                            with_skip)
from judge.random.script import Script, Typist

INDIRECT, FORK, READ, WRITE, OPEN, CLOSE, WAIT, CREAT, LINK, UNLINK = 0, 2, 3, 4, 5, 6, 7, 8, 9, 10
CHDIR, TIME, MKNOD, CHMOD, SEEK, GETPID, SETUID, GETUID, STIME, FSTAT = 12, 13, 14, 15, 19, 20, 23, 24, 25, 28
SMDATE, STTY, GTTY, NICE, SLEEP, SYNC, CSW, DUP, TIMES, SETGID, GETGID = 30, 31, 32, 34, 35, 36, 38, 41, 43, 46, 47
NAMES = {**CALLS, INDIRECT: "indir", EXIT: "exit", FORK: "fork", WAIT: "wait", TIME: "time", GETPID: "getpid",
         SETUID: "setuid", GETUID: "getuid", STIME: "stime", SMDATE: "smdate", STTY: "stty", GTTY: "gtty", NICE: "nice",
         SLEEP: "sleep", CSW: "csw", TIMES: "times", SETGID: "setgid", GETGID: "getgid"}
FD = 0  # the number of the console, and of what is told
VARIABLES = 4
NICES = (0, 1, 4, 19, 20, 21, 27, 100, 127, 128, 255, 256, -1, -2, -20, -100, -128, -129, -256, -32768, 32767)
SECONDS = (0, 0, 1, 1, 1, 1, 2, 2, 2, 3, 3, 4, 5, 10)
LONG = (60, 3600, 32767, 32768, 65535)
DELAYS = (1, 5, 20, 100, 300, 1000, 3000)
STATUSES = (0, 1, 2, 3, 127, 128, 255, 256, 259, 65535)
TO_R0 = 0o010000  # MOV Rn,R0 is this with n in bits 6 to 8


class Program:
    """What comes first, the steps, how the first process ends, and the words that calls are named by indirectly."""

    def __init__(self, first, steps, ending):
        self.first, self.steps, self.ending = first, steps, ending

    def all_steps(self):
        return self.first + self.steps + self.ending


class Code:
    """Words as they stand; a text is a label."""

    def __init__(self, *words):
        self.words = words

    def put(self, w):
        w.put(*self.words)


TELL = Code(0o004737, "tell")  # JSR PC,@#tell


class Does(Code):
    """A call, with what R0 and R1 hold before it where that is given, and the telling of R0, or of R0 and R1."""

    def __init__(self, call, tells=1, r1=None):
        self.call, self.tells, self.r1 = call, tells, r1

    def put(self, w):
        if self.r1 is not None:
            w.put(0o012701, self.r1)                                 # MOV #r1,R1
        put_call(w, self.call)
        if self.call.keep:
            w.put(0o103401, 0o010005)                                # BCS .+4; MOV R0,R5
        if self.tells:
            TELL.put(w)
        if self.tells == 2:
            w.put(TO_R0 | 0o100, *TELL.words)                        # MOV R1,R0; JSR PC,@#tell


class Indirectly(Code):
    """A call whose word and arguments stand elsewhere."""

    def __init__(self, number, args, r0, tells=1):
        self.number, self.args, self.r0, self.tells = number, args, r0, tells

    def words_there(self):
        return (TRAP | self.number, *self.args)

    def label(self):
        return "@" + " ".join(str(word) for word in self.words_there())

    def put(self, w):
        if self.r0 is not None:
            w.put(0o012700, self.r0)
        self.at = w.at()
        w.put(TRAP | INDIRECT, self.label())
        if self.tells:
            TELL.put(w)


class Forks(Code):
    """A fork. The child, which comes to the word after it, does its steps; the parent passes that word, and tells what
    it has got."""

    def __init__(self, child, tells, at=None):
        self.child, self.tells, self.indirect = child, tells, at

    def put(self, w):
        label = f"parent {w.at()}"
        self.at = w.at()
        w.put(*(self.indirect or (TRAP | FORK,)), 0o000402, 0o000137, label)     # fork; BR .+6; JMP @#parent
        put_steps(w, self.child)
        w.label(label)
        if self.tells:
            TELL.put(w)


class ForksMany(Code):
    """As many forks as R2 counts down. Each child finds its count in R2."""

    def __init__(self, count, child, tells):
        self.count, self.child, self.tells = count, child, tells

    def put(self, w):
        label = f"parent {w.at()}"
        w.put(0o012702, self.count)                                  # MOV #count,R2
        self.at = w.at()
        tells = TELL.words if self.tells else ()
        w.put(TRAP | FORK, 0o000403 + len(tells), *tells)            # fork; BR child; JSR PC,@#tell
        w.put(0o077200 | 3 + len(tells), 0o000137, label)            # SOB R2,fork; JMP @#parent
        put_steps(w, self.child)
        w.label(label)


class WaitsForAll(Code):
    """Waits for one child after another, and tells its pid and status, until there is none."""

    def put(self, w):
        first, label = w.at(), f"none {w.at()}"
        self.at = first
        w.label(f"more {first}")
        w.put(TRAP | WAIT, 0o103002, 0o000137, label, *TELL.words)   # wait; BCC .+6; JMP @#none; JSR PC,@#tell
        w.put(TO_R0 | 0o100, *TELL.words, 0o000137, f"more {first}")  # MOV R1,R0; JSR PC,@#tell; JMP @#more
        w.label(label)


class Rounds(Code):
    """Does steps some times over. The count is kept in memory, so each process has its own."""

    def __init__(self, count, steps, place):
        self.count, self.steps, self.place = count, steps, place

    def put(self, w):
        label = f"round {w.at()}"
        w.put(0o012737, self.count, self.place)                      # MOV #count,@#place
        w.label(label)
        put_steps(w, self.steps)
        w.put(0o005337, self.place, 0o001402, 0o000137, label)       # DEC @#place; BEQ .+6; JMP @#round


class Counts(Code):
    """Adds 1 to a word of memory over and over, and tells it."""

    def __init__(self, count, place):
        self.count, self.place = count, place

    def put(self, w):
        w.put(0o012701, self.count, 0o005237, self.place, 0o077103)  # MOV #count,R1; INC @#place; SOB R1,.-4
        w.put(0o013700, self.place, *TELL.words)                     # MOV @#place,R0; JSR PC,@#tell


def said(step):
    """A line of the listing."""
    call = getattr(step, "call", None)
    if isinstance(call, Call):
        return " ".join([type(step).__name__, NAMES.get(call.number, str(call.number)), *str(call).split(" ")[1:]])
    if isinstance(step, Indirectly):
        return f"Indirectly {NAMES.get(step.number, step.number)} {step.args} with {step.r0} in R0"
    values = [f"{key} {value}" for key, value in vars(step).items() if isinstance(value, (int, bool)) and key != "at"]
    words = [word if isinstance(word, str) else f"{word:o}" for word in getattr(step, "words", ())]
    return " ".join([type(step).__name__, *values, *words])


def listed(steps, depth=0):
    for step in steps:
        yield f"{getattr(step, 'at', ''):>6}  {'  ' * depth}{said(step)}"
        yield from listed(inside(step), depth + 1)


def inside(step):
    """The steps of a child, or of a round."""
    return getattr(step, "child", None) or getattr(step, "steps", [])


def flat(steps):
    """The steps with those inside of them."""
    for step in steps:
        yield step
        yield from flat(inside(step))


def put_steps(w, steps):
    for step in steps:
        step.at = w.at()
        step.put(w)


def assembled(program, base=0, words=()):
    """The bytes of the program, of which the first is at an address. It has these words too, under their labels."""
    w = Words()
    w.put(*[0] * (base // 2))
    w.put(0o000137, "start")                                         # JMP @#start
    w.label("count")
    w.put(0)
    steps = list(flat(program.all_steps()))
    for i in range(VARIABLES):
        w.label(f"v{i}")
        w.put(0)
    for name, word in words:
        w.label(name)
        w.put(word)
    calls = [step.call for step in steps if isinstance(getattr(step, "call", None), Call)]
    for name in sorted({arg[0] for call in calls for arg in call.args if isinstance(arg, tuple)}):
        w.label("=" + name)
        w.data(name.encode() + b"\0")
    for step in steps:
        if isinstance(step, Indirectly) and step.label() not in w.labels:
            w.label(step.label())
            w.put(*step.words_there())
    w.label("@fork")
    w.put(TRAP | FORK)
    tell_on_console(w, FD)
    tell_words(w)
    w.label("start")
    w.put(0o012705, 15)                                              # MOV #15.,R5: nothing is open there
    put_steps(w, program.all_steps())
    w.put(*[0o000777] * 5)                                           # BR .
    w.label("end")
    w.words = [with_skip(w, word) for word in w.words]
    return w.bytes()[base:]


def init_of(program):
    """The file /etc/init."""
    body = assembled(program)
    return struct.pack("<8H", 0o407, len(body), 0, 0, 0, 0, 0, 0) + body


class Chooser:
    """Chooses steps."""

    def __init__(self, rng, tree):
        self.rng = rng
        consoles = tree.consoles()
        plain = [path for path, ino in tree.paths if ino not in tree.entries and ino not in consoles]
        self.files = [path for path in plain if not tree.inodes[dict(tree.paths)[path]].is_device() and tree.has(path)]
        self.names = self.files[:4] + ["/u/new", "/new", "/u/made"]

    def odd(self, chance):
        return self.rng.random() < chance

    def variable(self):
        return f"v{self.rng.randrange(VARIABLES)}"

    def buffer(self):
        return STACK + 2 * self.rng.randrange(400)

    # calls on processes

    def one_child(self, depth):
        child = self.child(depth)
        indirect = (TRAP | INDIRECT, "@fork") if self.odd(0.1) else None
        return [Forks(child, self.odd(0.6), indirect)]

    def many_children(self, depth):
        count = self.rng.choice((2, 3, 3, 5, 8, 12, 20, 48, 60))
        return [ForksMany(count, self.child(depth, in_r2=True), self.odd(0.3))]

    def child(self, depth, in_r2=False):
        """The steps of a child. Its end: an exit, the place where it stays, or the steps of its parent."""
        steps = self.by_r2() if in_r2 else []
        for _ in range(self.rng.choice((0, 1, 1, 2, 3))):
            steps += self.step(depth + 1)
        chance = self.rng.random()
        if chance < 0.6:
            return steps + self.exits(in_r2)
        if chance < 0.62:
            return steps + self.broken()
        return steps + ([Code(0o000777)] if chance < 0.75 else [])

    def by_r2(self):
        """Some steps by the count in R2: a sleep, nice, a delay, or a telling of it."""
        kinds = ((TO_R0 | 0o200, 0o042700, 0o177770, TRAP | SLEEP), (TO_R0 | 0o200, TRAP | NICE),
                 (TO_R0 | 0o200, 0o005400, TRAP | NICE), (0o010201, 0o077101), (TO_R0 | 0o200, *TELL.words))
        return [Code(*words) for words in kinds if self.odd(0.3)]

    def exits(self, in_r2=False):
        if in_r2 and self.odd(0.5):
            return [Code(TO_R0 | 0o200, TRAP | EXIT)]                # MOV R2,R0; exit
        if self.odd(0.1):
            return [Indirectly(EXIT, (), self.rng.choice(STATUSES), 0)]
        return [Does(Call(EXIT, r0=self.rng.choice(STATUSES)), 0)]

    def exits_soon(self, _):
        return self.exits() if self.odd(0.15) else self.delays(_)

    def waits(self, _):
        if self.odd(0.5):
            return [WaitsForAll()]
        return [Indirectly(WAIT, (), None) if self.odd(0.1) else Does(Call(WAIT), 2)]

    def sleeps(self, _):
        seconds = self.rng.choice(SECONDS if self.odd(0.95) else LONG)
        if self.odd(0.1):
            return [Indirectly(SLEEP, (), seconds)]
        return [Does(Call(SLEEP, r0=seconds), self.rng.choice((0, 1, 1)))]

    def nices(self, _):
        return [Does(Call(NICE, r0=self.rng.choice(NICES) & 0o177777), self.rng.choice((0, 1)))]

    def asks(self, _):
        number = self.rng.choice((GETPID, GETPID, GETUID, GETGID, TIME, CSW, TIME))
        if self.odd(0.1):
            return [Indirectly(number, (), None)]
        return [Does(Call(number), 2 if number == TIME else 1)]

    def times(self, _):
        at = self.buffer()
        tells = [Code(0o012704, at, 0o012703, 6, 0o004737, "word")] * self.odd(0.8)      # MOV #at,R4; MOV #6,R3
        if self.odd(0.1):
            return [Indirectly(TIMES, (at,), None), *tells]
        return [Does(Call(TIMES, at), 0), *tells]

    def sets_time(self, _):
        """The time: set by a few seconds from one that is told, far away, or to its end."""
        if self.odd(0.6):
            change = self.rng.choice((0o062701, 0o162701))           # ADD, SUB #some,R1
            some = self.rng.choice((0, 1, 2, 3, 4, 5, 60))
            return [Code(TRAP | TIME, change, some, TRAP | STIME, *TELL.words)]
        high, low = self.rng.choice(((0, 0), (65535, 65534), (0, 65535), (1, 0), (self.rng.getrandbits(16), 3)))
        return [Does(Call(STIME, r0=high), 1, r1=low)]

    def sets_id(self, _):
        value = self.rng.choice((0, 0, 1, 7, 255, 256, 0o403))
        return [Does(Call(self.rng.choice((SETUID, SETUID, SETGID)), r0=value))]

    def does_nothing(self, _):
        kinds = (Does(Call(SMDATE, self.rng.choice((1, 0o60000)), r0=self.rng.getrandbits(16))), Does(Call(SYNC)),
                 Indirectly(INDIRECT, (), self.rng.getrandbits(16)), Does(Call(INDIRECT, self.buffer()), 0))
        step = self.rng.choice(kinds)
        if isinstance(step, Does) and step.call.number == INDIRECT:
            at = step.call.args[0]
            return [Code(0o012737, TRAP | GETPID, at), step, TELL]   # MOV #getpid,@#at; indir at
        return [step]

    # files and the console

    def opens_file(self, _):
        name = (self.rng.choice(self.names), 0)
        if self.odd(0.4):
            return [Does(Call(CREAT, name, 0o666, keep=True))]
        return [Does(Call(OPEN, name, self.rng.choice((0, 1, 2, 2)), keep=True))]

    def uses_file(self, _):
        at, count = self.buffer(), self.rng.choice((0, 1, 5, 16, 100, 513))
        count = min(count, 65536 - at)
        kinds = (Call(WRITE, self.rng.choice((at, 0)), count, r0="last"), Call(WRITE, 0, 20, r0="last"),
                 Call(SEEK, self.rng.choice((0, 0, 3, 512)), self.rng.choice((0, 0, 1, 2)), r0="last"),
                 Call(CLOSE, r0="last"), Call(DUP, r0="last", keep=self.odd(0.5)),
                 Call(READ, at, count, r0="last"))
        if self.odd(0.35):
            return self.echoes(at, Call(READ, at, min(count, 30), r0="last"))
        return [Does(self.rng.choice(kinds), self.rng.choice((0, 1, 1)))]

    def tells_status(self, _):
        """The status of a file or of the console: its size, or its times."""
        at, fd = self.buffer(), self.rng.choice(("last", "last", FD))
        place, count = self.rng.choice(((0, 2), (6, 2), (28, 4), (28, 4)))
        return [Does(Call(FSTAT, at, r0=fd)), Code(0o012704, at + place, 0o012703, count, 0o004737, "word")]

    def changes_names(self, _):
        name = (self.rng.choice(self.names), 0)
        kinds = (Call(UNLINK, name), Call(UNLINK, name), Call(LINK, name, ("/u/link", 0)), Call(UNLINK, ("/u/link", 0)),
                 Call(CHMOD, name, self.rng.choice((0, 0o644, 0o777))), Call(CHDIR, (self.rng.choice(("/", "/u")), 0)),
                 Call(MKNOD, name, 0o100644, 0))
        return [Does(self.rng.choice(kinds))]

    def echoes(self, at, read):
        """A read, of which the bytes are written to the console, perhaps changed."""
        changes = [Changes(at, self.rng.choice(list(CHANGES.values())))] if self.odd(0.3) else []
        return [Does(read, 0), KEEP, *changes, Echoes(at)]

    def reads_console(self, _):
        at = self.buffer()
        count = min(self.rng.choice((1, 3, 10, 80, 80)), 65536 - at)
        if self.odd(0.3):
            return [Does(Call(READ, at, count, r0=FD))]
        return self.echoes(at, Call(READ, at, count, r0=FD))

    def changes_console(self, _):
        """The console is opened anew, perhaps after a close, or written to."""
        kinds = ([Does(Call(CLOSE, r0=FD), 0), Does(Call(OPEN, (CONSOLE, 0), 2))],
                 [Does(Call(OPEN, (CONSOLE, 0), self.rng.choice((0, 1, 2)), keep=True))],
                 [Does(Call(CLOSE, r0=FD), 0)], [Does(Call(WRITE, 0, self.rng.choice((1, 7, 40)), r0=FD))])
        return self.rng.choices(kinds, (3, 2, 1, 3))[0]

    # the rest

    def delays(self, _):
        return [Code(0o012701, self.rng.choice(DELAYS), 0o077101)]   # MOV #count,R1; SOB R1,.

    def counts(self, _):
        return [Counts(self.rng.choice((1, 10, 200)), self.variable())]

    def tells_registers(self, _):
        register = self.rng.randrange(1, 6)
        return [Code(TO_R0 | register << 6, *TELL.words)]            # MOV Rn,R0; JSR PC,@#tell

    def rounds(self, depth):
        steps = self.step(depth + 1) + (self.step(depth + 1) if self.odd(0.5) else [])
        return [Rounds(self.rng.choice((2, 3, 5, 30)), steps, self.variable())]

    def step(self, depth):
        deep = max(0, 2 - depth)
        kinds = ((self.one_child, 6 * deep), (self.many_children, 2 * deep), (self.waits, 7), (self.sleeps, 6),
                 (self.nices, 3), (self.asks, 3), (self.times, 2), (self.sets_time, 2), (self.sets_id, 1),
                 (self.does_nothing, 1), (self.opens_file, 2), (self.uses_file, 6), (self.tells_status, 1),
                 (self.changes_names, 1), (self.reads_console, 3), (self.changes_console, 1), (self.delays, 4),
                 (self.counts, 3), (self.tells_registers, 1), (self.rounds, 2 * deep), (self.exits_soon, 1))
        return self.rng.choices([kind for kind, _ in kinds], [weight for _, weight in kinds])[0](depth)

    def broken(self):
        """A call or an instruction that makes a signal."""
        bad, number = self.rng.choice((0o60000, STACK - 1, STACK - 3)), self.rng.choice(NO_CALLS[1:])
        kinds = (Does(Call(READ, bad, 5, r0=FD)), Does(Call(WRITE, bad, 7, r0=FD)), Does(Call(TIMES, STACK - 2)),
                 Does(Call(number, r0=FD)), Code(self.rng.choice(NO_INSTRUCTIONS)), Indirectly(number, (), FD),
                 Does(Call(INDIRECT, 0o60000), 0), Code(0o005037, STACK - 2))        # CLR @#below the stack
        return [self.rng.choice(kinds)]


def random_program(rng, tree):
    """A program over this disk, with as many steps as there is room for."""
    chooser = Chooser(rng, tree)
    first = [Does(Call(OPEN, (CONSOLE, 0), rng.choice((2, 2, 2, 2, 2, 2, 2, 0, 1))), rng.choice((0, 1)))]
    chance = rng.random()
    ending = chooser.broken() if chance < 0.1 else [WaitsForAll()] if chance < 0.5 else []
    ending += chooser.exits() if rng.random() < 0.1 else []
    steps = chooser.one_child(0) if rng.random() < 0.6 else chooser.many_children(0)
    program = Program(first, steps, ending)
    most = rng.choice((600, 1000, 1400, MOST_BYTES))
    while len(assembled(program)) <= most:
        steps, program = program.steps, Program(first, program.steps + chooser.step(0), ending)
    return Program(first, steps, ending)


class Operator(Typist):
    """Chooses lines of a script for many processes: many slots and many ticks."""

    def __init__(self, rng, slots=(1000, 4000, 8000, 12000, 20000)):
        super().__init__(rng)
        self.most = rng.choice(slots)

    def clock(self):
        self.put(b"clock %d" % self.rng.choice((0, 1, 1, 2, 3, 5, 7, 10, 30, 60, 100)))

    def ticks(self):
        self.put(*[b"tick"] * self.rng.choice((1, 1, 2, 30, 59, 60, 61, 119, 120, 240)))

    def ticks_and_runs(self):
        """Seconds that pass with a few slots between them."""
        for _ in range(self.rng.randrange(1, 6)):
            self.put(*[b"tick"] * self.rng.choice((30, 59, 60, 60, 61)))
            self.runs(self.rng.choice((1, 2, 5, 20, 80)))

    def line(self):
        kinds = ((self.runs, 10), (self.types_and_runs, 5), (self.types, 2), (self.bytes, 1), (self.ends_file, 2),
                 (self.ticks, 3), (self.ticks_and_runs, 3), (self.clock, 4), (self.disk, 3), (self.pace, 4),
                 (self.chooses_line, 1), (self.switch, 1), (self.remark, 1))
        self.rng.choices([kind for kind, _ in kinds], [weight for _, weight in kinds])[0]()


def script_by(operator, clocked):
    """The lines that an operator chooses, most often under a clock, often with disk waits and paced output."""
    rng = operator.rng
    if rng.random() < clocked:
        operator.clock()
    if rng.random() < 0.4:
        operator.disk()
    if rng.random() < 0.5:
        operator.pace()
    while operator.slots < operator.most:
        operator.line()
    return Script(operator.lines, [b"\n"] * len(operator.lines))


def random_script(rng, *slots):
    return script_by(Operator(rng, *slots), 0.8)
