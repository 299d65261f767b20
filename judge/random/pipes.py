"""Programs made at random whose processes talk through pipes, for /etc/init of a small disk.

A program keeps the numbers of the ends of some pipes in words of its memory, which a child has as its parent left them. Its steps
are those of random_processes, and others that make pipes, read and write them, close their ends, give them once more, and ask about
them. Some writes are larger than a pipe, some reads find nothing, some ends are used the wrong way, and many processes may hold so
many ends that no number, no open file, no inode or no block is left. Some ignore or catch the signal of a broken pipe, and some are
sent signals while they wait.
"""
import struct

from judge.random.processes import (CLOSE, DUP, FSTAT, READ, SEEK, STACK, TELL, TO_R0, TRAP, WRITE, Call, Chooser, Code, Does, Forks, ForksMany,
                              Program, Rounds, WaitsForAll, assembled)
from judge.random.processes import NAMES
from judge.random.program import MOST_BYTES
from judge.random.console import CONSOLE
from judge.random.signals import KILL, SIGNAL, Asks

PIPE, OPEN = 42, 5
NAMES.update({PIPE: "pipe"})
PIPES = 3
BSS = 12000
COUNTS = (0, 1, 2, 5, 16, 40, 100, 500, 511, 512, 513, 1000, 2048, 3000, 4000, 4095, 4096, 4097, 5000, 8192, 9000)
FEW = (0, 1, 1, 2, 5, 16, 40, 100, 300)


def reading(i):
    return f"r{i}"


def writing(i):
    return f"w{i}"


class MakesPipe(Code):
    """A pipe, of which the ends are kept, and told."""

    def __init__(self, i, tells):
        self.i, self.tells = i, tells

    def put(self, w):
        self.at = w.at()
        w.put(TRAP | PIPE, 0o103404, 0o010037, reading(self.i), 0o010137, writing(self.i))   # pipe; BCS .+12; MOV R0,@#r; MOV R1,@#w
        if self.tells:
            w.put(*TELL.words, TO_R0 | 0o100, *TELL.words)                                    # and R1


class OnEnd(Code):
    """A call on an end, whose number is kept in a word; its arguments, which may be labels; whether R0 is told, and where R0 goes."""

    def __init__(self, number, end, *args, tells=True, to=None):
        self.number, self.end, self.args, self.tells, self.to = number, end, args, tells, to

    def put(self, w):
        w.put(0o013700, self.end)                                    # MOV @#end,R0
        self.at = w.at()
        w.put(TRAP | self.number, *self.args)
        if self.to:
            w.put(0o103402, 0o010037, self.to)                       # BCS .+6; MOV R0,@#to
        if self.tells:
            TELL.put(w)


class Sums(Code):
    """Tells the sum of some words of memory."""

    def __init__(self, at, count):
        self.from_, self.count = at, count

    def put(self, w):
        self.at = w.at()
        w.put(0o012701, self.from_, 0o012702, self.count, 0o005000)  # MOV #at,R1; MOV #count,R2; CLR R0
        w.put(0o062100, 0o077202, *TELL.words)                       # ADD (R1)+,R0; SOB R2,.-2


class Shows(Code):
    """Shows some bytes of memory on the console."""

    def __init__(self, at, count):
        self.from_, self.count = at, count

    def put(self, w):
        self.at = w.at()
        w.put(0o005000, TRAP | WRITE, self.from_, self.count)        # CLR R0; write at count


class PipeChooser(Chooser):
    """Chooses steps of programs whose processes talk through pipes."""

    def __init__(self, rng, tree):
        super().__init__(rng, tree)
        self.names = self.names + ["/gone", "/b", "/u/gone", "/u/b"]  # they may name an inode that a pipe takes later

    def step(self, depth):
        deep = max(0, 2 - depth)
        own = ((self.makes_pipe, 5), (self.reads, 9), (self.writes, 9), (self.closes, 5), (self.gives_again, 2), (self.asks_end, 2),
               (self.wrong_way, 1), (self.talks, 5 * deep), (self.many_hold, deep), (self.pipe_rounds, 2 * deep), (self.fills, 1), (self.asks_signal, 2), (self.sends, 2))
        if self.odd(0.25):
            return super().step(depth)
        return self.rng.choices([kind for kind, _ in own], [weight for _, weight in own])[0](depth)

    def pipe(self):
        return self.rng.choices(range(PIPES), (6, 2, 1))[0]

    def place(self):
        """Where bytes come from or go to: after the program, or the program itself, which is only read."""
        return ("end", 2 * self.rng.randrange(600))

    def makes_pipe(self, _):
        return [MakesPipe(self.pipe(), self.odd(0.7))]

    def reads(self, _):
        at, count = self.place(), self.rng.choice(COUNTS if self.odd(0.6) else FEW)
        if self.odd(0.01):
            count = 65535
        more = []
        if self.odd(0.4):
            more = [Shows(at, self.rng.choice((5, 16, 40)))]
        elif self.odd(0.5):
            more = [Sums(at, self.rng.choice((1, 8, 50, 256)))]
        return [OnEnd(READ, reading(self.pipe()), at, count, tells=self.odd(0.8)), *more]

    def writes(self, _):
        count = self.rng.choice(COUNTS if self.odd(0.5) else FEW)
        at = self.rng.choice((0, 2, 11, self.place())) if count < 1000 else self.rng.choice((0, 7, self.place()))
        if self.odd(0.02):
            count = self.rng.choice((65535, 20000))
        if self.odd(0.02):
            at = STACK - 100
        return [OnEnd(WRITE, writing(self.pipe()), at, count, tells=self.odd(0.8))]

    def end(self):
        return self.rng.choice((reading, writing))(self.pipe())

    def closes(self, _):
        return [OnEnd(CLOSE, self.end(), tells=self.odd(0.3))]

    def gives_again(self, _):
        kind = self.rng.choice((reading, writing))
        return [OnEnd(DUP, kind(self.pipe()), tells=self.odd(0.8), to=kind(self.pipe()))]

    def asks_end(self, _):
        if self.odd(0.3):
            return [OnEnd(SEEK, self.end(), self.rng.choice((0, 3)), self.rng.choice((0, 1, 2, 3)))]
        at = STACK + 2 * self.rng.randrange(400)
        place, count = self.rng.choice(((2, 3), (4, 3), (8, 4), (10, 1), (28, 4)))
        return [OnEnd(FSTAT, self.end(), at), Code(0o012704, at + place, 0o012703, count, 0o004737, "word")]

    def wrong_way(self, _):
        if self.odd(0.5):
            return [OnEnd(READ, writing(self.pipe()), self.place(), 5)]
        return [OnEnd(WRITE, reading(self.pipe()), 0, 5)]

    def asks_signal(self, _):
        """What a signal shall do: mostly that of a broken pipe."""
        sig = self.rng.choice((13, 13, 13, 13, 2, 12, 15))
        if self.odd(0.5):
            return [Code(TRAP | SIGNAL, sig, self.rng.choice((0, 1, 1, 1)), *(TELL.words if self.odd(0.3) else ()))]
        return [Asks(sig, self.rng.choice(("tells", "counts", "pushed", "again", "again", "calls")), 0, self.odd(0.3))]

    def sends(self, _):
        """A signal for a process that may wait in a pipe."""
        whom = self.rng.choice(((0o012700, self.rng.choice((2, 3, 4, 5))), (0o012700, 2), (0o005000,), (0o012700, 1)))
        return [Code(*whom, TRAP | KILL, self.rng.choice((2, 13, 15, 15, 9)), *(TELL.words if self.odd(0.6) else ()))]

    def some(self, kinds, most):
        steps = []
        for _ in range(self.rng.randrange(1, most)):
            steps += self.rng.choice(kinds)(2)
        return steps

    def talks(self, depth):
        """A pipe, and a child that does one part while its parent does the other."""
        i = self.pipe()
        parts = ([(self.reads, self.reads, self.reads, self.delays)], [(self.writes, self.writes, self.writes, self.delays)])
        first, second = parts if self.odd(0.5) else parts[::-1]
        ends = (writing(i), reading(i)) if first is parts[0] else (reading(i), writing(i))
        closes = [OnEnd(CLOSE, ends[0], tells=False)] * self.odd(0.5)
        child = [*closes, *self.some(*first, 5), *(self.step(depth + 1) if self.odd(0.3) else []), *self.exits()]
        mine = [OnEnd(CLOSE, ends[1], tells=False)] * self.odd(0.35) + self.some(*second, 5)
        if self.odd(0.5):
            mine += [OnEnd(CLOSE, ends[0], tells=False)]
        if self.odd(0.4):
            mine += [WaitsForAll()]
        return [MakesPipe(i, self.odd(0.3)), Forks(child, self.odd(0.3)), *mine]

    def many_hold(self, depth):
        """Many children that make pipes of their own, or read from one that all have."""
        steps = self.some((self.makes_pipe, self.makes_pipe, self.reads, self.writes, self.closes), 6)
        steps += self.exits() if self.odd(0.4) else [Code(0o000777)]
        return [ForksMany(self.rng.choice((2, 3, 5, 8, 12, 20)), self.by_r2() + steps, self.odd(0.3))]

    def pipe_rounds(self, depth):
        kinds = self.rng.choice(((self.reads,), (self.writes,), (self.reads, self.writes), (self.makes_pipe,)))
        return [Rounds(self.rng.choice((2, 3, 8, 10)), self.some(kinds, 3), self.variable())]

    def fills(self, _):
        """Numbers that are used: a file is opened over and over."""
        opens = Does(Call(OPEN, (CONSOLE, 0), 2), self.odd(0.2))
        return [Rounds(self.rng.choice((5, 10, 12, 13, 14)), [opens], self.variable()), MakesPipe(self.pipe(), True)]


class PipeProgram(Program):
    """The same, with words for the ends of pipes: nothing is open there at first."""


def ends_of_pipes():
    return [(label(i), 15) for i in range(PIPES) for label in (reading, writing)]


def random_program(rng, tree):
    """A program over this disk, with as many steps as there is room for."""
    chooser = PipeChooser(rng, tree)
    first = [Does(Call(OPEN, (CONSOLE, 0), 2), 0), MakesPipe(0, rng.random() < 0.5)]
    for sig in (13, 2, 3, 12, 15):
        if rng.random() < 0.8:
            first.append(Code(TRAP | SIGNAL, sig, 1) if rng.random() < 0.5 else Asks(sig, rng.choice(("again", "again", "counts")), 0, False))
    ending = [WaitsForAll()] if rng.random() < 0.5 else []
    steps = chooser.talks(0) if rng.random() < 0.7 else []
    program = PipeProgram(first, steps, ending)
    most = rng.choice((600, 1000, 1400, MOST_BYTES))
    while len(assembled(program, words=ends_of_pipes())) <= most:
        steps, program = program.steps, PipeProgram(first, program.steps + chooser.step(0), ending)
    return PipeProgram(first, steps, ending)


def init_of(program):
    """The file /etc/init, with room for bytes after it."""
    body = assembled(program, words=ends_of_pipes())
    return struct.pack("<8H", 0o407, len(body), 0, BSS, 0, 0, 0, 0) + body
