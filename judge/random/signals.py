"""Programs made at random that send signals and get them, and scripts that type the keys which make some.

They are those of random_execs, with steps of more kinds. `asks` says what a signal shall do: nothing, its default, or a routine
that stands apart from the steps, which tells that it came, or what was pushed, asks again, makes a call or exits, and goes back by
RTI; perhaps at an odd address or at one that isn't there. `sends` kills a child, the parent, the process itself, process 1, no
process, or all of the terminal. `faults` makes a fault of each kind, and `moves_stack` leaves SP somewhere before one comes.
`crosses` has two processes of which one sleeps, waits or reads while the other sends. `prepares_core` makes the file `core`
something else, or looks at it.
"""
from judge.random.console import NO_CALLS
from judge.random.execs import ExecChooser, Programs
from judge.random.processes import (CHMOD, CREAT, FD, FSTAT, GETPID, INDIRECT, LINK, MKNOD, NAMES, OPEN, READ, SETUID, SLEEP,
                              STTY, TELL, TIMES, UNLINK, WAIT, WRITE, Code, Does, Forks, Indirectly, Operator, Rounds, WaitsForAll,
                              script_by)
from judge.random.program import EXIT, STACK, TRAP, Call

KILL, SIGNAL = 37, 48
NAMES.update({KILL: "kill", SIGNAL: "signal"})
SENT = (1, 2, 2, 3, 3, 4, 5, 6, 7, 8, 9, 10, 11, 12, 13, 14, 15, 19)
OTHERS = (0, 20, 256, 65535, 32768, 258)
FAULTS = (0, 3, 4, 0o104000, 0o104377, 0o77, 7, 0o210, 0o170011, 0o170011, 0o106500, 0o75000, 0o100, 0o4000)
STACKS = (0, 1, 2, 3, 4, 5, 6, 7, 8, 64256, 64258, 64260, 64257, 64259, 62976, 62980, 60000, 57344, 40000, 65534, 65535)
KEYS = (0o177, 0o177, 0o34, 0o34, 0o377, 0o234)
CORE = ("core", 0)
RTI, RTT = 2, 6


def save(*words):
    """Words between which R0 is kept on the stack."""
    return (0o010046, *words, 0o012600)                              # MOV R0,-(SP); ..; MOV (SP)+,R0


class Asks(Indirectly):
    """What a signal shall do from now on: the routine stands apart. Perhaps what it did before is told."""

    def __init__(self, sig, routine, skip, tells):
        super().__init__(SIGNAL, (sig, f"{routine} {skip:+}"), None, tells)
        self.sig, self.routine, self.skip = sig, routine, skip

    def label(self):
        return f"@routine {self.routine} {self.sig}"

    def words_there(self):
        told = save(0o012700, (0o7000 + self.sig) % 65536, *TELL.words)        # MOV #,R0
        pushed = save(0o016600, 2, *TELL.words, 0o016600, 4, *TELL.words)    # MOV 2(SP),R0; MOV 4(SP),R0
        again = save(TRAP | SIGNAL, self.sig, self.label())
        return {"tells": (*told, RTI), "counts": (0o005237, "count", RTT), "pushed": (*pushed, RTI),
                "again": (*told, *again, RTI), "exits": (0o012700, self.sig, TRAP | EXIT),
                "calls": (TRAP | GETPID, *TELL.words, RTI), "sleeps": (*save(0o012700, 1, TRAP | SLEEP), RTI),
                "passes": (*told, *again, 0o062716, 4, RTI),             # ADD #4,(SP): past the instruction
                "stays": (0o000777,), "faults": (*told, 3, RTI)}[self.routine]

    def put(self, w):
        self.at = w.at()
        w.put(TRAP | SIGNAL, self.sig, (self.label(), self.skip), *(TELL.words if self.tells else ()))


ROUTINES = ("tells", "tells", "counts", "pushed", "again", "again", "passes", "exits", "calls", "sleeps", "stays", "faults")


class Keeps(Forks):
    """A fork of which the parent keeps the child's pid."""

    def __init__(self, child, tells, place):
        super().__init__(child, tells)
        self.place = place

    def put(self, w):
        super().put(w)
        w.put(0o010037, self.place)                                  # MOV R0,@#place


class SignalChooser(ExecChooser):
    """Chooses steps of programs that get signals."""

    def step(self, depth):
        own = ((self.asks, 10), (self.sends, 6), (self.faults, 3 if depth else 1), (self.moves_stack, 1 if depth else 0.3),
               (self.crosses, 6 if depth < 2 else 0), (self.prepares_core, 3), (self.faulting_child, 4 if depth < 2 else 0),
               (self.looks_at_core, 1), (self.changes_modes, 0.5))
        if self.odd(0.4):
            return super().step(depth)
        return self.rng.choices([kind for kind, _ in own], [weight for _, weight in own])[0](depth)

    def sig(self):
        return self.rng.choice(SENT if self.odd(0.9) else OTHERS)

    def asks(self, _):
        sig, rng = self.sig(), self.rng
        if self.odd(0.55):
            skip = 0 if self.odd(0.95) else rng.choice((1, 2, -2, -1))
            return [Asks(sig, rng.choice(ROUTINES), skip, self.odd(0.3))]
        does = rng.choice((0, 1, 1, 1, 3, 0o60000, 0o60001, 2))
        return [Code(TRAP | SIGNAL, sig, does, *(TELL.words if self.odd(0.4) else ()))]

    def whom(self):
        """Words that leave a pid in R0."""
        kinds = ((0o013700, self.variable()), (0o013700, self.variable()), (0o013700, self.variable()), (0o005000,),
                 (0o012700, 1), (TRAP | GETPID,), (0o012700, self.rng.choice((2, 3, 4, 5, 9, 32767))))
        return self.rng.choice(kinds)

    def sends(self, _):
        return [Code(*self.whom(), TRAP | KILL, self.sig(), *(TELL.words if self.odd(0.7) else ()))]

    def fault(self):
        rng, bad = self.rng, self.rng.choice((0o60000, STACK - 1, STACK - 3))
        number = rng.choice(NO_CALLS[1:])
        kinds = ([Code(rng.choice(FAULTS))], [Code(rng.choice(FAULTS))], [Code(rng.choice(FAULTS))], [Code(0o013700, 1)],
                 [Code(0o013700, 0o60000)], [Code(0o005037, STACK - 2)], [Does(Call(READ, bad, 5, r0=FD))],
                 [Does(Call(WRITE, bad, 7, r0=FD))], [Does(Call(TIMES, STACK - 2))],
                 [Code(TRAP | number, 0o240, 0o240, 0o240, 0o240, *TELL.words)], [Indirectly(number, (), FD)],
                 [Does(Call(INDIRECT, 0o60000), 0)])
        return rng.choice(kinds)

    def faults(self, _):
        return self.fault()

    def moves_stack(self, _):
        """SP is elsewhere when a fault comes; R4 keeps where it was."""
        return [Code(0o010604, 0o012706, self.rng.choice(STACKS)), *self.fault(), Code(0o010406)]

    def faulting_child(self, depth):
        """A child that ends by a fault, perhaps with something in its image, and its status."""
        steps = [Code(0o012700, self.rng.getrandbits(16))] if self.odd(0.5) else []
        if self.odd(0.2):
            steps += self.breaks(depth)
        if self.odd(0.2):
            steps += [Does(Call(SETUID, r0=self.rng.choice((1, 7))))]
        if self.odd(0.3):
            steps += self.asks(depth)
        return [Forks(steps + self.fault() + self.exits(), False), *self.waits(depth)]

    def waiting(self, depth):
        """Something in which a process sleeps."""
        kinds = ([Does(Call(SLEEP, r0=self.rng.choice((1, 2, 30, 3600))))], [Does(Call(WAIT), 2)],
                 self.reads_console(depth), [WaitsForAll()], self.delays(depth), [Code(0o000777)])
        return self.rng.choice(kinds)

    def crosses(self, depth):
        """A process that waits and another that sends: the child to its parent, whose pid it finds in R0, or the parent to it."""
        asks = [step for _ in range(self.rng.choice((0, 1, 1, 2))) for step in self.asks(depth)]
        delay, tells = self.rng.choice((self.delays, self.sleeps))(depth), [TELL] * self.odd(0.5)
        if self.odd(0.5):
            sends = [Code(0o010037, "v3"), *delay, Code(0o013700, "v3", TRAP | KILL, self.sig()), *tells]   # MOV R0,@#v3
            if self.odd(0.3):
                sends = [Rounds(self.rng.choice((2, 5)), [*delay, Code(0o013700, "v3", TRAP | KILL, self.sig())], "v2")]
                sends.insert(0, Code(0o010037, "v3"))
            return [*asks, Forks([*sends, *self.exits()], False), *self.waiting(depth)]
        place = self.variable()
        return [*asks, Keeps([*self.waiting(depth), *self.waiting(depth), *self.exits()], False, place), *delay,
                Code(0o013700, place, TRAP | KILL, self.sig()), *tells]

    def prepares_core(self, _):
        rng = self.rng
        kinds = (Call(CREAT, CORE, rng.choice((0, 0o444, 0o666, 0o200)), keep=True), Call(UNLINK, CORE), Call(UNLINK, CORE),
                 Call(MKNOD, CORE, rng.choice((0o140777, 0o120666, 0o160666, 0o100666, 0o100000)), rng.choice((0, 2050))),
                 Call(CHMOD, CORE, rng.choice((0, 0o666, 0o4777))), Call(LINK, CORE, ("/u/core", 0)),
                 Call(LINK, (rng.choice(self.names), 0), CORE), Call(SETUID, r0=rng.choice((0, 1, 7))))
        return [Does(rng.choice(kinds))]

    def looks_at_core(self, _):
        """The front of the file `core`, its size and its times."""
        at = STACK
        return [Does(Call(OPEN, CORE, 0, keep=True)), Does(Call(READ, at, self.rng.choice((20, 64, 120)), r0="last")),
                Code(0o012704, at, 0o012703, 10, 0o004737, "word"), Does(Call(FSTAT, at, r0="last")),
                Code(0o012704, at + 6, 0o012703, 3, 0o004737, "word")]

    def changes_modes(self, _):
        """The modes of the console: with RAW the keys are bytes as others."""
        flags, at = self.rng.choice((0o70, 0o40, 0o30, 0o36, 0o10)), self.buffer()
        return [Code(0o012737, 0, at, 0o012737, 0o40043, at + 2 - 65536 * (at + 2 > 65535), 0o012737, flags,
                     at + 4 - 65536 * (at + 4 > 65535)), Does(Call(STTY, at, r0=FD))]


class SignalPrograms(Programs):
    """The programs of a disk, which get signals. The first process mostly asks for something before one can come."""

    def first_steps(self, tree):
        steps = super().first_steps(tree)
        if self.rng.random() < 0.1:
            return steps
        for sig in (2, 3, 4, 5, 6, 7, 10, 11, 12, *self.rng.sample((1, 8, 13, 14, 15, 19), 2)):
            if sig in (10, 11):
                steps.append(Asks(sig, "passes", 0, False))
            elif self.rng.random() < 0.3 and sig in (2, 3):
                steps.append(Code(TRAP | SIGNAL, sig, 1))
            elif self.rng.random() < 0.93:
                steps.append(Asks(sig, self.rng.choice(("again", "again", "again", "counts", "pushed")), 0, False))
        return steps

    def chooser(self, tree, text):
        return SignalChooser(self.rng, tree, self.names, text)


class SignalOperator(Operator):
    """Chooses lines that type the keys which make signals, too."""

    def key(self):
        self.put(b"byte %03o" % self.rng.choice(KEYS))
        if self.rng.random() < 0.7:
            self.runs(self.rng.choice((1, 2, 5, 20, 100, 300)))

    def line(self):
        if self.rng.random() < 0.2:
            self.key()
        else:
            super().line()


def random_signal_script(rng, slots):
    return script_by(SignalOperator(rng, slots), 0.85)
