"""Goes through the slots of a run, each one: what comes between two lines of the log a stepper does here, and what the kernel does is
asked for by the program's command `memory`, but for answers of calls that follow from what is known. Where the two differ, that is
said: see docs/tools/look.md."""
import bisect
import copy
import math
from collections import Counter, deque

from dataclasses import dataclass

from v6.debug.answers import made
from v6.debug.calls import call_at, name_of
from v6.debug.stepper import Stepper
from v6.log.processes import NUMBERS, TICKS_OF_A_SECOND
from v6.pdp11.stepcode import MASK
from v6.run.moments import ENDS, MomentError, Then, is_turn

NEAR = 20_000  # slots of other processes that are gone through, and
FEW = 12  # turns in the kernel of theirs, before it is asked when the one that is looked for runs again
ANSWERS = {"read": (1, None), "stat": (1, 36), "fstat": (1, 36), "gtty": (1, 6), "times": (0, 12)}  # which argument of a call says where
# it writes, and how many bytes; those of a read are its count
MOST_HITS = 1024  # of a part that are kept
MOST_TIME = NUMBERS["TIME"][1]
BY_SLOTS = ("wake disk.", "wake show")  # begin lines that may come with the end of a slot
CHANGES = {"image", "size", "signal", "bare"}  # lines of a turn after which more has changed than a call's answer


class Sought:
    """What is looked for of a process: PC in a range, or words, each with the value that it is to become, or None where any other."""

    def __init__(self, number, ranges=(), words=None):
        self.number, self.ranges, self.words = number, ranges, words or {}
        self.key = number, tuple(ranges), tuple(self.words.items())

    def comes(self, before, after):
        """Whether with a state something has become so that wasn't before it."""
        if after[0] & ~before[0]:
            return True
        return any(old != new and wanted in (None, new) for old, new, wanted in zip(before[1], after[1], self.words.values()))


@dataclass
class Before:
    """What a process is about to do in the kernel: a call, where it is at one, and the name of the program of an exec; or it goes on
    with one that is pending."""

    call: object
    pending: bool = False
    name: str = ""


@dataclass
class Met:
    """A turn in the kernel of the process in an entry of the table: the slot of the run, its number, and its first line of the log."""

    slot: int
    at: int
    number: int
    first: int
    before: Before


def before_call(process):
    """What a process is about to do, by its memory."""
    if process.pending:
        return Before(None, True)
    call = call_at(process)
    return Before(call, False, name_of(process) if call and call.name == "exec" else "")


def answer_of(call):
    """Where a call writes its answer, and how many bytes at most."""
    if call is None or call.name not in ANSWERS:
        return 0, 0
    which, size = ANSWERS[call.name]
    return int(call.arguments[which], 8), int(call.arguments[2]) if size is None else size


class Walk:
    """The moments of a run from one on, slot by slot. What stays as it is needn't be looked at: it goes from one line of the log to the
    next, or to a moment at which something that is looked for becomes so."""

    def __init__(self, history, slots, sought=None, knows=None):
        self.history, self.lines, self.at, self.sought = history, history.run.lines, slots, sought
        self.knows = sought is not None if knows is None else knows  # whether calls are answered here where that can be
        self.answered, self.clock = Counter(), None  # how often, by their names; and the time when the run begins, where that was told
        self.line = min(history.count(slots), len(self.lines))
        self.table, self.memory, self.steppers = history.table(self.line), None, {}
        self.events = history.events()
        self.pauses = sorted(self.events)
        self.signalled = history.signalled(self.line)
        self.hit, self.began, self.goal = None, slots, (0, 0)  # and how many turns others take up to which line
        self.met = None  # the turn in the kernel that came last, where nothing is sought

    # who there is

    def slot(self):
        """The entry of the table of the process that is looked for."""
        return next((slot for slot, row in self.table.rows.items() if row.number == self.sought.number), None)

    def state(self):
        """What the process that is looked for has of what is."""
        slot = self.slot()
        row = self.table.rows.get(slot)
        if row is None or row.place is None or row.state == "dead" or not slot:
            return 0, [None] * len(self.sought.words)
        return self.stepper(slot).state()

    def process(self, slot):
        if self.memory is None:
            self.memory = self.history.memory(self.at)
        row = self.table.rows[slot]
        return self.memory.process(row, None if row.text is None else self.table.texts.get(row.text))

    def stepper(self, slot):
        if slot not in self.steppers:
            row, sought = self.table.rows[slot], self.sought
            wanted = (sought.ranges, tuple(sought.words)) if sought and row.number == sought.number else ()
            self.steppers[slot] = Stepper(self.process(slot), *wanted)
        return self.steppers[slot]

    # further

    def go(self, limit):
        """To a later moment, `limit` at most: after a turn in the kernel, what comes from outside, or what was looked for."""
        self.hit = None
        self.history.go_on(self.at)
        if self.sought and self.is_far():
            return self.jump(limit)
        place = bisect.bisect_right(self.pauses, self.at)
        stop = min(limit, self.pauses[place]) if place < len(self.pauses) else limit
        stop = min(stop, self.due())
        slot = self.table.running
        if slot is None:
            self.at = stop
        elif slot and not self.stepper(slot).pending:
            stepper = self.stepper(slot)
            most = stop if not self.is_other(slot) else min(stop, self.at + NEAR)
            self.history.is_stepping = True  # so nothing is lost where it is ended meanwhile
            self.at += stepper.run(most - self.at)
            self.history.is_stepping = False
            self.hit = stepper.hit
            if not self.hit and self.at < most:
                self.turn(slot)
            elif not self.hit and self.at < stop:
                return self.jump(limit)
        else:
            self.turn(slot)
        if self.due() == self.at:
            self.wakes()
        if self.at in self.events:
            self.pause()

    def is_other(self, slot):
        return self.sought is not None and self.table.rows[slot].number != self.sought.number

    def is_far(self):
        """Whether others do much before the one that is looked for runs again."""
        running = self.table.running
        if not running or not self.is_other(running) or self.line < self.goal[1]:
            return False
        goal, _ = self.goal_of()
        turns = sum(is_turn(line) for line in self.lines[self.line : goal])
        self.goal = turns, goal
        return turns > FEW

    def goal_of(self):
        """The next line of the log with which the one that is looked for runs again, or comes; the last where there is none."""
        slot, number = self.slot(), self.sought.number
        if slot is not None:
            wanted = f"go {slot}"
            return next((line for line in range(self.line, len(self.lines)) if self.lines[line] == wanted), len(self.lines)), slot
        table = self.history.table(self.line)
        for line in range(self.line, len(self.lines)):
            if table.take(self.lines[line])["word"] == "fork" and table.last == number:
                return line, None
        return len(self.lines), None

    def take(self):
        """The next line of the log."""
        text = self.lines[self.line]
        self.table.take(text)
        self.line += 1
        words = text.split(" ")
        if words[0] == "signal":
            self.signalled.add(int(words[1]))
        elif words[0] == "fork":
            self.signalled.discard(int(words[2]))
        elif words[0] == "time":
            self.clock = None
        return words

    def next(self):
        """The word of the next line, or nothing."""
        return self.lines[self.line].partition(" ")[0] if self.line < len(self.lines) else ""

    def due(self):
        """The slot with whose end the next line of the log has come by itself; never, where it is another line."""
        is_wake = self.line < len(self.lines) and self.lines[self.line].startswith(BY_SLOTS)
        return self.history.slot_of_line(self.line) if is_wake else math.inf

    def wakes(self):
        """What has come with the end of a slot by itself, and the choice after it or after a turn."""
        while self.next() == "wake" and self.due() == self.at:
            self.take()
        self.choice()

    def choice(self):
        if self.next() in ("go", "idle"):
            self.take()

    def turn(self, slot):
        """What the kernel does in the next slot, for the process in an entry of the table, or as the swapper."""
        first, row, old = self.line, self.table.rows[slot], self.steppers.get(slot)
        if self.sought is None and slot:
            self.met = Met(slot, self.at + 1, row.number, first, before_call(old))
        for one in (one for other, one in self.steppers.items() if other != slot):
            one.answers.others()
        answer = self.answer(slot, old) if self.knows and old and not self.is_other(slot) else None
        if answer and self.lines[first : first + 1] == [f"trap {slot}"] and not is_due(self.history.answered[answer.name]):
            return self.passes(old, answer)
        self.at, self.memory, was, words = self.at + 1, None, self.rows(slot), []
        while self.line < len(self.lines) and words[:1] not in [[end] for end in ENDS]:
            words = self.take()
        if words[1:2] != [str(slot)] or words[0] not in ENDS:
            raise self.differs(f"no line of the log tells of the call that process {row.number} makes")
        while words[0] == "exit" and self.next() == "wake":
            self.take()
        self.wakes()
        told = {line.partition(" ")[0] for line in self.lines[first : self.line]}
        return self.done(slot, old, was, words[0], told, answer)

    def passes(self, old, answer):
        """A call that isn't asked for, and of which the log tells but its end: of the table that changes nothing."""
        self.at, self.memory, self.line = self.at + 1, None, self.line + 1
        self.table.lines = self.table.number = self.line
        old.answered(answer)
        self.wakes()

    def done(self, slot, old, was, kind, told, answer):
        """Compares what was done here with what the program tells, and goes on from that. `was` has the process's row and its text
        before, `told` the words of the lines; the answer is that of a call where it is known."""
        if kind == "sleep" and self.sought is None and old:
            old.pending = True  # what it has stays as it is
            return
        if old is None or self.is_other(slot) or old.pending and kind != "trap":
            self.steppers.pop(slot, None)
            return
        is_same = kind != "exit" and not told & CHANGES
        if is_same:
            is_same = self.asked(slot, old, was, kind, answer if kind == "trap" else None)
        if not is_same:  # more is as it was no more: of a call that has begun here, that it was so until then
            if not old.pending:
                self.compare(old, was)
            self.steppers.pop(slot, None)

    def asked(self, slot, old, was, kind, answer):
        """Compares with what the program tells after a call, and goes on from that, also from the answer where it is known. False where
        the process may have become another one."""
        process = self.process(slot)
        changed = old.changes(process)
        is_same = changed is not None and self.is_answer(old, process, changed)
        if answer and not (is_same and old.would_be(answer, process, changed)) or not is_same and changed is not None and self.is_clear(slot, old):
            raise self.others(was)
        if is_same:
            self.learn(old, process, kind)
            old.take(process, changed)
        return is_same

    def is_clear(self, slot, old):
        """Whether a process has begun a call, and no signal may come to it."""
        return not old.pending and slot not in self.signalled

    def answer(self, slot, old):
        """The answer of a call, where it is known without asking for it."""
        if not self.is_clear(slot, old):
            return None
        now = None if self.clock is None else self.clock + self.table.second() & MOST_TIME
        found = old.answers.of(old, self.table.rows[slot].number, now)
        if found:
            self.answered[found.name] += 1
            self.history.answered[found.name] += 1
        return found

    def learn(self, old, process, kind):
        """What an answer tells that was asked for."""
        if kind != "trap" or old.pending or not self.knows:
            return old.answers.forget()
        old.answers.learn(old, process, Then(self.history.run, self.at))
        call = made(old)
        if call and call.name == "time":
            self.clock = (process.registers[0] << 16 | process.registers[1]) - self.table.second() & MOST_TIME
        return None

    def is_answer(self, old, process, changed):
        """Whether nothing has changed but what the call of a process may change; after the last address comes the first."""
        place, size = answer_of(call_at(old))
        return process.registers[2:7] == old.registers[2:7] and all(at - place + 1 & MASK <= size for at in changed)

    def compare(self, one, was, memory=None):
        """Looks whether a process is in memory as it was left here: as a rule before the call with which it is as it was no more."""
        memory = self.history.memory(self.at - 1) if memory is None else memory
        if not one.is_as(memory.process(*was)):
            raise self.others(was)

    def check(self):
        """Looks whether each process is as it was left here whose last answer wasn't asked for; of one that waits in a call since that is
        seen when the call is done."""
        for slot, one in self.steppers.items():
            if not one.is_asked and not one.pending:
                self.compare(one, self.rows(slot), self.history.memory(self.at))
                one.is_asked = True

    def rows(self, slot):
        """The row of a process, and that of its text, as they are now."""
        row = self.table.rows[slot]
        return copy.copy(row), None if row.text is None else copy.copy(self.table.texts.get(row.text))

    def others(self, was):
        return self.differs(f"process {was[0].number} has other registers or words")

    def differs(self, what):
        return MomentError(f"slot {self.at}: what was followed from slot {self.began} on differs from what the program tells: {what}")

    def pause(self):
        """What comes from outside after a slot."""
        ran, first, ticks = self.table.running, self.line, self.events[self.at]
        is_plain, was = ticks > 0, self.rows(ran) if ran else None
        for _ in range(ticks):
            self.take()
            is_second = not self.table.ticks % TICKS_OF_A_SECOND
            if is_second and self.line < len(self.lines) and self.lines[self.line] == "wake tout":
                self.take()
            if is_second and ran in self.signalled:
                is_plain = False  # a signal may be delivered, and only the program tells where its lines end
                break
            self.choice()
        if not is_plain:
            for one in self.steppers.values():
                one.answers.others()
            for _ in range(self.line, min(self.history.count(self.at), len(self.lines))):
                self.take()
        told = {line.partition(" ")[0] for line in self.lines[first : self.line]}
        if not is_plain and ran and told & {"tick", *CHANGES, "exit"}:
            one, self.memory = self.steppers.pop(ran, None), None
            if one and not one.is_asked:
                self.compare(one, was, self.history.run.memory(self.at))

    def jump(self, limit):
        """To where the process that is looked for runs again, or comes, where others do much until then."""
        self.check()
        goal, slot = self.goal_of()
        slots = self.history.slot_of_line(goal) if goal < len(self.lines) else limit
        if slots >= limit:
            self.at = limit
            return
        own, answered = self.steppers.get(slot), self.answered
        self.__init__(self.history, slots, self.sought, self.knows)
        self.answered = answered
        if own is not None:
            own.answers.others()
            self.steppers[slot] = own

    def hits(self, high):
        """The moments up to one with which what is looked for becomes so, one after the other."""
        before = self.state()
        while self.at < high:
            self.go(high)
            after = self.state()
            if self.hit == "pc" or self.sought.comes(before, after):
                yield self.at
            before = after


    def calls(self, high):
        """The calls that are begun up to a moment, by whichever process: the moment at which it stands there, its number, and the name of
        the call."""
        while self.at < high:
            self.met = None
            self.go(high)
            if self.met and self.met.before.call:
                yield self.met.at - 1, self.met.number, self.met.before.call.name


def is_due(count):
    """Whether an answer that is known is asked for all the same, to be compared: the first time, the second, the fourth and so on."""
    return not count & count - 1


def first(history, sought, low, high):
    """The first moment after one, up to another, with which what is looked for becomes so, or None."""
    walk = Walk(history, low, sought)
    hit = next(walk.hits(high), None)
    walk.check()
    return hit


def calls(history, low, high):
    """The calls that are begun after one moment, up to another."""
    walk = Walk(history, low, knows=True)
    found = list(walk.calls(high))
    walk.check()
    return found


def last(history, sought, low, high):
    """The moments after one, up to another, with which what is looked for becomes so: as many of them as are kept, the last ones, and
    after which moment these are all."""
    walk = Walk(history, low, sought)
    hits = deque(walk.hits(high), MOST_HITS)
    walk.check()
    return hits[0] - 1 if len(hits) == MOST_HITS else low, list(hits)
