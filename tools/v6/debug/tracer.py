"""The calls of each process of a run, in words, as they come."""
import copy
import itertools
from dataclasses import dataclass

from v6.debug.calls import Call, answer, kept
from v6.debug.walk import Before, Walk, before_call
from v6.log.processes import Table
from v6.log.words import CHANNELS, clicks
from v6.run.history import History
from v6.run.moments import is_turn, workers

AT_ONCE = 32  # moments whose memory is kept at a time
BAD_CALL = "12"  # the signal of a call that there isn't, or of a bad address in one
SLOTS_A_TURN = 20_000  # of a run that is gone through slot by slot; of one with fewer turns in the kernel these are found by halving


@dataclass
class Turn:
    """A turn in the kernel of the process in an entry of the table: its line, when it came, and the table before and after."""

    line: int
    words: list
    slot: int = 0  # of the run
    number: int = 0  # of the process
    lines: list = None  # all lines of this slot of the run
    old: tuple = None  # the process's row and its text before, and after
    new: tuple = None
    is_shown: bool = True

    def kind(self):
        return self.words[0]

    def place(self):
        return int(self.words[1])

    def made(self, word):
        """The line of this word about the process, as words, or None."""
        found = [line.split(" ") for line in self.lines if line.startswith(f"{word} {self.words[1]} ")]
        return found[-1] if found else None


def turns_of(lines):
    """The turns in the kernel that a log tells, without those of the swapper."""
    return [Turn(number, line.split(" ")) for number, line in enumerate(lines) if is_turn(line)]


def channel(name, own):
    """What a process waits for, in words."""
    kind, _, number = name.partition(".")
    if kind == "wait":
        return "for a child" if number == own else f"for a child in entry {number}"
    if kind in CHANNELS:
        return CHANNELS[kind] + (f" of line {number}" if number else "")
    return "for the disk" if kind == "disk" else f"for {'bytes' if kind == 'read' else 'room'} in the pipe of inode {number}"


def shared(turn):
    """What an exec does with a text that is shared: makes it, or takes the one that is there."""
    made, taken = turn.made("text"), turn.made("share")
    return f", makes text {made[2]} of {clicks(int(made[3]))}" if made else f", takes text {taken[2]}" if taken else ""


class Tracer:
    """Follows a run turn by turn. Turns that aren't wanted are looked at only where they tell the name of a program."""

    def __init__(self, run, options, tells=None):
        self.run, self.options, self.tells = run, options, tells
        self.table, self.taken = Table(), 0
        self.names, self.waiting = {}, {}  # by entries of the table: programs, and calls that have begun
        self.width = len(str(run.script.slots))

    def turns(self):
        """Those that are wanted, each with its moment and the rows of its process."""
        found, lines = turns_of(self.run.lines), self.run.lines
        execs = {turn.line for turn in found if turn.line and lines[turn.line - 1].startswith("image ")}
        for turn in found:
            turn.is_shown = self.options.first <= turn.line + 1 <= self.options.last
        wanted = [turn for turn in found if self.is_wanted(turn, turn.line in execs)]
        slots = self.run.slots_of([turn.line for turn in wanted])
        with workers() as pool:
            before = pool.map(lambda turn: self.run.count(slots[turn.line] - 1, True), wanted)
            after = pool.map(lambda turn: self.run.count(slots[turn.line]), wanted)
            for turn, first, past in zip(wanted, before, after):
                turn.slot, turn.lines = slots[turn.line], lines[first:past]
                turn.old = self.row(turn.place(), first)
                turn.new = self.row(turn.place(), past) if turn.kind() != "exit" else None
                turn.number = turn.old[0].number
                if self.options.process not in (None, turn.number):
                    turn.is_shown = False
                if turn.is_shown or turn.line in execs:
                    yield turn

    def is_wanted(self, turn, is_exec):
        """Whether a turn is looked at."""
        return turn.line < self.options.last and (turn.is_shown or is_exec)

    def row(self, slot, count):
        """The row of an entry and its text after so many lines of the log."""
        while self.taken < count:
            self.table.take(self.run.lines[self.taken])
            self.taken += 1
        row = copy.copy(self.table.row(slot))
        return row, None if row.text is None else copy.copy(self.table.text(row.text))

    def look(self, turn):
        """What the process is about to do before its turn, and what it has after it."""
        old = self.run.memory(turn.slot - 1, True).process(*turn.old)
        new = self.run.memory(turn.slot).process(*turn.new) if turn.kind() == "trap" else None
        before = before_call(old)
        return (Before(kept(old), True) if before.pending else before), new

    def halved(self):
        """The turns, each with what is known of it, where the slots of their lines are found by halving."""
        turns = self.turns()
        with workers() as pool:
            while chunk := list(itertools.islice(turns, AT_ONCE)):
                yield from zip(chunk, pool.map(self.look, chunk))

    def walked(self):
        """The same, where all slots are gone through, up to the last line that is wanted."""
        walk, lines = Walk(History(self.run), 0), self.run.lines
        walk.history.tells = self.tells
        last = walk.history.last
        while walk.at < last and walk.line < self.options.last:
            walk.met = None
            walk.go(last)
            met = walk.met
            if met:
                place = next(number for number in range(met.first, walk.line) if is_turn(lines[number]))
                turn = Turn(place, lines[place].split(" "), met.at, met.number, lines[met.first : walk.line])
                turn.is_shown = self.options.first <= place + 1 <= self.options.last and self.options.process in (None, met.number)
                yield turn, (met.before, walk.process(met.slot) if turn.kind() == "trap" else None)

    def follow(self):
        forks = iter(self.forks())
        fork = next(forks, None)
        turns = sum(map(is_turn, self.run.lines))
        for turn, (old, new) in self.walked() if self.run.script.slots <= SLOTS_A_TURN * (turns + 1) else self.halved():
            if self.tells:
                self.tells(turn.slot)
            while fork and fork[0] < turn.line:
                self.names[fork[2]] = self.names.get(fork[1], "")
                fork = next(forks, None)
            said = self.told(turn, old, new)
            if turn.is_shown:
                yield turn, said

    def forks(self):
        """(line, parent, child) of each fork of the log."""
        for number, line in enumerate(self.run.lines):
            if line.startswith("fork "):
                words = line.split(" ")
                yield number, int(words[1]), int(words[2])

    def call(self, turn, old):
        """The call that a turn is about, and whether it begins there; None where it isn't about a call."""
        slot = turn.place()
        if slot in self.waiting:
            return self.waiting[slot], False
        return old.call, not old.pending

    def told(self, turn, old, new):
        """What a turn tells, in words."""
        slot = turn.place()
        call, begins = self.call(turn, old)
        who = f"{turn.slot:>{self.width}} [{turn.number}{' ' + self.names[slot] if self.names.get(slot) else ''}] "
        if begins and call:
            call.began = turn.slot
        if turn.kind() == "sleep":
            return self.sleeps(turn, call, who)
        self.waiting.pop(slot, None)
        if turn.kind() == "exit":
            self.names.pop(slot, None)
            return who + self.ends(turn, call)
        if call is None:
            grown, sent = turn.made("size"), turn.made("signal")
            fault = f"a fault, which is signal {sent[2]}" if sent else "a fault"
            return who + (f"a larger stack: the image has {grown[2]} clicks" if grown and not sent else fault)
        if call.name == "exec" and turn.made("image"):
            self.names[slot] = old.name
        is_bad = (turn.made("signal") or [""])[-1] == BAD_CALL  # no process sends a signal to itself
        said = f"signal {BAD_CALL}" if is_bad else answer(call, new)
        return f"{who}{call.told()} = {said}{self.waited(turn, call)}{shared(turn)}"

    def ends(self, turn, call):
        """What is told where a process ends: it has called exit(II), or it ends by the signal that was sent to it last."""
        if call and call.name == "exit":
            return call.told()
        sent = [line for line in self.run.lines[: turn.line] if line.startswith(f"signal {turn.place()} ")]
        by = f"ends by signal {sent[-1].split(' ')[2]}" if sent else "ends"
        return f"{call.told()}, and {by}" if call else by

    def sleeps(self, turn, call, who):
        slot, what = turn.place(), channel(turn.words[3], turn.words[1])
        call = self.waiting.setdefault(slot, call or Call("call", []))
        call.waited.append(what)
        again = " again" if len(call.waited) > 1 else ""
        return f"{who}{call.told()} waits {what}{again}"

    def waited(self, turn, call):
        """How long a call that is done has taken, and what it has waited for."""
        if not call.waited:
            return ""
        whats = list(dict.fromkeys(call.waited))
        times = f", {len(call.waited)} times" if len(call.waited) > 1 else ""
        since = "a wait" if call.began is None else f"{turn.slot - call.began} slots"
        return f", after {since}{times} {' and '.join(whats)}"
