"""The commands of look.py: docs/tools/look.md."""
import re

from v6.debug.calls import NAMES
from v6.debug.search import Event, Search, State
from v6.debug.walk import Sought
from v6.log.processes import FORMS
from v6.run.moments import FURTHER, NO_MEMORY

NUMBER = re.compile("[0-9]+")
LESS = re.compile("(.+)(-)([0-9]+)")
INDEXED = re.compile(r"([0-7]{1,6})\((r[0-5]|sp|pc)\)")  # as `code` shows it
LETTERS = "RrowWsSz"
REGISTERS = {**{f"r{n}": n for n in range(6)}, "sp": 6, "pc": 7}
BY_MEMORY = ("call", "pc", "word", "break", "watch")  # what only core tells of
MOST_WORDS = 4096  # that are shown at once
FEW_PROGRAMS = 3  # that are named where a name isn't one of a process's own
HELP = """\
ps                       the processes
process [N]              process N whole; without a number, here and everywhere, the one that runs, or process 1
code [PLACE [COUNT]]     its instructions, round PC or from a place on
words PLACE [COUNT]      words of its memory
core, swap, texts        who holds which clicks and blocks; the shared texts
log [COUNT]              the lines of the log that led here
term [LINE [COUNT]]      what the terminal, or a line of eight, has shown so far: the last rows of it
slot N                   to a moment, by its slot
line [N]                 to a line of the log, or to the next one: ps, core, swap and texts are as it left them
step [COUNT]             so many slots further; back: so many back
next WORD, last WORD     to the next line of the log with this word (go, trap, signal, ..), or the last; line is any
until WHAT, since WHAT   forwards and backwards to where WHAT becomes so:
    state LETTERS            the process has one of these letters of ps
    place core|swap [START]  its image is there
    call [NAME]              it stands at this call, or at any
    pc PLACE [PLACE]         its PC is there, or between two places
    word PLACE [VALUE]       a word of it changes, or becomes a value
    break                    it comes to one of the breaks; watch: one of the words that are watched changes
break [PLACE]            a break at an instruction, or all of them; unbreak [PLACE]: without it, or without any
watch PLACE              shows a word at each moment from now on; unwatch: none any more
help, quit (or q)
of N, at the end of a command, is process N. A number with a 0 before it is octal. A PLACE is an address,
a register, a name of the program, a line of its source (it.c:12), or one of them + or - a number; or, as
code shows it, an octal number and a register: 177766(r5)."""


class LookError(Exception):
    """Why a command isn't done; the text tells it."""


class Looker:
    """A run, and the moment of it that is looked at. Each command gives the lines that it shows."""

    def __init__(self, history, views):
        self.history, self.views = history, views
        self.moment = history.moment(0)
        self.watched, self.breaks = [], []  # (number of the process, address), one after the other
        self.is_over = False

    def lines_of(self, text):
        """What a command shows."""
        words = text.split()
        if not words:
            return []
        does = getattr(self, "do_" + words[0], None)
        if does is None:
            more = "; `process` shows registers" if words[0] in ("registers", "register", "regs") else ""
            raise LookError(f"{words[0]}: no such command; help names them{more}")
        self.number = None
        if len(words) > 2 and words[-2] == "of":
            self.number = self.number_of(words[-1], "a process")
            words = words[:-2]
        try:
            return does(*words[1:])
        except TypeError as error:
            if "positional argument" not in str(error):
                raise
            raise LookError(f"{text.strip()}: too few words, or too many; help shows each command") from None

    # words of commands

    def number_of(self, text, what, most=None):
        if not NUMBER.fullmatch(text) or text[0] == "0" and set(text) & set("89"):
            raise LookError(f"{text}: no number, where that of {what} is wanted")
        value = int(text, 8 if text[0] == "0" else 10)
        if most is not None and value > most:
            raise LookError(f"{text}: {what} is {most} at most")
        return value

    def chosen(self):
        """The number of the process that a command is about."""
        number, moment = self.number, self.moment.whole
        if number is None:
            number = moment.running() or 1
        if moment.slot_of(number) is None:
            raise LookError(self.gone(number))
        return number

    def coming(self):
        """The number of the process that a command is about, which may come later: then that is the moment from now on."""
        if self.number is None or self.moment.whole.slot_of(self.number) is not None:
            return self.chosen()
        later = [came for came, _ in self.history.life(self.number) if came >= self.moment.lines]
        if later and (slots := self.history.slot_of_line(later[0])) <= self.history.last:
            self.moment = self.history.moment(slots)
        return self.chosen()

    def gone(self, number):
        """Why a process isn't there."""
        said = f"process {number} isn't there in slot {self.moment.slots}"
        lives = self.history.life(number)
        before = [went for _, went in lives if went is not None and went < self.moment.lines]
        later = [came for came, _ in lives if came >= self.moment.lines]
        if before:
            return f"{said}: it has gone with line {before[-1] + 1} of the log"
        return f"{said}: it comes with line {later[0] + 1} of the log" if later else f"{said}, and never in this run"

    def memory_of(self):
        """The number of the process that a command is about, and what it has in memory."""
        number = self.chosen()
        if not self.history.run.has_memory:
            raise LookError(NO_MEMORY)
        process = self.moment.process(number)
        if process is None or not process.parts:
            raise LookError(f"process {number} has no memory in slot {self.moment.slots}: " +
                            ("the swapper has no image" if not number else "it has ended" if process else "it has no image"))
        return number, process

    def address(self, text):
        """An address, of a place."""
        first, sign, more = parted(text)
        number, process = self.memory_of()
        if NUMBER.fullmatch(first):
            at = self.number_of(first, "an address", 65535)
        elif first in REGISTERS:
            at = process.registers[REGISTERS[first]]
        else:
            program = self.views.program(self.moment, number)
            at = program.place(first) if program else None
            if at is None:
                whose = f"{program.path} has no such name" if program else f"process {number} has no program with names"
                raise LookError(f"{first}: {whose}{self.others(first)}")
        more = self.number_of(more, "bytes", 65535) if sign else 0
        return (at - more if sign == "-" else at + more) & 0xFFFF

    def others(self, name):
        """Which programs of the disk have a name that the one which was looked at hasn't."""
        found = [program.path for program in self.views.programs.found if program.place(name) is not None]
        return f"; {' and '.join(found)} {'has' if len(found) == 1 else 'have'}, see `of N`" if 0 < len(found) <= FEW_PROGRAMS else ""

    def word_address(self, text):
        at = self.address(text)
        if at & 1:
            raise LookError(f"{text}: {at:06o} is odd, and a word has an even address")
        return at

    # what there is

    def do_help(self):
        return HELP.split("\n")

    def do_quit(self):
        self.is_over = True
        return []

    do_q = do_quit

    def do_ps(self):
        return self.views.ps(self.moment)

    def do_process(self, number=None):
        if number is not None:
            self.number = self.number_of(number, "a process")
        return self.of_moment(self.views.process(self.moment.whole, self.chosen()))

    def do_code(self, place=None, count="16"):
        number, process = self.memory_of()
        at = None if place is None else self.word_address(place)
        count = self.number_of(count, "words", MOST_WORDS)
        return self.of_moment(self.views.code(process, self.views.program(self.moment, number), at, count))

    def do_words(self, place, count="8"):
        number, process = self.memory_of()
        count = self.number_of(count, "words", MOST_WORDS)
        return self.of_moment(self.views.words(process, self.views.program(self.moment, number), self.word_address(place), count))

    def of_moment(self, lines):
        """What memory tells, with a word before it where the table that is looked at is of an earlier line."""
        moment = self.moment
        said = f"after all lines of the moment, up to {moment.lines}, since memory isn't known within it:"
        return [said] * (moment.at < moment.lines) + lines

    def do_core(self):
        return self.views.map(self.moment, "at")

    def do_swap(self):
        return self.views.map(self.moment, "swap")

    def do_texts(self):
        return self.views.texts(self.moment)

    def do_log(self, count=None):
        return self.views.log(self.moment) if count is None else self.views.last(self.moment, self.number_of(count, "lines"))

    def do_term(self, line="0", count="24"):
        line, count = self.number_of(line, "a line", FURTHER[-1]), self.number_of(count, "rows")
        if line and not self.history.run.eight:
            raise LookError(f"line {line}: the machine has one line, 0")
        shown = self.history.run.terminal(self.moment.slots, line).decode("ascii", "backslashreplace")
        return self.of_moment(shown.replace("\r\n", "\n").split("\n")[-count:] if count else [])

    # moves

    def go(self, slots, at=None):
        """To a moment, or to a line within it: what has come with it, and what is watched."""
        before = self.moment.slots
        self.moment = self.history.moment(slots, at)
        return [self.views.head(self.moment), *self.views.log(self.moment), *self.watches(before)]

    def watches(self, before):
        out = []
        for number, at in self.watched:
            now, then = self.word(self.moment, number, at), self.word(self.history.moment(before), number, at)
            was = f", and was {shown(then)}" if now != then else ""
            out.append(f"  word {at:06o} of process {number}: {shown(now)}{was}")
        return self.of_moment(out) if out else []

    def word(self, moment, number, at):
        """A word of a process at a moment, or None where it isn't there."""
        process = moment.process(number)
        return process.word(at) if process else None

    def do_slot(self, number=None):
        return self.go(self.moment.slots if number is None else self.number_of(number, "a slot"))

    def do_line(self, number=None):
        number = self.moment.at + 1 if number is None else self.number_of(number, "a line")
        lines = len(self.history.run.log)
        if not 1 <= number <= lines:
            raise LookError(f"line {number}: the log of this run has the lines 1 to {lines}")
        slots = self.history.slot_of_line(number - 1)
        if slots > self.history.last:
            raise LookError(f"line {number} comes in slot {slots}, in which the run comes to what can't be shown")
        return self.go(slots, number)

    def do_step(self, count="1"):
        return self.by(self.number_of(count, "slots"))

    def do_back(self, count="1"):
        return self.by(-self.number_of(count, "slots"))

    def by(self, count):
        slots = self.moment.slots + count
        if slots < 0 or slots > self.history.last:
            raise LookError(f"slot {self.moment.slots} is too near: the run is from slot 0 to {self.history.last}")
        return self.go(slots)

    # searches

    def found(self, slots, text, forwards):
        if slots is None:
            first = "" if forwards or self.moment.slots else ", where nothing comes before: `slot N` first"
            raise LookError(f"{text}: not found {'after' if forwards else 'before'} slot {self.moment.slots}{first}")
        return self.go(slots)

    def event(self, word, forwards):
        if word not in FORMS and word != "line":
            raise LookError(f"{word}: no word of a log")
        event = Event(None if word == "line" else word, self.number)
        return self.found(Search(self.history, self.moment, forwards).event(event), word, forwards)

    def do_next(self, word):
        return self.event(word, True)

    def do_last(self, word):
        return self.event(word, False)

    def do_until(self, kind, *words):
        return self.where(kind, words, True)

    def do_since(self, kind, *words):
        return self.where(kind, words, False)

    def where(self, kind, words, forwards):
        does = getattr(self, "where_" + kind, None)
        if does is None:
            more = "; for a line of the log: `next KIND` and `last KIND`" if kind == "line" else ""
            raise LookError(f"{kind}: `until` and `since` take state, place, call, pc, word, break or watch{more}")
        if kind in BY_MEMORY and not self.history.run.has_memory:
            raise LookError(NO_MEMORY)
        text, here = " ".join([kind, *words]), self.moment
        if forwards and kind in ("pc", "word") and words:
            self.look_on(words[0])
        search = Search(self.history, self.moment, forwards)
        try:
            if kind in ("pc", "word"):
                self.number = self.chosen()  # of here; where the search comes to, another may run
            is_there = self.moment is not here and kind == "pc" and self.is_at(*words)
            slots = self.moment.slots if is_there else does(search, *words)
        finally:
            self.moment = here
        return self.found(slots, text, forwards) + self.stands(kind)

    def look_on(self, place):
        """Where the program of a process hasn't the name of a place, goes on to the first one that it executes which has it; where the
        process isn't there yet, to where it comes."""
        here, number = self.moment, self.coming()
        while True:
            try:
                self.address(place)
                return
            except LookError as error:
                if not self.history.run.has_memory:
                    raise
                fault = error
            slots = Search(self.history, self.moment, True).event(Event("image", number))
            if slots is None:
                self.moment = here
                raise fault
            self.moment = self.history.moment(slots)

    def is_at(self, first, last=None):
        """Whether the PC is where a search asks for it."""
        low, high = self.range_of(first, last)
        return low <= self.memory_of()[1].pc <= high

    def stands(self, kind):
        """Where a process stands that was looked for by its PC."""
        if kind == "break":
            now, before = self.moment, self.history.moment(self.moment.slots - 1)
            return [self.at_break(*one) for one in self.breaks if pc_of(now, one[0]) == one[1] != pc_of(before, one[0])]
        if kind == "word":
            return self.came(self.number)
        if kind == "watch":
            now, before = self.moment, self.history.moment(self.moment.slots - 1)
            changed = [number for number, at in self.watched if self.word(now, number, at) != self.word(before, number, at)]
            return [line for number in dict.fromkeys(changed) for line in self.came(number)]
        if kind != "pc":
            return []
        number, process = self.memory_of()
        return self.views.place(process.pc, self.views.program(self.moment, number))

    def came(self, number):
        """By what a process came to this moment: the instruction that it had before it, or a call that had begun by then."""
        before = self.history.moment(self.moment.slots - 1)
        process = before.process(number) if before.whole.slot_of(number) is not None else None
        if process is None or not process.parts:
            return []
        return [self.views.came(process, self.views.program(before, number))]

    def at_break(self, number, at):
        """A break in words, with the name of its place and its line of the source."""
        told = self.views.place(at, self.views.program(self.moment, number)) if self.moment.slot_of(number) is not None else []
        return f"  break {at:06o} of process {number}" + (told[0][len("  pc 000000") :] if told else "")

    def where_state(self, search, letters):
        if not set(letters) <= set(LETTERS):
            raise LookError(f"{letters}: a state is one of the letters {LETTERS}")
        return search.state(State(self.any(), lambda table, slot: table.letter(slot) in letters))

    def any(self):
        """The number of a process, which needn't be there at this moment."""
        return self.number if self.number is not None else self.chosen()

    def where_place(self, search, where, start=None):
        if where not in ("core", "swap"):
            raise LookError(f"{where}: a place is in core or swap")
        wanted = None if start is None else self.number_of(start, "a place", 4871)

        def holds(table, slot):
            place = table.rows[slot].place
            return place is not None and place.where == ("at" if where == "core" else "swap") and wanted in (None, place.start)

        return search.state(State(self.any(), holds))

    def where_call(self, search, name=""):
        if NUMBER.fullmatch(name):
            number = self.number_of(name, "a call", 63)
            name = NAMES.get(number, f"call {number}")
        elif name and name not in NAMES.values():
            raise LookError(f"{name}: no name of a call")
        return search.call(name, self.number)

    def where_pc(self, search, first, last=None):
        number = self.chosen()
        low, high = self.range_of(first, last)
        return search.sought(Sought(number, ranges=[(low, high)]))

    def range_of(self, first, last=None):
        """The addresses from one place to another; without that all of a name, up to the next."""
        low, high = self.address(first), None if last is None else self.address(last)
        if high is None:
            program = self.views.program(self.moment, self.chosen())
            high = program.end_of(first) if program and not NUMBER.fullmatch(first) else None
            high = low if high is None else high
        if high < low:
            raise LookError(f"{last}: it is before {first}")
        return low, high

    def where_word(self, search, place, value=None):
        number, at = self.chosen(), self.word_address(place)
        value = None if value is None else self.number_of(value, "a word", 65535)
        return search.sought(Sought(number, words={at: value}))

    def where_break(self, search):
        places = self.wanted(self.breaks, "break", "set")
        return search.sought(*(Sought(number, ranges=[(at, at) for at in found]) for number, found in places.items()))

    def where_watch(self, search):
        places = self.wanted(self.watched, "word", "watched")
        return search.sought(*(Sought(number, words=dict.fromkeys(found)) for number, found in places.items()))

    def wanted(self, places, what, how):
        """Addresses that are looked for, by the numbers of their processes; of one process, where it is named."""
        found = {}
        for number, at in places:
            if self.number in (None, number):
                found.setdefault(number, []).append(at)
        if not found:
            raise LookError(f"no {what} is {how}" if self.number is None else f"no {what} of process {self.number} is {how}")
        return found

    def do_break(self, place=None):
        if place is not None:
            here = self.moment
            try:
                self.number = self.coming()
                self.look_on(place)
                one = self.number, self.word_address(place)
            finally:
                self.moment = here
            if one not in self.breaks:
                self.breaks.append(one)
        return [self.at_break(*one) for one in self.breaks] or ["no break is set"]

    def do_unbreak(self, place=None):
        if place is None:
            self.breaks = []
            return []
        one = self.chosen(), self.word_address(place)
        if one not in self.breaks:
            raise LookError(f"{place}: no break of process {one[0]} is there")
        self.breaks.remove(one)
        return self.do_break()

    def do_watch(self, place=None):
        if place is not None:
            one = self.chosen(), self.word_address(place)
            if one not in self.watched:
                self.watched.append(one)
        return self.watches(self.moment.slots) or ["no word is watched"]

    def do_unwatch(self):
        self.watched = []
        return []


def parted(place):
    """A place without what is added to it or taken from it, the sign, and that number."""
    indexed = INDEXED.fullmatch(place)
    if indexed:
        return indexed[2], "+", "0" + indexed[1]
    less = LESS.fullmatch(place)
    return less.groups() if less else place.partition("+")


def pc_of(moment, number):
    process = moment.process(number)
    return process.pc if process and process.parts else None


def shown(value):
    return "none" if value is None else f"{value:06o}"

