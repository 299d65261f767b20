"""A run, line by line of its log, as page.py shows it: the panels of each line, and the moments at which core was looked at."""
import dataclasses
import heapq
import os
from array import array
from collections import OrderedDict

from v6.debug.tracer import Tracer
from v6.debug.views import by_size, cells, map_of, shared_texts
from v6.host.files import read_bytes
from v6.log.choices import Ruled
from v6.log.picture import Picture
from v6.log.processes import SLOTS, Table
from v6.log.story import Story
from v6.log.words import Teller
from v6.page.pack import Panels, Texts
from v6.page.rules import rule_of, told
from v6.run.history import History, Moment
from v6.run.moments import FURTHER, Run

KEPT = 80  # memories that are kept, since the calls of several moments are looked at together
AT_ONCE = 16  # stretches of a run that are halved together
MANY = 256  # lines of a log between two at which it is told how far the work is
CHOICE, CALL, SECOND = 1, 2, 4  # what a line is, for those who step by it
ROWS = {"letters": 1, "second": 1, "running": 1, "call": 1, "rule": 1, "book": 4, "ps": SLOTS, "texts": 41, "core": 192, "swap": 192}
PARTS = {"process": 16, "code": 64, "stack": 20, "u area": 28}  # rows of the parts of a process
MOVES = {"boot", "size", "fork", "drop", "bare", "text", "share", "image", "in", "out", "exit", "reap"}  # words that change a map
WIDE = {"boot", "exit", "reap"}  # words that may change the row of any process
UNKNOWN = -1
MAPS = 120, 75  # the heights of the maps of core and of the swap area
LARGE, LOW = 480, (80, 75)  # of a core of so many clicks or more: its map has up to twice the height


class Recorded(Run):
    """A run that keeps how much each line of the terminal has shown after each cut, and the memories that were asked for last."""

    def __init__(self, *words):
        self.shown, self.memories = {}, OrderedDict()
        super().__init__(*words)
        self.terms = [read_bytes(name) for name in self.shows()]

    def shows(self):
        """The files of what the terminal shows, line by line, in the run that this thread made last."""
        (term,) = self.names("term")
        return [term, *(f"{term}.{line}" for line in FURTHER if self.eight)]

    def late(self, slots, more):
        return slots, more and slots in self.script.pauses

    def count(self, slots, more=False):
        is_known = self.late(slots, more) in self.before
        found = super().count(slots, more)
        if not is_known:
            self.shown[self.late(slots, more)] = [os.path.getsize(name) for name in self.shows()]
        return found

    def shown_at(self, slots):
        """How many bytes each line of the terminal has shown at a moment."""
        place = self.late(slots, True)
        if place not in self.shown:
            self.before.pop(place, None)
            self.count(slots, True)
        return self.shown[place]

    def memory(self, slots, more=False):
        place = self.late(slots, more)
        with self.guard:
            if place in self.memories:
                self.memories.move_to_end(place)
                return self.memories[place]
        found = super().memory(slots, more)
        with self.guard:
            self.memories[place] = found
            while len(self.memories) > KEPT:
                self.memories.popitem(last=False)
        return found


class Looks:
    """At which moments of a run it is looked at: of all that have lines, or, where these are too many, of as many as are wanted, spread
    over the lines. `found` has (slots, lines before, lines after, whether these came with this slot)."""

    def __init__(self, history, most, progress):
        self.history, self.most, self.progress = history, most, progress
        self.counts = {}
        self.find()
        known = sorted(self.counts.items())
        self.found = [(known[0][0], 0, known[0][1], True)]
        for (before, had), (slots, has) in zip(known, known[1:]):
            if has > had:
                self.found.append((slots, had, has, slots - before == 1))

    def find(self):
        """Halves the stretch with the most lines, over and over, until each has a slot or no line, or enough are known."""
        last = self.history.last
        self.look([0, last])
        stretches = [(self.counts[0] - self.counts[last], 0, last)]
        while stretches and (left := self.most - len(set(self.counts.values()))) > 0:
            self.progress.tell(f"{len(self.counts)} moments counted")
            taken = [heapq.heappop(stretches) for _ in range(min(AT_ONCE, left, len(stretches)))]
            taken = [(low, high) for lines, low, high in taken if lines and high - low > 1]
            self.look([(low + high) // 2 for low, high in taken])
            for low, high in taken:
                middle = (low + high) // 2
                for one, other in ((low, middle), (middle, high)):
                    heapq.heappush(stretches, (self.counts[one] - self.counts[other], one, other))

    def look(self, wanted):
        counts = self.history.each(self.history.count, wanted)
        self.counts.update(zip(wanted, counts))

    def exact(self):
        """The lines whose slot is known."""
        return {line for _, before, after, is_exact in self.found if is_exact for line in range(before, after)}


class Calls(Tracer):
    """The calls that end, or begin to wait, with lines whose slots are known."""

    def __init__(self, run, lines):
        super().__init__(run, _Options())
        self.wanted = lines

    def is_wanted(self, turn, is_exec):
        turn.is_shown = turn.line in self.wanted
        return turn.is_shown


class _Options:
    first, last, process = 0, float("inf"), None


class Whole(Moment):
    """A moment whose table is at hand."""

    def __init__(self, history, slots, lines, table, before):
        self.history, self.slots, self.lines, self.at, self.table, self.before = history, slots, lines, lines, table, before

    @property
    def first(self):
        return self.before


class Memory:
    """What memory tells of the processes of one moment after the other; who hasn't changed is not told anew."""

    def __init__(self, views, panels):
        self.views, self.panels = views, panels
        self.seen = {}  # number -> what its telling depends on
        self.users, self.commands, self.names = {}, {}, {}
        self.slots = set()  # of the table, of those that are shown

    def take(self, moment):
        """Looks at a moment, and shows its processes."""
        rows = moment.table.rows
        found = {row.number: moment.process(row.number) for slot, row in rows.items() if slot}
        files = tuple((number, bytes(one.u[104:119])) for number, one in sorted(found.items()) if one)
        for number in set(self.seen) - set(found):
            for known in (self.seen, self.users, self.commands, self.names):
                known.pop(number, None)
        for slot in self.slots - set(rows):
            self.clear(slot)
        self.slots = set(rows)
        for slot, row in sorted(rows.items()):
            process = found.get(row.number)
            key = self.key(moment, slot, process, files)
            if self.seen.get(row.number) != key:
                self.seen[row.number] = key
                self.tell(moment, slot, row.number, process)

    def key(self, moment, slot, process, files):
        row = dataclasses.replace(moment.table.rows[slot], time=0)
        held = [bytes(process.u), *(bytes(process.data[at : at + size]) for _, size, at in process.parts)] if process else []
        return row, moment.table.letter(slot), held, files

    def tell(self, moment, slot, number, process):
        if slot:
            self.users[number] = "-" if process is None else str(process.u[18])
            self.commands[number] = self.views.command(moment, number)
            self.names[number] = self.views.who(moment, number)
        part, parts = "process", {name: [] for name in PARTS}
        for line in self.views.process(moment, number):
            if line in PARTS:
                part = line
            else:
                parts[part].append(line)
        for name, lines in parts.items():
            self.panels.show(f"{name} {slot}", lines)

    def clear(self, slot):
        for name in PARTS:
            self.panels.show(f"{name} {slot}", [])


class Account:
    """The account of a run: its texts, what the panels show at each line, and the picture."""

    def __init__(self, log, sizes, ticks=(), slots=None):
        self.log, self.ticks, self.slots = log, iter(ticks), slots
        self.table, self.texts = Ruled(), Texts()
        self.teller, self.panels = Teller(self.table, sizes), Panels(self.texts)
        self.words, self.raw = array("I"), array("I")
        self.kinds, self.moments = array("B"), array("I")
        self.width = Story("\n".join(log).encode()).width()
        self.picture = Picture(len(log), self.width, self.teller)
        self.letters, self.procedures = ["."] * self.width, None
        self.memory, self.is_new = None, False  # what memory tells, and whether it does so of the next line first
        for name, rows in ROWS.items():
            self.panels.add(name, rows)
        for slot in range(self.width):
            for name, rows in PARTS.items():
                self.panels.add(f"{name} {slot}", rows)

    def look(self, moment):
        """Shows what memory tells of a moment; the lines that are taken next are its own."""
        self.memory.take(moment)
        self.is_new = True

    def take(self, text, moment=UNKNOWN, call="", is_call=False, slots=None):
        """One more line: its words, and the panels after it. A call that is shown ends or waits with this line, or with its moment. So many
        slots have passed, where that is known."""
        entry = self.table.read(text)
        rule, procedures = rule_of(entry, self.table, text)
        self.words.append(self.texts.number(self.teller.told(entry)))
        self.raw.append(self.texts.number(text))
        second = self.table.second()
        self.table.apply(entry)
        if entry["word"] == "boot":
            self.picture.heights = MAPS if self.table.core < LARGE else LOW
        self.panels.row("rule", 0, rule)
        if procedures != self.procedures:
            self.procedures = procedures
            self.panels.show("book", told(procedures))
        self.panels.row("call", 0, call)
        is_second = self.table.second() > second
        kind = CHOICE * (entry["word"] in ("go", "idle")) | CALL * is_call | SECOND * is_second
        self.kinds.append(kind)
        self.moments.append(moment + 1)
        self.show(entry["word"], is_second)
        self.picture.take(self.table, self.passed(entry["word"], slots))
        self.panels.end_line()

    def passed(self, word, slots):
        """How many slots have passed at a line: by the script at a tick, at the beginning and at the end, else by its moment; or None."""
        tick = next(self.ticks, None) if word == "tick" else None
        if tick is not None or self.slots is None:
            return tick
        return {"boot": 0, "end": self.slots}.get(word, slots)

    def who(self, number):
        """A process with its program, as memory told it last, or by the size of its image."""
        if self.memory and number in self.memory.names:
            return self.memory.names[number]
        slot = next(slot for slot, row in self.table.rows.items() if row.number == number)
        return self.teller.who(slot)

    def show(self, word, is_second):
        """What the table tells after a line; only what the line may have changed is told anew."""
        table, panels = self.table, self.panels
        is_all = word in WIDE or is_second or self.is_new
        for slot in range(self.width) if is_all else table.touched - {None}:
            panels.row("ps", slot, self.row(slot) if slot in table.rows else "")
            self.letters[slot] = table.letter(slot)
        panels.row("letters", 0, "".join(self.letters))
        if word == "boot" or is_second:
            panels.row("second", 0, str(table.second()))
        running = table.rows.get(table.running)
        panels.row("running", 0, "" if running is None else f"{table.running} {self.running(running)}")
        if word in MOVES or self.is_new:
            panels.show("core", map_of(table, "at", self.who))
            panels.show("swap", map_of(table, "swap", self.who))
            panels.show("texts", shared_texts(table))
        self.is_new = False

    def left_out(self):
        """What isn't known of a run that was looked at in too few moments, or an empty text."""
        looks = self.looks.found
        known = sum(after - before if is_exact else 1 for _, before, after, is_exact in looks)
        if known >= sum(after - before for _, before, after, _ in looks):
            return ""
        what = "core, calls and the terminal" if self.memory else "the terminal"
        return (f"{what} {'were' if self.memory else 'was'} looked at in {len(looks)} moments, with {known} of {len(self.log)} lines; the others show "
                f"the moment before them")

    def running(self, row):
        return f"{self.who(row.number)} runs" if row.number else "the swapper runs"

    def row(self, slot):
        """The cells of an entry, as ps has them."""
        number = self.table.rows[slot].number
        memory = self.memory
        user = memory.users.get(number, "-") if memory else "-"
        command = memory.commands.get(number, "") if memory else by_size(self.table.rows[slot], self.teller.programs)
        return "\t".join(map(str, cells(self.table, slot, user, command)))


def account_of_log(log, sizes, ticks, slots, progress):
    """The account of a log alone: nothing of it comes from core."""
    account = Account(log, sizes, ticks, slots)
    for number, text in enumerate(log):
        if number % MANY == 0:
            progress.tell(f"line {number} of {len(log)}")
        account.take(text)
    return account


def account_of_run(run, views, ticks, most, progress):
    """The account of a run, whose core is looked at in `most` moments at most."""
    history = History(run)
    looks, ahead = Looks(history, most, progress), Table()
    account = Account(run.log, views.sizes, ticks, run.script.slots)
    account.memory = Memory(views, account.panels)
    calls = Ahead(Calls(run, looks.exact()).follow())
    for number, (slots, before, after, is_exact) in enumerate(looks.found):
        start = before if is_exact else after - 1
        progress.tell(f"line {before} of {len(run.log)}")
        for line in range(before, start):
            ahead.take(run.log[line])
            account.take(run.log[line], number - 1)
        for line in range(start, after):
            ahead.take(run.log[line])
        account.look(Whole(history, slots, after, ahead, start))
        ended = calls.until(after)
        call = next(iter(ended.values())) if len(ended) == 1 else ""
        for line in range(start, after):
            account.take(run.log[line], number, ended.get(line, call), line in ended, slots if is_exact else None)
    for line in range(ahead.lines, len(run.log)):
        account.take(run.log[line], len(looks.found) - 1)
    account.looks, account.last = looks, history.last
    return account


def account_of_lines(run, sizes, ticks, most, progress):
    """The account of a run of which core isn't known: only when the terminal has shown what comes from its moments."""
    history = History(run)
    account, looks = Account(run.log, sizes, ticks, run.script.slots), Looks(history, most, progress)
    for number, (slots, before, after, is_exact) in enumerate(looks.found):
        start = before if is_exact else after - 1
        progress.tell(f"line {before} of {len(run.log)}")
        for line in range(before, after):
            account.take(run.log[line], number - (line < start), slots=slots if is_exact else None)
    for line in range(looks.found[-1][2], len(run.log)):
        account.take(run.log[line], len(looks.found) - 1)
    account.looks, account.last = looks, history.last
    return account


class Ahead:
    """The turns that a tracer tells, taken line by line."""

    def __init__(self, turns):
        self.turns, self.next = turns, next(turns, None)

    def until(self, line):
        """Of the turns before a line what each tells, by its line."""
        found = {}
        while self.next and self.next[0].line < line:
            found[self.next[0].line] = self.next[1].strip()
            self.next = next(self.turns, None)
        return found
