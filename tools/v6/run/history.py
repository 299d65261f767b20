"""The moments of a run, one by one: the table of processes by the log, and core and the swap area by the program's command."""
import bisect
import copy
import functools
import itertools
import threading
from collections import Counter, OrderedDict

from v6.log.choices import Ruled
from v6.log.processes import Table
from v6.run.moments import WORKERS, MomentError, workers

APART = 1024  # lines of the log between two tables that are kept
KEPT, FEW_KEPT = 48, 4  # moments whose memory is kept, also in one of several processes


class Moment:
    """What is there after so many slots, and after all of the script that comes before the next one.

    `lines` of the log have come until then, those from `first` on with this moment's slot and after it. The table is the one after
    `at` lines: after all of them, or after one within the moment. Memory is known of the whole moment alone."""

    def __init__(self, history, slots, lines, at=None):
        self.history, self.slots, self.lines = history, slots, lines
        self.at = lines if at is None else at
        self.table = history.table(self.at)

    @functools.cached_property
    def whole(self):
        """The moment after all of its lines."""
        return self if self.at == self.lines else Moment(self.history, self.slots, self.lines)

    @property
    def first(self):
        return self.history.count(self.slots - 1) if self.slots else 0

    def memory(self):
        return self.history.memory(self.slots)

    def slot_of(self, number):
        """The entry of the table in which the process of this number is, or None."""
        return next((slot for slot, row in self.table.rows.items() if row.number == number), None)

    def process(self, number):
        """What the process of this number has after the whole moment, or None where it isn't there or has no image, or core isn't known."""
        if not self.history.run.has_memory:
            return None
        table = self.whole.table
        row = table.rows.get(self.whole.slot_of(number))
        if row is None or row.place is None:
            return None
        return self.memory().process(row, None if row.text is None else table.texts.get(row.text))

    def running(self):
        """The number of the process that runs, or None."""
        row = self.table.rows.get(self.table.running)
        return row.number if row else None


class History:
    """A run that is looked at moment by moment."""

    def __init__(self, run):
        self.run, self.last = run, run.end()
        self.tables, self.built = [Ruled()], Ruled()  # before the lines 0, APART and so on; and the one that makes more of them
        self.memories, self.guard, self.outside, self.sent = OrderedDict(), threading.Lock(), None, None
        self.kept, self.spans = KEPT, {}  # and by what was looked for the parts that were gone through for it
        self.answered = Counter()  # how often the answers of calls were known, by their names, in all that was gone through
        self.tells = None  # what is told how far one is, of a run that is gone through
        self.is_stepping = self.is_ended = False  # whether instructions are being done, and what is at work is to end

    def table(self, lines):
        """The table after so many lines of the log."""
        with self.guard:
            while self.built.lines < lines and len(self.tables) <= lines // APART:
                self.built.take(self.run.log[self.built.lines])
                if self.built.lines % APART == 0:
                    self.tables.append(copy.deepcopy(self.built))
            table = copy.deepcopy(self.tables[lines // APART])
        for line in self.run.log[table.lines : lines]:
            table.take(line)
        return table

    def count(self, slots):
        """How many lines have come until a moment; with the last one comes `end`."""
        ended = slots == self.last and len(self.run.log) > len(self.run.lines)
        return self.counted(slots) + ended

    def counted(self, slots):
        """How many lines but `end` have come until a moment. Between two moments with the same count nothing is run for it."""
        known = self.run.known(True)
        below = max((one for one in known if one[0] <= slots), default=None)
        above = min((one for one in known if one[0] >= slots), default=None)
        if below and above and below[1] == above[1]:
            return below[1]
        return self.run.count(slots, True)

    def moment(self, slots, at=None):
        """The moment after so many slots; its table is the one after `at` lines, where such a line of it is named."""
        if not 0 <= slots <= self.last:
            raise MomentError(f"slot {slots}: the run has {self.last}, and 0 is before the first")
        return Moment(self, slots, self.count(slots), at)

    def memory(self, slots):
        """Core and the swap area at a moment; those asked for last are kept."""
        with self.guard:
            if slots in self.memories:
                self.memories.move_to_end(slots)
                return self.memories[slots]
        found = self.run.memory(slots, True)
        with self.guard:
            self.memories[slots] = found
            while len(self.memories) > self.kept:
                self.memories.popitem(last=False)
        return found

    def life(self, number):
        """The lines of the log with which processes of this number came and went: (line, line or None), one after the other."""
        table, found = Table(), [(0, None)] if number in (0, 1) else []
        for line, text in enumerate(self.run.lines):
            entry = table.read(text)
            if entry["word"] == "reap" and found and table.row(entry["S"]).number == number:
                found[-1] = (found[-1][0], line)
            table.apply(entry)
            if entry["word"] == "fork" and table.last == number:
                found.append((line, None))
        return found

    def events(self):
        """After which slots something comes from outside, and how many ticks, or 0 where it isn't ticks alone."""
        if self.outside is None:
            self.outside = {slots: ticks for slots, ticks in self.run.script.events().items() if slots <= self.last}
        return self.outside

    def signalled(self, lines):
        """The entries of the table in which a signal may wait after so many lines of the log: it was sent to who is there still."""
        if self.sent is None:
            told = ((number, line.split(" ")) for number, line in enumerate(self.run.lines))
            self.sent = [(number, words[0], int(words[1 if words[0] == "signal" else 2])) for number, words in told
                         if words[0] in ("signal", "fork")]
        found = set()
        for _, word, slot in itertools.takewhile(lambda one: one[0] < lines, self.sent):
            (found.add if word == "signal" else found.discard)(slot)
        return found

    def each(self, does, wanted):
        """What `does` makes of each of these, several at a time."""
        with workers() as pool:
            return list(pool.map(does, wanted))

    def in_order(self, does, wanted):
        """What `does` makes of each of these, one after the other: of the first here, and of the others in processes that work ahead."""
        if wanted:
            yield does(wanted[0])
        if WORKERS == 1 or len(wanted) < 3:
            yield from map(does, wanted[1:])
            return
        from v6.host.parallel import in_order

        self.table(len(self.run.log))  # so that each has the tables that are kept
        yield from in_order(lambda number: does(wanted[number + 1]), len(wanted) - 1, WORKERS, self.forked, MomentError)

    def forked(self, number):
        """In a process of its own, whose files are its own; gives what ends its work."""
        self.run.forked(f"{number}.")
        self.guard, self.kept, self.tells = threading.Lock(), FEW_KEPT, None
        return self.end

    def end(self):
        """Ends what is at work: at once, or where a run of the program that it waits for is done."""
        self.is_ended = True
        if self.is_stepping:
            raise SystemExit

    def go_on(self, slot):
        """Goes on after so many slots, unless this was ended."""
        if self.is_ended:
            raise SystemExit
        if self.tells:
            self.tells(slot)

    def keep(self, sought, low, high, hits):
        """Keeps that between two moments what is looked for becomes so at these."""
        self.spans.setdefault(sought.key, []).append((low, high, hits))

    def span(self, sought, high):
        """Of a part that was gone through for the same up to a moment or further: where it begins, and the last hit up to that moment, or
        None; None where no part is known."""
        found = next((one for one in self.spans.get(sought.key, ()) if one[0] < high <= one[1]), None)
        if found is None:
            return None
        low, _, hits = found
        place = bisect.bisect_right(hits, high)
        return low, hits[place - 1] if place else None

    def slot_of_line(self, line):
        """The moment at which a line of the log, counted from 0 on, has come."""
        return self.run.slots_of([line], True)[line]
