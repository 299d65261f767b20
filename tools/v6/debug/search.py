"""Searches over the moments of a run, forwards and backwards.

What the log tells is found by its lines. What memory alone tells is found by going through the slots of the run, each one: walk.py."""
import contextlib

from v6.debug.calls import call_at
from v6.debug.walk import Walk, calls, first, last
from v6.run.moments import WORKERS, is_turn

NEAREST, LEAST, LONGEST = 1024, 4096, 262_144  # slots of a part backwards: of the first, and of those after it the least and the most
AT_ONCE, MANY = 16, 64  # calls that are looked at together, and so many that all slots are gone through
BLOCK = 4096  # lines of the log that are gone through together, backwards


class Event:
    """A line of the log: with this word, or with any where it is None, and about this process, where one is named."""

    def __init__(self, word=None, number=None):
        self.word, self.number = word, number

    def has(self, table, text):
        """Takes a line, and tells whether it is such a one."""
        slot = self.slot(table)
        letter = None if slot is None else table.letter(slot)
        entry = table.take(text)
        if self.word not in (None, entry["word"]):
            return False
        if self.number is None:
            return True
        slot = self.slot(table) if slot is None else slot
        return slot is not None and (slot in (entry.get("S"), entry.get("T")) or table.letter(slot) != letter)

    def slot(self, table):
        return next((slot for slot, row in table.rows.items() if row.number == self.number), None)


class State(Event):
    """A line after which `holds`, of the table and of the row's entry, is true, and was not before it."""

    def __init__(self, number, holds):
        super().__init__(None, number)
        self.holds = holds

    def now(self, table):
        slot = self.slot(table)
        return slot is not None and self.holds(table, slot)

    def has(self, table, text):
        before = self.now(table)
        table.take(text)
        return not before and self.now(table)


class Search:
    """From a moment of a history, forwards or backwards; each gives the slots of the moment that is found, or None."""

    def __init__(self, history, moment, forwards):
        self.history, self.moment, self.forwards = history, moment, forwards

    # by the log

    def lines(self, event):
        """The lines of the log that are such an event, from the moment on, one after the other."""
        return self.lines_after(event) if self.forwards else self.lines_before(event)

    def lines_after(self, event):
        table, lines = self.history.table(self.moment.lines), self.history.run.log
        for number in range(self.moment.lines, len(lines)):
            if event.has(table, lines[number]):
                yield number

    def lines_before(self, event):
        lines, end = self.history.run.log, self.moment.first
        while end:
            start = (end - 1) // BLOCK * BLOCK
            table = self.history.table(start)
            found = [number for number in range(start, end) if event.has(table, lines[number])]
            yield from reversed(found)
            end = start

    def event(self, event):
        """The next moment at which such a line comes, or the last one."""
        line = next(self.lines(event), None)
        return None if line is None else self.within(self.history.slot_of_line(line))

    def within(self, slots):
        return slots if slots <= self.history.last else None

    def state(self, state):
        """The next moment at which a state holds that did not hold before, or the last one."""
        for line in self.lines(state):
            slots = self.within(self.history.slot_of_line(line))
            if slots is None:
                return None
            if state.now(self.history.table(self.history.count(slots))):
                return slots
        return None

    # by calls

    def call(self, name, number):
        """The next moment at which a process stands at such a call, or the last one. Where the nearest turns in the kernel aren't such
        calls, and many are left, all slots are gone through."""
        lines = self.history.run.log
        numbers = range(self.moment.lines, len(lines)) if self.forwards else range(self.moment.lines - 1, -1, -1)
        turns = [line for line in numbers if is_turn(lines[line])]
        for at in range(0, len(turns), AT_ONCE):
            chunk = turns[at : at + AT_ONCE]
            slots = self.history.run.slots_of(chunk)
            wanted = [(slots[line] - 1, int(lines[line].split(" ")[1])) for line in chunk if self.is_past(slots[line] - 1)]
            for (slot, _), is_found in zip(wanted, self.history.each(lambda one: self.stands(one, name, number), wanted)):
                if is_found:
                    return slot
            if len(turns) - at > MANY:
                return self.begun(slots[chunk[-1]], lambda one: number in (None, one[1]) and name in ("", one[2]))
        return None

    def begun(self, slot, is_wanted):
        """The same by the calls that are begun after a slot, or before it."""
        if self.forwards:
            walk = Walk(self.history, slot, knows=True)
            found = next(filter(is_wanted, walk.calls(self.history.last)), None)
            walk.check()
            return found and found[0]
        parts = parts_of(slot - 1)
        with contextlib.closing(self.history.in_order(lambda part: calls(self.history, *part), parts)) as told:
            return next((one[0] for found in told for one in reversed(found) if is_wanted(one)), None)

    def is_past(self, slots):
        return 0 <= slots <= self.history.last and (slots > self.moment.slots if self.forwards else slots < self.moment.slots)

    def stands(self, place, name, number):
        """Whether at a moment the process in an entry stands at such a call."""
        moment = self.history.moment(place[0])
        row = moment.table.rows.get(place[1])
        process = moment.process(row.number) if row else None
        if process is None or not process.parts or process.pending or number not in (None, row.number):
            return False
        found = call_at(process)
        return found is not None and name in ("", found.name)

    # by memory

    def sought(self, *wanted):
        """The next moment at which what is looked for of a process, or of several, becomes so, or the last one. All moments are gone
        through: forwards one after the other, backwards in parts, each of them forwards."""
        if not self.forwards:
            return self.last(wanted)
        nearest = None
        for one in wanted:
            nearest = first(self.history, one, self.moment.slots, nearest or self.history.last) or nearest
        return nearest

    def last(self, wanted):
        """The last moment, by what was found when the same was looked for before, as far as that goes."""
        high = self.moment.slots - 1
        while high > 0:
            spans = [self.history.span(one, high) for one in wanted]
            if None in spans:
                return self.gone_through(wanted, high)
            high, found = max(low for low, _ in spans), [hit for _, hit in spans if hit is not None]
            if found and max(found) > high:
                return max(found)
        return None

    def gone_through(self, wanted, high):
        """The last moment up to one, where the parts are gone through, the nearest first, and as many at a time as there are processors."""
        parts = parts_of(high)
        with contextlib.closing(self.history.in_order(lambda part: [last(self.history, one, *part) for one in wanted], parts)) as told:
            for (_, top), spans in zip(parts, told):
                for one, (low, hits) in zip(wanted, spans):
                    self.history.keep(one, low, top, hits)
                found = [hits[-1] for _, hits in spans if hits]
                if found:
                    return max(found)
        return None


def parts_of(high):
    """The run up to a moment in parts, each with the moment before it, the nearest first: they become longer with their distance."""
    found, top, size = [], high, NEAREST
    while top:
        found.append((max(top - size, 0), top))
        top = found[-1][0]
        size = min(max(LEAST, (high - top) // WORKERS), LONGEST)
    return found
