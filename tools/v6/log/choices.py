"""Who runs next and what the swapper does, by the rules of docs/manual/clock.md and docs/manual/swapper.md, and why."""
from v6.log.processes import CORE_FIRST, SLOTS, SWAP_FIRST, SWAP_LAST, TICKS_OF_A_SECOND, Table, blocks

USER, WORST, MOST_USE, A_SECOND_LESS, USE_OF_A_PRIORITY = 100, 127, 255, 10, 16
OUT_LONG_ENOUGH, IN_LONG_ENOUGH = 3, 2  # seconds
CHOICES = ("go", "idle")


def first_fit(taken, first, last, units):
    """The lowest start of so many units between two numbers that meet none of what is taken, or None."""
    at = first
    for start, count in sorted(taken):
        if at + units <= start:
            break
        at = max(at, start + count)
    return at if at + units - 1 <= last else None


def seconds(count):
    return f"{count} second" + "s" * (count != 1)


def several(slots):
    *most, last = [str(slot) for slot in slots]
    return f"entries {', '.join(most)} and {last}" if most else f"entry {last}"


class Ruled(Table):
    """A table that knows the priorities too, so that the next line can be foretold where it is a choice."""

    def __init__(self):
        super().__init__()
        self.priority, self.use, self.nice, self.chosen = {0: 0, 1: 0}, {0: 0, 1: 0}, {0: 0, 1: 0}, 0

    # what the lines change

    def set_priority(self, slot):
        self.priority[slot] = min(WORST, USER + self.nice[slot] + self.use[slot] // USE_OF_A_PRIORITY)

    def take_go(self, entry):
        super().take_go(entry)
        self.chosen = entry["S"]

    def take_trap(self, entry):
        self.row(entry["S"])
        self.set_priority(entry["S"])

    def take_nice(self, entry):
        self.row(entry["S"])
        self.nice[entry["S"]] = entry["P"]

    def take_sleep(self, entry):
        super().take_sleep(entry)
        self.priority[entry["S"]] = entry["P"]

    def take_signal(self, entry):
        super().take_signal(entry)
        self.priority[entry["S"]] = min(self.priority[entry["S"]], USER)

    def take_tick(self, entry):
        running = self.running or 0
        self.use[running] = min(MOST_USE, self.use[running] + 1)
        super().take_tick(entry)
        if self.ticks % TICKS_OF_A_SECOND == 0:
            for slot in self.rows:
                self.use[slot] = max(0, self.use[slot] - A_SECOND_LESS)
                if self.priority[slot] > USER:
                    self.set_priority(slot)
            if entry["mode"] == "u" and running:
                self.set_priority(running)

    def take_fork(self, entry):
        super().take_fork(entry)
        parent, child = entry["S"], entry["T"]
        self.priority[child], self.use[child], self.nice[child] = 0, 0, self.nice[parent]

    # the choice of the process that runs

    def ready(self):
        """The entries that can run and are in core, from the one after that which was chosen last on."""
        after = [(self.chosen + 1 + number) % SLOTS for number in range(SLOTS)]
        rows = [(slot, self.rows[slot]) for slot in after if slot in self.rows]
        return [slot for slot, row in rows if row.state == "ready" and row.is_loaded()]

    def next_choice(self):
        """The line of the choice, and why."""
        ready = self.ready()
        if not ready:
            return "idle", "nobody in core can run"
        least = min(self.priority[slot] for slot in ready)
        best = [slot for slot in ready if self.priority[slot] == least]
        why = f"the least priority of those that can run is {least}, that of {several(sorted(best))}"
        if len(best) > 1:
            why += f"; entry {self.chosen} was chosen last, and from the next one on entry {best[0]} comes first in the round"
        return f"go {best[0]}", why

    # the swapper

    def taken(self, where):
        return [(place.start, units) for place, units, _ in self.holders() if place.where == where]

    def longest(self, slots):
        """The entry that has been for longest where it is, the lowest of equals; None of none."""
        return max(sorted(slots), key=lambda slot: self.rows[slot].time, default=None)

    def wanting(self):
        return [slot for slot, row in self.rows.items() if slot and row.state == "ready" and not row.is_loaded()]

    def goes_out(self, slot, why):
        """The line with which an entry goes out, and why; where no block is left for its image, that of the panic."""
        count = blocks(self.rows[slot].size)
        block = first_fit(self.taken("swap"), SWAP_FIRST, SWAP_LAST, count)
        if block is None:
            return "panic swap", f"{why}; but there are nowhere {count} blocks free for it"
        return f"out {slot} {block}", why

    def next_move(self):
        """The swapper's next line, and why, with the numbers of the rules in docs/manual/swapper.md."""
        slot = self.longest(self.wanting())
        if slot is None:
            return "sleep 0 -100 runout", "nobody out of core can run, so it sleeps (1)"
        row = self.rows[slot]
        text = None if row.text is None else self.texts[row.text]
        size = row.size + (text.clicks if text and not text.loaded else 0)
        why = f"entry {slot} has been out of core for longest, {seconds(row.time)} (1)"
        at = first_fit(self.taken("at"), CORE_FIRST, self.core, size)
        if at is not None:
            return f"in {slot} {at}", f"{why}, and there is room for {size} clicks at click {at} (2)"
        line, more = self.makes_room(row.time)
        return line, f"{why}, and there is no room for {size} clicks (2); {more}"

    def makes_room(self, time):
        """What it does where there is no room for a process that has been out for this time."""
        inside = {slot: row for slot, row in self.rows.items() if slot and row.place and row.place.where == "at"}
        easy = [slot for slot, row in inside.items() if row.state == "asleep" and row.priority >= 0]
        if easy:
            return self.goes_out(min(easy), f"entry {min(easy)} is the lowest in core that waits so that a signal wakes it (3)")
        sleeps, nobody = "sleep 0 -100 runin", "nobody in core waits so that a signal wakes it (3)"
        if time < OUT_LONG_ENOUGH:
            return sleeps, f"{nobody}, and less than three seconds are too few: it sleeps (4)"
        oldest = self.longest(slot for slot, row in inside.items() if row.state != "dead")
        if oldest is None or self.rows[oldest].time < IN_LONG_ENOUGH:
            return sleeps, f"{nobody}, three seconds are enough (4), and nobody has been there for two: it sleeps (5)"
        stayed = seconds(self.rows[oldest].time)
        why = f"{nobody}, three seconds are enough (4), and entry {oldest} has been there for longest, {stayed} (5)"
        return self.goes_out(oldest, why)

    def foretold(self, entry):
        """What the line has to be where it is a choice, and why; None where it is none."""
        if entry["word"] in CHOICES:
            return self.next_choice()
        moves = entry["word"] in ("in", "out") or entry["word"] == "sleep" and not entry["S"]
        return self.next_move() if moves and self.running == 0 and self.lines > 1 else None

    def is_open(self, entry):
        """Whether a choice has more than one side: two that can run, or somebody who wants to come in."""
        return len(self.ready()) > 1 if entry["word"] in CHOICES else bool(self.wanting())
