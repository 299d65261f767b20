"""A log as it is told, line by line."""
from v6.log.processes import SLOTS, Table
from v6.log.words import Teller

CUT = "the log ends within a run: its last line is neither `end` nor `panic`"
NOTHING = "the log is empty"
OTHER = "the script isn't that of this run: it has {} ticks, and the log {}"


def lines_of(data):
    """The lines of a log; one without its end counts too."""
    *lines, last = data.decode("ascii", "replace").split("\n")
    return lines + [last] if last else lines


class Story:
    """A log, told line by line. `moments` has how many slots have passed at each tick."""

    def __init__(self, data, programs=None, moments=(), table=None):
        self.lines, self.table, self.moments = lines_of(data), table or Table(), iter(moments)
        self.teller = Teller(self.table, programs)
        self.ticks, self.timed = 0, 0  # of the lines so far, and those of them that the script has too

    def width(self):
        """How many entries are shown: those up to the highest that a fork names."""
        forks = [line.split(" ") for line in self.lines if line.startswith("fork ")]
        named = [int(words[2]) for words in forks if len(words) > 2 and words[2].isdecimal()]
        return min(max(named, default=1) + 1, SLOTS)

    def take(self, line):
        """What a line tells, and how many slots have passed, where that is known."""
        entry = self.table.read(line)
        words = self.teller.told(entry)
        self.table.apply(entry)
        return words, self.moment() if entry["word"] == "tick" else None

    def moment(self):
        """How many slots have passed at one more tick, where the script has it."""
        passed = next(self.moments, None)
        self.ticks, self.timed = self.ticks + 1, self.timed + (passed is not None)
        return passed

    def other_script(self):
        """Why the script can't be that of this run, when all lines are told, or None. A run that was cut or has stopped may
        have had fewer ticks than its script."""
        more = sum(1 for _ in self.moments) if self.lines and self.lines[-1] == "end" else 0
        fits = self.timed == self.ticks and not more
        return None if fits else OTHER.format(self.timed + more, self.ticks)

    def letters(self, width):
        return "".join(self.table.letter(slot) for slot in range(width))
