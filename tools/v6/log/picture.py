"""A picture of a log, in SVG: lanes of the processes over the lines of the log, and under them who holds core and swap area.

A long log is thinned: the picture has so many columns, and a column shows what was so for most of its lines; the maps show
what was so at its end.
"""
import colorsys
from html import escape

from v6.log.processes import CORE_FIRST, SWAP_FIRST, SWAP_LAST

COLUMNS, LEFT, LANE, GAP, TOP = 1000, 150, 16, 6, 58
CORE_HEIGHT, SWAP_HEIGHT = 240, 150
SWAP_LEAST = 24
MARKS = 10  # places with a number under the picture
APART = 50  # between two numbers of slots, at least
STATES = {  # letter: how it is filled, and what it means. They differ in brightness and in pattern, for paper
    "R": ("#000000", "runs"),
    "r": ("#8c8c8c", "could run"),
    "o": ("url(#dots)", "could run, out of core"),
    "w": ("#dfe9f5", "waits; a signal wakes it"),
    "W": ("url(#lines)", "waits, out of core"),
    "s": ("url(#bars)", "sleeps; no signal wakes it"),
    "S": ("url(#lines)", "waits, out of core"),
    "z": ("url(#cross)", "has ended, not waited for"),
}
HUES = 11  # colours of holders; two numbers next to each other differ
LIGHTS = (0.62, 0.74, 0.86)  # how bright they are, in turn: paper has only this. A text is darker than all
TEXT_LIGHT = 0.49
NAMED = 27  # letters that the name of a lane has at most
STYLE = """
text { font: 11px sans-serif; fill: #000 }
.title { font-size: 13px; font-weight: bold }
.small, .unit { font-size: 9px }
.unit { text-anchor: end }
.edge { fill: none; stroke: #555; stroke-width: 1 }
.held { stroke: #444; stroke-width: 0.5 }
.tick { stroke: #999; stroke-width: 0.5 }
.axis { stroke: #000; stroke-width: 0.8 }
@page { size: %s; margin: 10mm }
@media print { svg { width: 100%%; height: auto; max-height: 100vh } }
"""
PATTERNS = """<defs>
<pattern id="dots" width="6" height="6" patternUnits="userSpaceOnUse"><rect width="6" height="6" fill="#ddd"/><circle cx="3" cy="3" r="1.6" fill="#222"/></pattern>
<pattern id="lines" width="8" height="8" patternUnits="userSpaceOnUse"><rect width="8" height="8" fill="#fff"/><path d="M-1 1L1 -1M0 8L8 0M7 9L9 7" stroke="#335" stroke-width="1.2"/></pattern>
<pattern id="bars" width="8" height="5" patternUnits="userSpaceOnUse"><rect width="8" height="5" fill="#f7efd8"/><path d="M0 2.5H8" stroke="#a08a50"/></pattern>
<pattern id="cross" width="8" height="8" patternUnits="userSpaceOnUse"><rect width="8" height="8" fill="#fff"/><path d="M0 0L8 8M0 8L8 0" stroke="#a33" stroke-width="1.2"/></pattern>
</defs>"""


class Columns:
    """The columns of a picture of so many lines."""

    def __init__(self, lines):
        self.lines, self.count = max(lines, 1), min(max(lines, 1), COLUMNS)
        self.starts = [-(-column * self.lines // self.count) for column in range(self.count + 1)]

    def of(self, line):
        return line * self.count // self.lines

    def x(self, column):
        return round(LEFT + column * COLUMNS / self.count, 2)


class Lane:
    """An entry's states: the letter of most lines of each column."""

    def __init__(self, columns):
        self.columns, self.letter, self.since = columns, ".", 0
        self.shares = [None] * columns.count  # letter -> lines, or the letter of all

    def change(self, line, letter):
        """From a line on, which counts from 0, the letter is this one."""
        if letter != self.letter:
            self.add(line)
            self.letter, self.since = letter, line

    def add(self, end):
        if self.since == end:
            return
        starts, first, last = self.columns.starts, self.columns.of(self.since), self.columns.of(end - 1)
        for column in (first, last) if first != last else (first,):
            shares = self.shares[column] = self.shares[column] or {}
            lines = min(end, starts[column + 1]) - max(self.since, starts[column])
            shares[self.letter] = shares.get(self.letter, 0) + lines
        for column in range(first + 1, last):
            self.shares[column] = {self.letter: 1}

    def pieces(self):
        """(first column, column past the last, letter), without those in which the entry is free."""
        letters = [max(shares, key=shares.get) if shares else "." for shares in self.shares]
        return pieces_of(letters, ".")


def pieces_of(values, nothing):
    """(first, past the last, value) of each stretch of equal values."""
    start = 0
    for at in range(1, len(values) + 1):
        if at == len(values) or values[at] != values[start]:
            if values[start] != nothing:
                yield start, at, values[start]
            start = at


class Picture:
    def __init__(self, lines, width, teller):
        self.columns = Columns(lines)
        self.lanes = [Lane(self.columns) for _ in range(width)]
        self.holders = []  # of each column that is done: what is held at its end
        self.names = [[] for _ in range(width)]  # the numbers of the processes that an entry has had
        self.passed = {}  # column -> how many slots of the run had passed, where a tick tells it
        self.teller, self.line = teller, 0
        self.heights = CORE_HEIGHT, SWAP_HEIGHT  # of the maps

    def take(self, table, passed=None):
        """The table after one more line."""
        for slot in table.touched - {None} if self.line else range(len(self.lanes)):
            self.lanes[slot].change(self.line, table.letter(slot))
        if passed is not None:
            self.known(passed)
        if table.entry["word"] in ("boot", "fork"):
            for slot in [0, 1] if table.entry["word"] == "boot" else [table.entry["T"]]:
                self.names[slot].append(table.rows[slot].number)
        self.line += 1
        if self.line == self.columns.starts[len(self.holders) + 1]:
            self.holders.append(set(table.holders()))

    def known(self, passed):
        """So many slots have passed before the line; of a column's numbers the roundest is kept."""
        column = min(self.columns.of(self.line), self.columns.count - 1)
        if column not in self.passed or roundness(passed) > roundness(self.passed[column]):
            self.passed[column] = passed

    def drawn(self, table):
        """The picture, when all lines were taken."""
        for lane in self.lanes:
            lane.add(self.line)
        lanes_end = TOP + len(self.lanes) * (LANE + GAP)
        core_top = lanes_end + 44 + 14 * bool(self.passed)
        maps, end = self.maps(table.core, core_top)
        width, height = LEFT + COLUMNS + 20, end + 20
        style = STYLE % ("portrait" if height > width else "landscape")  # of the page, where it is printed
        out = [f'<svg xmlns="http://www.w3.org/2000/svg" viewBox="0 0 {width} {height}" '
               f'width="{width}" height="{height}">', f"<style>{style}</style>", PATTERNS,
               '<rect width="100%" height="100%" fill="#fff"/>']
        out += self.legend() + self.drawn_lanes() + self.marks(lanes_end) + self.slots(lanes_end + 22) + maps
        return "\n".join([*out, "</svg>", ""])

    def legend(self):
        out, x = [text(4, 16, f"{self.line} lines of a log", "title")], 4
        for fill, means in dict.fromkeys(STATES.values()):
            out.append(rect(x, 28, 14, 10, fill, "edge"))
            out.append(text(x + 18, 37, means))
            x += 36 + 6 * len(means)
        return out

    def drawn_lanes(self):
        out = []
        for slot, lane in enumerate(self.lanes):
            y = TOP + slot * (LANE + GAP)
            out.append(text(4, y + 12, self.named(slot)))
            for first, last, letter in lane.pieces():
                x = self.columns.x(first)
                fill, means = STATES[letter]
                out.append(rect(x, y, round(self.columns.x(last) - x, 2), LANE, fill, title=means))
            out.append(f'<path class="tick" d="M{LEFT} {y + LANE}h{COLUMNS}"/>')
        return out

    def named(self, slot):
        """The name of a lane: its entry, and the first of the processes in it, as many as have room."""
        if not slot:
            return "entry 0: the swapper"
        numbers, count = self.names[slot], len(self.names[slot])
        first = f"entry {slot}: process "
        while count > 1 and len(first + ", ".join(map(str, numbers[:count]))) + 3 * (count < len(numbers)) > NAMED:
            count -= 1
        return first + ", ".join(map(str, numbers[:count])) + " .." * (count < len(numbers))

    def marks(self, y):
        """The numbers of lines."""
        out = [text(4, y + 14, "line of the log", "small")]
        for mark in range(MARKS + 1):
            column = min(mark * self.columns.count // MARKS, self.columns.count - 1)
            x = self.columns.x(column)
            out.append(f'<path class="tick" d="M{x} {TOP}V{y + 4}"/>')
            out.append(text(x, y + 14, str(self.columns.starts[column] + 1), side_of(x)))
        return out

    def slots(self, y):
        """An axis of slots: the lines at which it is known how many have passed, the roundest numbers of them."""
        if not self.passed:
            return []
        out = [text(4, y + 14, "slots passed", "small"), f'<path class="tick" d="M{LEFT} {y}h{COLUMNS}"/>']
        for column in self.moments():
            x = self.columns.x(column)
            out.append(f'<path class="axis" d="M{x} {y}v4"/>')
            out.append(text(x, y + 14, str(self.passed[column]), side_of(x)))
        return out

    def moments(self):
        """The columns that have a number of slots: the first and the last that are known, and the first at or after each round
        number, as far as they are apart."""
        first, *known = sorted(self.passed)
        if not known:
            return [first]
        step, x = step_of(self.passed[known[-1]] - self.passed[first]), self.columns.x
        found, wanted = [first], step
        for column in known:
            if self.passed[column] >= wanted:
                wanted = (self.passed[column] // step + 1) * step
                if min(x(column) - x(found[-1]), x(known[-1]) - x(column)) >= APART:
                    found.append(column)
        return [*found, known[-1]]

    def maps(self, core, top):
        """The maps, from here on, and where they end. That of a large core has a point for four clicks, up to twice the height;
        that of the swap area is lower where fewer than 32 blocks are held, and isn't there where none is."""
        core_high, swap_most = self.heights
        end = top + min(max(core_high, core // 4), 2 * core_high)
        maps, blocks = self.map(f"core: {core} clicks", "at", CORE_FIRST, core, top, end - top), self.swap_held()
        if blocks:
            top, high = end + 30, min(max(swap_most * blocks // 32, SWAP_LEAST), swap_most)
            maps, end = maps + self.map("swap area: blocks", "swap", SWAP_FIRST, SWAP_FIRST + blocks - 1, top, high), top + high
        return maps, end

    def swap_held(self):
        """How many blocks of the swap area there are up to the last that anybody ever holds."""
        ends = [place.start + units for held in self.holders for place, units, _ in held if place.where == "swap"]
        return min(max(ends, default=SWAP_FIRST), SWAP_LAST + 1) - SWAP_FIRST

    def map(self, name, where, first, last, top, height):
        """Who holds what over the columns, from the first unit to the last."""
        spans = {}  # (start, units, holder) -> the columns
        for column, held in enumerate(self.holders):
            for place, units, holder in held:
                if place.where == where and place.start <= last:
                    spans.setdefault((place.start, units, holder), []).append(column)
        scale, out = height / (last + 1 - first), [text(4, top + 12, name)]
        for (start, units, holder), columns in sorted(spans.items()):
            for begin, end in stretches(columns):
                x, y = self.columns.x(begin), round(top + (start - first) * scale, 2)
                wide, high = round(self.columns.x(end) - x, 2), round(max(min(units, last + 1 - start) * scale, 0.5), 2)
                called = holder if holder.startswith("text") else f"process {holder}"
                edge = "held" if min(wide, high) > 2 else ""
                out.append(rect(x, y, wide, high, colour(holder), edge, f"{called}: {start} to {start + units - 1}"))
                if wide > 8 * len(holder) and high > 8:
                    out.append(text(x + 2, round(y + min(high / 2 + 3, 11), 2), holder, "small"))
        out.append(rect(LEFT, top, COLUMNS, height, "none", "edge"))
        held = min(max((start + units - 1 for start, units, _ in spans), default=first), last)  # the last that ever is
        out.append(text(LEFT - 5, top + 8, str(first), "unit"))
        for unit in sorted({held, last} - {first}):
            end = round(top + (unit + 1 - first) * scale, 2)
            if unit == last or 18 < end - top < height - 9:
                out.append(text(LEFT - 5, end, str(unit), "unit"))
        return out


def side_of(x):
    """Where the number at a mark stands: after it, and before it at the right edge."""
    return "unit" if x > LEFT + COLUMNS - APART else "small"


def roundness(number):
    """By how large a power of ten a number can be divided, and whether by five times that; 0 is the roundest."""
    zeros = len(str(number)) - len(str(number).rstrip("0")) if number else 99
    return zeros, number % (5 * 10**zeros) == 0


def step_of(most):
    """The least of 1, 2, 5, 10, 20 .. of which no more than MARKS fit."""
    power = 1
    while True:
        for step in (power, 2 * power, 5 * power):
            if most <= MARKS * step:
                return step
        power *= 10


def stretches(columns):
    """(first, past the last) of each stretch of columns next to each other."""
    start = 0
    for at in range(1, len(columns) + 1):
        if at == len(columns) or columns[at] != columns[at - 1] + 1:
            yield columns[start], columns[at - 1] + 1
            start = at


def colour(holder):
    """A colour by number, as bright as its turn among LIGHTS says."""
    if holder.startswith("text"):
        return tint(50, TEXT_LIGHT)
    number = int(holder)
    return tint(number * 360 * 4 // HUES % 360, LIGHTS[number % 3])


def brightness(parts):
    """Of red, green and blue, each up to 1: what is left of them in grey."""
    return 0.299 * parts[0] + 0.587 * parts[1] + 0.114 * parts[2]


def tint(hue, light):
    """The colour of this hue, with white or black so that it is so bright."""
    parts = colorsys.hls_to_rgb(hue / 360, 0.6, 0.55)
    has = brightness(parts)
    mixed = [one * light / has if has > light else 1 - (1 - one) * (1 - light) / (1 - has) for one in parts]
    return "#" + "".join(f"{round(255 * one):02x}" for one in mixed)


def rect(x, y, width, height, fill, kind="", title=""):
    kind = f' class="{kind}"' if kind else ""
    inside = f"><title>{escape(title, False)}</title></rect>" if title else "/>"
    return f'<rect{kind} x="{x}" y="{y}" width="{width}" height="{height}" style="fill:{fill}"{inside}'


def text(x, y, words, kind=""):
    kind = f' class="{kind}"' if kind else ""
    return f'<text{kind} x="{x}" y="{y}">{escape(words, False)}</text>'
