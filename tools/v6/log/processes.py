"""The table of processes of a machine, line by line of its log: docs/manual/log.md."""
import re
from collections import namedtuple
from dataclasses import dataclass

SLOTS, TEXTS, MOST_NUMBER = 50, 40, 32767
MOST_BYTES = 80  # of a line
FIRST_CLICKS, CORE_FIRST, SWAP_FIRST, SWAP_LAST, CLICKS_OF_A_BLOCK = 17, 1, 4000, 4871, 8
TICKS_OF_A_SECOND, MOST_TIME = 60, 127

# Of each word of a line: what follows it. `place` is `at C` or `swap B`.
FORMS = {
    "boot": "C TIME", "go": "S", "idle": "", "trap": "S", "tick": "mode", "sleep": "S P W", "wake": "W", "signal": "S X",
    "nice": "S P", "time": "TIME", "size": "S N place", "fork": "S T place", "drop": "S K kind", "bare": "S",
    "text": "S K N swap", "share": "S K", "image": "S N place", "in": "S C", "out": "S B", "exit": "S swap", "reap": "S",
    "panic": "reason", "end": "",
}
LAST = ("end", "panic")
NUMBER = "0|[1-9][0-9]*"
NUMBERS = {  # the letter of a number, and its range
    "S": (0, 49), "T": (0, 49), "K": (0, 39), "C": (0, 65535), "N": (0, 65535), "B": (SWAP_FIRST, SWAP_LAST), "X": (1, 19),
    "TIME": (0, 2**32 - 1), "P": (-128, 127),
}
OF_CHANNELS = {  # the letter of a channel's number, and its range
    "wait": ("S", *NUMBERS["S"]), "disk": ("S", *NUMBERS["S"]), "read": ("I", 1, 65535), "write": ("I", 1, 65535),
}
PATTERNS = {
    "P": "(?P<P>-?[1-9][0-9]*|0)",
    "W": f"(?P<W>runin|runout|tout|(?:keys|show)(?:[.][1-7])?|(?:wait|disk|read|write)[.](?:{NUMBER}))",
    "place": "(?:at (?P<C>%s)|swap (?P<B>%s))" % (NUMBER, NUMBER), "swap": "swap (?P<B>%s)" % NUMBER, "mode": "(?P<mode>[uki])",
    "kind": "(?P<kind>plain|sticky)", "reason": "(?P<reason>swap|zombie|text)",
}


def pattern_of(word, form):
    parts = [PATTERNS.get(part, f"(?P<{part}>{NUMBER})") for part in form.split()]
    if word == "size":
        parts[-1] = f"(?:{parts[-1]}|keep)"
    return re.compile(" ".join([word, *parts]))


LINES = {word: pattern_of(word, form) for word, form in FORMS.items()}
Place = namedtuple("Place", "where start")  # "at" a click of core, or "swap" and a block


class LogFault(Exception):
    """What is wrong with a log: the number of the line, and why."""

    def __init__(self, number, why):
        super().__init__(f"line {number}: {why}")
        self.number = number


def no_line(text):
    """What is wrong with a line that is none of a log, whatever its numbers are."""
    if len(text) > MOST_BYTES:
        return f"it has {len(text)} bytes, and a line has {MOST_BYTES} at most"
    if text.endswith("\r"):
        return "a line ends by a line feed alone, and this one has a carriage return at its end"
    return f"no line of a log: {text!r}"


def check_channel(channel, text, number):
    """The number of a channel is in its range."""
    kind, _, value = channel.partition(".")
    letter, least, most = OF_CHANNELS.get(kind, (None, 0, 0))
    if letter and not least <= int(value) <= most:
        raise LogFault(number, f"{letter} of {kind}.{letter} is {least} to {most}: {text}")


def entry_of(text, number):
    """The word of a line and its numbers by their letters."""
    word = text.partition(" ")[0]
    found = LINES[word].fullmatch(text) if word in LINES and len(text) <= MOST_BYTES else None
    if not found:
        raise LogFault(number, no_line(text))
    entry = {"word": word}
    for name, value in found.groupdict().items():
        if value is None:
            continue
        if name in NUMBERS:
            value = int(value)
            least, most = NUMBERS[name]
            if not least <= value <= most:
                raise LogFault(number, f"{name} is {least} to {most}: {text}")
        entry[name] = value
    if "W" in entry:
        check_channel(entry["W"], text, number)
    if "C" in entry and word != "boot":
        entry["place"] = Place("at", entry["C"])
    elif "B" in entry:
        entry["place"] = Place("swap", entry["B"])
    return entry


def blocks(clicks):
    return -(-clicks // CLICKS_OF_A_BLOCK)


@dataclass
class Row:
    """A process: its state is "ready", "asleep" or "dead". Below a priority of 0 no signal wakes it. Its time is for how many
    seconds it has been in core or out of it: docs/manual/clock.md."""

    number: int
    parent: int
    size: int
    place: Place = None
    state: str = "ready"
    channel: str = ""
    priority: int = 0
    text: int = None
    program: tuple = (0, 0)  # the clicks of the image and of the text that exec(II) made of its program
    time: int = 0

    def is_loaded(self):
        return self.place is None or self.place.where == "at"


@dataclass
class Text:
    clicks: int
    block: int
    users: int = 1
    loaded: int = 0
    click: int = 0


class Table:
    """The table of processes and that of texts after the lines that were taken."""

    def __init__(self):
        self.rows, self.texts = {}, {}
        self.running, self.last, self.core, self.time = None, 1, 0, 0
        self.ticks = 0  # of all that came
        self.lines, self.number, self.over = 0, 0, False
        self.touched = set()  # the entries whose letter the last line may have changed

    def read(self, text):
        """The word and the numbers of the next line, by their letters."""
        number = self.number = self.lines + 1
        entry = entry_of(text, number)
        if self.over:
            raise LogFault(number, f"a line after the last: {text[:60]}")
        if (entry["word"] == "boot") != (number == 1):
            raise LogFault(number, "`boot` is the first line, and no other is")
        return entry

    def apply(self, entry):
        """What the line says has happened."""
        self.touched = {self.running, entry.get("S"), entry.get("T")}
        getattr(self, "take_" + entry["word"])(entry)
        self.touched.add(self.running)
        self.entry, self.lines = entry, self.number
        self.over = entry["word"] in LAST

    def take(self, text):
        """Takes one more line of a log, and gives its word and numbers. One that can't be there is a LogFault."""
        entry = self.read(text)
        self.apply(entry)
        return entry

    def row(self, slot):
        if slot not in self.rows:
            raise LogFault(self.number, f"entry {slot} is free there")
        return self.rows[slot]

    def text(self, place):
        if place not in self.texts:
            raise LogFault(self.number, f"text {place} isn't in use there")
        return self.texts[place]

    def program(self, row, clicks):
        """What a program of so many clicks is known by: these, and those of the text that its process has."""
        return clicks, 0 if row.text is None else self.text(row.text).clicks

    def leaves_core(self, row):
        """The text that leaves core with an image, or None."""
        text = None if row.text is None or row.place is None or row.place.where != "at" else self.text(row.text)
        return row.text if text and text.loaded == 1 else None

    def take_boot(self, entry):
        self.core, self.time = entry["C"], entry["TIME"]
        self.rows = {0: Row(0, 0, 0), 1: Row(1, 0, FIRST_CLICKS, Place("at", CORE_FIRST))}
        self.running = 0

    def take_go(self, entry):
        row = self.row(entry["S"])
        row.state, row.channel = "ready", ""
        self.running = entry["S"]

    def take_idle(self, entry):
        self.running = None

    def take_trap(self, entry):
        self.row(entry["S"])

    take_nice = take_trap

    def take_end(self, entry):
        pass

    take_panic = take_end

    def take_tick(self, entry):
        self.ticks += 1
        if self.ticks % TICKS_OF_A_SECOND == 0:
            for row in self.rows.values():
                row.time = min(MOST_TIME, row.time + 1)
            self.wake_swapper("runin")

    def second(self):
        """Which second of the run it is, counted from 1 on."""
        return self.ticks // TICKS_OF_A_SECOND + 1

    def take_time(self, entry):
        self.time = entry["TIME"]

    def take_sleep(self, entry):
        row = self.row(entry["S"])
        row.state, row.channel, row.priority = "asleep", entry["W"], entry["P"]
        if self.running == entry["S"]:
            self.running = None
        if row.priority >= 0:
            self.wake_swapper("runin")

    def sleepers(self, channel):
        return [slot for slot, row in sorted(self.rows.items()) if row.state == "asleep" and row.channel == channel]

    def take_wake(self, entry):
        for slot in self.sleepers(entry["W"]):
            self.wake(slot)

    def wake(self, slot):
        self.touched |= {slot, 0}
        row = self.rows[slot]
        row.state, row.channel = "ready", ""
        if not row.is_loaded():
            self.wake_swapper("runout")

    def wake_swapper(self, channel):
        """Wakes the swapper, where that is what it sleeps for: docs/manual/swapper.md. The log has no line for it."""
        swapper = self.rows[0]
        if swapper.channel == channel:
            swapper.state, swapper.channel = "ready", ""
            self.touched.add(0)

    def take_signal(self, entry):
        row = self.row(entry["S"])
        if row.state == "asleep" and row.priority >= 0:
            self.wake(entry["S"])

    def take_size(self, entry):
        row = self.row(entry["S"])
        row.size = entry["N"]
        if "place" in entry:
            self.move(row, entry["place"])

    def move(self, row, place):
        """An image goes to a place; its text has one loaded user more, or one less. In the swap area its time begins anew."""
        text = None if row.text is None else self.texts.get(row.text)
        if text:
            was = row.place is not None and row.place.where == "at"
            text.loaded += (place is not None and place.where == "at") - was
        row.place = place
        if place.where == "swap":
            row.time = 0
            self.wake_swapper("runout")

    def next_number(self):
        """The number of the next child: docs/manual/processes.md."""
        taken, number = {row.number for row in self.rows.values()}, self.last
        while True:
            number = number % MOST_NUMBER + 1
            if number not in taken:
                return number

    def take_fork(self, entry):
        parent = self.row(entry["S"])
        if entry["T"] in self.rows:
            raise LogFault(self.number, f"entry {entry['T']} isn't free there")
        self.last = self.next_number()
        child = Row(self.last, parent.number, parent.size, text=parent.text, program=parent.program)
        self.rows[entry["T"]] = child
        if child.text is not None:
            self.text(child.text).users += 1
        self.move(child, entry["place"])

    def take_drop(self, entry):
        row, text = self.row(entry["S"]), self.text(entry["K"])
        if row.text != entry["K"]:
            raise LogFault(self.number, f"entry {entry['S']} doesn't have text {entry['K']} there")
        text.users -= 1
        text.loaded -= row.place is not None and row.place.where == "at"
        row.text = None
        if not text.users and entry["kind"] == "plain":
            del self.texts[entry["K"]]

    def take_bare(self, entry):
        self.row(entry["S"]).place = None

    def take_text(self, entry):
        if entry["K"] in self.texts:
            raise LogFault(self.number, f"text {entry['K']} is in use there")
        self.row(entry["S"]).text = entry["K"]
        self.texts[entry["K"]] = Text(entry["N"], entry["B"])

    def take_share(self, entry):
        self.text(entry["K"]).users += 1
        self.row(entry["S"]).text = entry["K"]

    def take_image(self, entry):
        row = self.row(entry["S"])
        row.size, row.program = entry["N"], self.program(row, entry["N"])
        self.move(row, entry["place"])

    def take_in(self, entry):
        row, start = self.row(entry["S"]), entry["C"]
        text = None if row.text is None else self.text(row.text)
        if text and not text.loaded:
            text.click = start
            start += text.clicks
        self.move(row, Place("at", start))
        row.time = 0

    def take_out(self, entry):
        self.move(self.row(entry["S"]), Place("swap", entry["B"]))

    def take_exit(self, entry):
        gone = self.row(entry["S"])
        gone.state, gone.channel, gone.place = "dead", "", Place("swap", entry["B"])
        numbers = {row.number for row in self.rows.values()} - {0}
        for row in self.rows.values():
            if row.parent == gone.number or row.number and row.parent and row.parent not in numbers:
                row.parent = 1
        if self.running == entry["S"]:
            self.running = None

    def take_reap(self, entry):
        self.row(entry["S"])
        del self.rows[entry["S"]]

    def letter(self, slot):
        """The state of an entry, as a letter: see docs/tools/log.md."""
        row = self.rows.get(slot)
        if row is None:
            return "."
        if row.state == "dead":
            return "z"
        if row.state == "asleep":
            letter = "w" if row.priority >= 0 else "s"
            return letter if row.is_loaded() else letter.upper()
        if slot == self.running:
            return "R"
        return "r" if row.is_loaded() else "o"

    def holders(self):
        """Who holds what, as (place, units, name): clicks of core, and blocks of the swap area."""
        for slot, row in self.rows.items():
            if slot and row.place:
                inside = row.place.where == "at"
                units = row.size if inside else 1 if row.state == "dead" else blocks(row.size)
                yield row.place, units, str(row.number)
        for place, text in self.texts.items():
            yield Place("swap", text.block), blocks(text.clicks), f"text {place}"
            if text.loaded:
                yield Place("at", text.click), text.clicks, f"text {place}"
