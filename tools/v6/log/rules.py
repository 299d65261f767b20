"""By which rule a line of a log isn't lawful: docs/manual/log.md, whose words these are; and which line is."""
from v6.log.choices import CHOICES, first_fit
from v6.log.processes import CORE_FIRST, SLOTS, SWAP_FIRST, SWAP_LAST, TEXTS, LogFault, blocks, entry_of

BEGINS = ("the first line is `boot`, with 64 to 3968 clicks", "the second is `sleep 0 -100 runout`")
ENDS = "the last is `end` or a `panic`, and none before it is"
BARED = "Nothing fits then but `text`, `share`, `image` of S and `panic`, until its `image`"
OF_BARE = "text", "share", "image", "panic"
LEAST_CLICKS, MOST_CLICKS = 16, 2048  # of an image
LEAST_CORE, MOST_CORE = 64, 3968  # clicks
OWN = ("trap", "nice", "size", "fork", "drop", "bare", "text", "share", "image", "exit", "signal")  # never of entry 0
PRIORITIES = {"read": 1, "write": 1, "keys": 10, "show": 20, "wait": 40, "tout": 90, "disk": -50}  # by what is slept for
CHOICE = ("there is a choice: nobody runs; or the image of the one that runs isn't in core; or `runrun` is set, and the one "
          "that runs isn't entry 0 and is in no call. S is then the first of the least priority among those that can run and "
          "are in core, round from the entry after `last`; `idle` stands where there is none")
SWAPPER = ("entry 0 runs, and this is the move that the rules of the swapper make; B begins the lowest free piece that is "
           "large enough for the image")
MODES = (("tick u", "somebody other than entry 0 runs, and is in no call"),
         ("tick k", "one runs that is in a call, or entry 0 does"), ("tick i", "nobody runs"))
PANICS = ("somebody other than entry 0 runs, and for `swap` the swap area has no piece for 2048 clicks, or for all of core "
          "where that is less; for `zombie` it has no free block; for `text` no text is free. Where entry 0 runs, `swap` "
          "alone: by the rules of the swapper an image goes out, and there is no piece for it")
IMAGE = "N is 16 at least, and 2048 and core at most"
RULES = {  # by the first word: the forms of the lines, and where they fit
    "go": ("`go S`, `idle`", CHOICE), "idle": ("`go S`, `idle`", CHOICE),
    "trap": ("`trap S`, `nice S P`", "S runs"), "nice": ("`trap S`, `nice S P`", "S runs"),
    "tick": ("`tick u`, `tick k`, `tick i`", "in this order: " + "; ".join(mode for _, mode in MODES)),
    "sleep": ("`sleep S P W`", "S runs, and P is the priority of W: 1 of `read.I` and `write.I`, 10 of `keys` and `keys.L`, 20 "
              "of `show` and `show.L`, 40 of `wait.S` with S itself, 90 of `tout`, -50 of `disk.S` with S itself, and no other "
              "W. Of entry 0: it runs, P is -100, and the rules of the swapper let it wait for W"),
    "wake": ("`wake W`", "always"),
    "signal": ("`signal S X`", "S isn't 0, and the entry is in use, also by one that has ended"),
    "time": ("`time TIME`", "somebody other than entry 0 runs"),
    "size": ("`size S N ..`", f"S runs; {IMAGE}; `keep` stands exactly where N is no more than the size before, and else the "
             "place is that of first fit for N clicks"),
    "fork": ("`fork S T ..`", "S runs, T is the lowest free entry, and the place is that of first fit for the size of S"),
    "drop": ("`drop S K ..`", "S runs and has text K"),
    "bare": ("`bare S`", f"S runs and has a place and no text. {BARED}"),
    "text": ("`text S K N swap B`", "S runs and has neither place nor text; K is the lowest free text; N is 1 at least, and "
             "2048 and core at most; and B begins the lowest piece of (N + 7) / 8 free blocks"),
    "share": ("`share S K`", "S runs and has neither place nor text; K is in use, also without a user"),
    "image": ("`image S N ..`", f"S runs and has no place; {IMAGE}; and the place is that of first fit for N clicks"),
    "in": ("`in S C`, `out S B`", SWAPPER), "out": ("`in S C`, `out S B`", SWAPPER),
    "exit": ("`exit S swap B`", "S runs and has no text, and B is the lowest free block"),
    "reap": ("`reap S`", "somebody other than entry 0 runs, and the process in entry S has ended"),
    "panic": ("`panic ..`", PANICS),
    "end": ("`end`", "there is no choice; or the line before is `idle`"),
}


class Wanted:
    """The lines that the rules may give in the place of one of a log: each with why. S and N are those of the log's line. Which
    of them is lawful there, if any, is for the auditor to say."""

    def __init__(self, table, entry):
        self.table, self.entry = table, entry
        self.slot, self.row = entry.get("S"), table.rows.get(entry.get("S"))
        self.most = min(table.core, MOST_CLICKS)

    def lines(self):
        word = self.entry["word"]
        if word in CHOICES or word == "end":
            return [self.table.next_choice()]
        if word == "tick":
            return MODES
        if self.table.running == 0:
            return [self.table.next_move()] if word in ("in", "out", "sleep", "panic") else []
        found = getattr(self, "line_of_" + word, None) if self.slot == self.table.running else None
        return list(filter(None, [found()])) if found else []

    def image(self, begins, clicks):
        """The line of an image of so many clicks that gets a place: by first fit, in core where its text is there."""
        text = self.table.texts.get(self.row.text)
        may_load = text is None or text.loaded
        at = first_fit(self.table.taken("at"), CORE_FIRST, self.table.core, clicks) if may_load else None
        why = ("" if may_load else "its text isn't in core, and ") + f"first fit for {clicks} clicks is "
        if at is not None:
            return f"{begins} at {at}", f"{why}`at {at}`"
        block = self.block(clicks)
        return ("panic swap", f"{why}nowhere") if block is None else (f"{begins} swap {block}", f"{why}`swap {block}`")

    def block(self, clicks):
        return first_fit(self.table.taken("swap"), SWAP_FIRST, SWAP_LAST, blocks(clicks))

    def line_of_image(self):
        clicks = self.entry["N"]
        is_due = self.row.place is None and LEAST_CLICKS <= clicks <= self.most
        return self.image(f"image {self.slot} {clicks}", clicks) if is_due else None

    def line_of_size(self):
        clicks = self.entry["N"]
        if not LEAST_CLICKS <= clicks <= self.most:
            return None
        if clicks <= self.row.size:
            return f"size {self.slot} {clicks} keep", f"the size before is {self.row.size}"
        return self.image(f"size {self.slot} {clicks}", clicks)

    def line_of_fork(self):
        child = next((slot for slot in range(SLOTS) if slot not in self.table.rows), None)
        if child is None:
            return None
        line, why = self.image(f"fork {self.slot} {child}", self.row.size)
        return line, f"the lowest free entry is {child}, and {why}"

    def line_of_text(self):
        clicks = self.entry["N"]
        if self.row.place is not None or self.row.text is not None or not 1 <= clicks <= self.most:
            return None
        text, block = next((text for text in range(TEXTS) if text not in self.table.texts), None), self.block(clicks)
        if text is None:
            return "panic text", "all forty texts are in use"
        why = f"the lowest free text is {text}, and first fit for {counted(blocks(clicks))} is "
        if block is None:
            return "panic swap", f"{why}nowhere"
        return f"text {self.slot} {text} {clicks} swap {block}", f"{why}`swap {block}`"

    def line_of_exit(self):
        if self.row.text is not None:
            return None
        block = self.block(1)
        if block is None:
            return "panic zombie", "no block is free"
        return f"exit {self.slot} swap {block}", "this is the lowest free block"

    def line_of_drop(self):
        text = self.row.text
        return None if text is None else (f"drop {self.slot} {text} {self.entry['kind']}", f"entry {self.slot} has text {text}")


class Broken:
    """Which part of its rule a line breaks, by the table alone, where the one runs for whom the line could stand. Each part is
    told only where it is so; None stands for no part that is known."""

    def __init__(self, table, entry):
        self.table, self.entry = table, entry
        self.slot, self.row = entry.get("S"), table.rows.get(entry.get("S"))

    def part(self):
        word = self.entry["word"]
        if self.slot == 0 and word in OWN:
            return "S is 0, and entry 0 is the swapper's"
        found = getattr(self, "part_of_" + word, None)
        return found() if found else None

    def clicks(self, least=LEAST_CLICKS):
        clicks, core = self.entry["N"], self.table.core
        if clicks < least:
            return f"{clicks} is less than {least}"
        if clicks > MOST_CLICKS:
            return f"{clicks} is more than {MOST_CLICKS}"
        return f"{clicks} is more than core, which has {core} clicks" if clicks > core else None

    def with_place(self):
        return None if self.row.place is None else f"Entry {self.slot} has a place"

    def with_text(self):
        return None if self.row.text is None else f"Entry {self.slot} has text {self.row.text}"

    part_of_size, part_of_bare, part_of_exit = clicks, with_text, with_text

    def part_of_image(self):
        return self.with_place() or self.clicks()

    def part_of_text(self):
        return self.with_place() or self.with_text() or self.clicks(1)

    def part_of_share(self):
        is_there = self.entry["K"] in self.table.texts
        return self.with_place() or self.with_text() or (None if is_there else f"Text {self.entry['K']} isn't in use")

    def part_of_drop(self):
        return f"Entry {self.slot} has no text" if self.row.text is None else None

    def part_of_fork(self):
        return "No entry is free" if len(self.table.rows) == SLOTS else None

    def part_of_signal(self):
        return None if self.row else f"Entry {self.slot} is empty"

    def part_of_reap(self):
        if not self.row:
            return f"Entry {self.slot} is empty"
        return None if self.row.state == "dead" else f"The process in entry {self.slot} hasn't ended"

    def part_of_sleep(self):
        channel = self.entry["W"]
        kind, _, number = channel.partition(".")
        if self.slot == 0:
            return None  # then it is the swapper's, for which the rules give a line
        if kind not in PRIORITIES:
            return f"Entry 0 alone sleeps for {channel}"
        if kind in ("wait", "disk") and int(number) != self.slot:
            return f"Of the channels {kind}.S entry {self.slot} may sleep for {kind}.{self.slot} alone"
        return None if self.entry["P"] == PRIORITIES[kind] else f"The priority of {channel} is {PRIORITIES[kind]}"

    def part_of_panic(self):
        """The room that there is, though it is said to be missing; the swapper's panic has its line by the rules."""
        if self.table.running == 0:
            return None
        if self.entry["reason"] == "text":
            free = next((text for text in range(TEXTS) if text not in self.table.texts), None)
            return None if free is None else f"Entry {free} is free"
        count = 1 if self.entry["reason"] == "zombie" else blocks(min(self.table.core, MOST_CLICKS))
        block = first_fit(self.table.taken("swap"), SWAP_FIRST, SWAP_LAST, count)
        if block is None:
            return None
        return f"Block {block} is free" if count == 1 else f"There is a piece of {count} free blocks, from block {block} on"


def counted(count):
    return f"{count} block" + "s" * (count != 1)


def right_line(table, entry, is_lawful):
    """The line that the rules give in the place of one, with why, as far as it is known to be lawful there; else who runs,
    where that is another than the line wants; else the part of the rule that it breaks."""
    for line, why in Wanted(table, entry).lines():
        if is_lawful(line):
            return [f"The rules would make it `{line}`: {why}"]
    if entry["word"] in CHOICES and table.entry["word"] != "idle" and is_lawful("end"):  # after `idle` it fits beside a choice
        return ["There is no choice there"]
    if not runs_as_wanted(table.running, entry):
        return ["Nobody runs there" if table.running is None else f"Entry {table.running} runs there"]
    return list(filter(None, [Broken(table, entry).part()]))


def runs_as_wanted(running, entry):
    """Whether somebody runs for whom the line could stand."""
    word = entry["word"]
    if word in ("in", "out"):
        return running == 0
    if word in ("time", "reap", "panic"):
        return running is not None and (running != 0 or word == "panic")
    return word in ("wake", "signal", "tick", "end", *CHOICES) or running == entry["S"]


def bared(table):
    """Whether the one that runs has given back its image for a new program."""
    row = table.rows.get(table.running)
    return bool(table.running and row and row.place is None)


def begins(table, line):
    """Why one of the first two lines isn't lawful, or a `boot` after them."""
    if table.lines >= len(BEGINS):
        return [f"{BEGINS[0]}, and no other line is"]
    clicks = entry_of(line, table.lines + 1).get("C") if table.lines == 0 and line.startswith("boot ") else None
    if clicks is None:
        return [BEGINS[table.lines]]
    return [BEGINS[0], f"{clicks} is " + (f"less than {LEAST_CORE}" if clicks < LEAST_CORE else f"more than {MOST_CORE}")]


def unlawful(table, line, is_lawful):
    """Why a line of a log doesn't fit what the lines taken so far give; of None, why the log isn't at its end. `is_lawful` says
    whether another line would fit there."""
    if table.lines == 0 and line is None:
        return [f"the file is empty: {BEGINS[0]}"]
    if table.over or line is None:
        return [ENDS]
    word = line.partition(" ")[0]
    if table.lines < len(BEGINS) or word == "boot":
        return begins(table, line)
    if bared(table) and word not in OF_BARE:
        return [f"entry {table.running} has given back its image. {BARED}"]
    forms, rule = RULES[word]
    return [f"{forms}: {rule}", *right_line(table, entry_of(line, table.lines + 1), is_lawful)]


def bad(line, number):
    """Why a line is none of a log."""
    try:
        entry_of(line, number)
    except LogFault as fault:
        return [str(fault).partition(": ")[2]]
    return []
