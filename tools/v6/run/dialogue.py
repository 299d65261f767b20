"""A dialogue with a machine: a script that grows line by line, and what the machine comes to. See docs/tools/console.md."""
import hashlib
import os
import re
from dataclasses import dataclass

from v6.disk.refusal import hint, told_cut
from v6.host.files import read_bytes, short
from v6.host.program import call, named
from v6.run.ends import BUSY, OVER, RUNS, SLEEPS, WAITS, Processes
from v6.run.script import with_line

FIRST_SLOTS = 10000  # what a line is given at first; ten times as much each time that it isn't enough
MOST_SLOTS = 200000000  # of a script: docs/manual/scripts.md
FIRST_TICKS = 36000  # ten minutes: what is tried first to find when the next sleeper wakes
PAUSES = 100  # how often in a line time is given to those who sleep
TYPE_BYTES = 290  # a longer line is typed byte by byte
RETURN, END_OF_FILE, INTERRUPT, QUIT = 0o15, 0o4, 0o177, 0o34
HIDDEN = b"; not shown as it is typed, since the terminal doesn't echo it"
PROBE = [b"byte 170", b"run 100"]  # a key that is tried, with slots in which it is echoed
PASSES = b"; time passes until the next sleeper wakes"
MANY = 1024  # lines that are tried in one run
LINES = 8  # of a terminal, as run8 has them


class DialogueError(Exception):
    """Why a line, or the whole run, isn't taken; the text tells it."""


@dataclass
class Played:
    """What a run came to: the program's status and its line, and what the terminal and the log got."""

    status: int
    said: str
    term: bytes
    log: bytes
    others: tuple = ()  # what the lines 1 to 7 of eight show

    def terms(self):
        return self.term, *self.others


class Disk:
    """A disk of a machine. Its image is read once, and the program gets a copy, so that each run of a dialogue has the same disk
    whatever becomes of the file meanwhile."""

    def __init__(self, named, copy, port):
        self.named, self.copy = named, copy
        data = read_bytes(named)
        self.cut = told_cut(named, data, port)  # why it isn't run, where its end is missing
        self.digest = hashlib.sha256(data).hexdigest().encode()
        with open(copy, "wb") as file:
            file.write(short(data))

    def has_changed(self):
        """Whether the file of the image isn't any more what was read of it."""
        try:
            return hashlib.sha256(read_bytes(self.named)).hexdigest().encode() != self.digest
        except OSError:
            return True


class Machine:
    """The program, an image and a core, and eight lines of a terminal or a second image; it plays a script from the start."""

    def __init__(self, v6, image, core, folder, eight=False, second=None):
        self.v6, self.core, self.folder, self.eight = v6, str(core), folder, eight
        names = {"image": image, "second": second}
        self.images = [Disk(name, self.path(port), port) for port, name in names.items() if name]
        self.header = b"; console: image sha256 %s core %d" % (self.images[0].digest, core) + b" lines" * eight
        self.header += b"".join(b" second sha256 %s" % disk.digest for disk in self.images[1:])

    def path(self, name):
        return os.path.join(self.folder, name)

    def text(self, lines):
        return b"".join(line + b"\n" for line in (self.header, *lines))

    def play(self, lines, *disks):
        """Plays a script; the disks that it leaves go to files where these are named."""
        with open(self.path("script"), "wb") as file:
            file.write(self.text(lines))
        outs = [self.path(name) for name in ("term", "log")]
        others = [f"{outs[0]}.{line}" for line in range(1, LINES) if self.eight]
        for out in (*outs, *others):
            open(out, "wb").close()
        word = "run8" if self.eight else "run" if len(self.images) == 1 else "run2"
        final, *finals = disks or [os.devnull] * len(self.images)
        more = [name for disk, place in zip(self.images[1:], finals) for name in (disk.copy, place)]
        status, said = call(self.v6, word, self.images[0].copy, self.core, self.path("script"), *outs, final, *more)
        return Played(status, said, *map(read_bytes, outs), tuple(map(read_bytes, others)))

    def memory(self, lines):
        """The bytes of core and of the swap area where a script ends, or None of a program that doesn't tell them; so of eight lines
        and of two disks, since `memory` has one of each."""
        if self.eight or self.images[1:]:
            return None
        with open(self.path("script"), "wb") as file:
            file.write(self.text(lines))
        status, _ = call(self.v6, "memory", self.images[0].copy, self.core, self.path("script"), self.path("memory"))
        return None if status else read_bytes(self.path("memory"))

    def disks(self, lines):
        """The bytes of each disk that a script leaves, which was played before."""
        places = [self.path(f"disk{number}") for number in range(len(self.images))]
        self.play(lines, *places)
        return [read_bytes(place) for place in places]

    def disk(self, lines):
        return self.disks(lines)[0]


def keys(data):
    """The script's lines that type these bytes."""
    if any(key > 0o177 for key in data):
        raise DialogueError("only characters of ASCII can be typed")
    text = data[:-1]
    if data[-1] == RETURN and len(text) <= TYPE_BYTES and all(0o40 <= key <= 0o176 for key in text):
        return [b"type " + text if text else b"type"]
    return [b"byte %03o" % key for key in data]


def steps_of(lines):
    """The lines of a script, parted into what was typed each time with the slots for it."""
    steps, passing = [], False
    for line in lines:
        passing = passing or line == PASSES
        if not steps or not passing and not line.startswith(b"run ") and steps[-1][-1].startswith(b"run "):
            steps.append([])
        steps[-1].append(line)
        passing = passing and not line.startswith(b"clock 0")
    return steps


def line_of(lines):
    """The line of the terminal at which a script types at its end."""
    return next((int(line[5:]) for line in reversed(lines) if re.fullmatch(rb"line [0-7]", line)), 0)


def is_start(step):
    """Whether nothing is typed: what the machine does before the first key."""
    return not any(line.startswith((b"type", b"byte")) for line in step)


def shown(step):
    """What was typed, for people to read."""
    if HIDDEN in step:
        return "(not shown)"
    text, passing = b"", False
    for line in step:
        if line.startswith(b"type"):
            text += line[5:]
        elif line.startswith(b"byte "):
            text += key_shown(int(line[5:], 8))
        elif line == PASSES:
            break
        elif line.startswith(b"line "):
            text += b"~" + line[5:] + b" "
        elif line.startswith(b"hangup "):
            text += b"~h " + line[7:]
        elif not line.startswith((b"run ", b";")):
            text += b"~:" + line
    if not text and is_start(step):
        text = b"~:" + step[0]
    return text.decode("ascii", "replace")


def key_shown(key):
    key &= 0o177
    if key in (RETURN, INTERRUPT):
        return b"^?" if key == INTERRUPT else b""
    return bytes([key]) if key >= 0o40 else b"^%c" % (key | 0o100)


def total(lines):
    """How many slots the lines of a script ask for."""
    return sum(int(line[4:]) for line in lines if re.fullmatch(rb"run [0-9]{1,9}", line))


def clock(lines):
    """Whether ticks come, at the end of these lines."""
    return any(int(line[6:]) for line in [line for line in lines if re.fullmatch(rb"clock [0-9]{1,9}", line)][-1:])


def found_of(played, lines):
    """What the machine comes to. Who sleeps for a time counts as running where ticks come."""
    found = Processes(played.log).state()
    return RUNS if found == SLEEPS and clock(lines) else found


class Dialogue:
    """The steps of a script, and how far it is played. What was taken back stays until another line is typed."""

    def __init__(self, machine, limit, start=()):
        self.machine, self.limit = machine, limit
        self.start = list(start)
        self.steps, self.at, self.played = [], 0, None

    def lines(self):
        return [line for step in self.steps[: self.at] for line in step]

    def first(self):
        """The number of the step that is line 1; before it nothing is typed."""
        return int(bool(self.steps) and is_start(self.steps[0]))

    def script(self):
        return self.machine.text(self.lines())

    def begin(self, lines):
        """Plays a script that is there already, or what the machine does before the first key."""
        if not total(lines):  # as a switch alone: before its first slots the machine loses what is typed
            return self.add([*lines, *self.start])
        played = self.play(lines)
        self.steps = steps_of(lines)
        self.at, self.played = len(self.steps), played
        return self.state()

    def state(self):
        return found_of(self.played, self.lines())

    def echoes(self, lines):
        """Whether a key is shown that these lines type now, which are tried. It counts as shown where they can't be played."""
        found = self.machine.play([*self.lines(), *lines])
        return found.status != 0 or found.terms() != self.played.terms()

    def play(self, lines):
        """Plays lines, or tells why they can't be played."""
        played = self.machine.play(lines)
        if played.status:
            raise Refused(reason(self.machine, played, [self.machine.header, *lines]), played)
        return played

    def add(self, more):
        """Plays the script with more lines, and slots for them until the machine waits for a key or the limit is met. Lines
        with which the run doesn't come to its end are taken back."""
        before, pauses = self.lines(), 0
        while True:
            step, played = self.with_slots(before, more)
            found = found_of(played, before + step)
            if found != SLEEPS or pauses == PAUSES:
                break
            pauses += 1
            pause = self.pause(before + step, played)
            if not pause:
                break
            more = [*step, *pause]
        self.steps[self.at :] = [step]
        self.at, self.played = self.at + 1, played
        return found

    def with_slots(self, before, more):
        """The lines with as many slots as are enough, and what the run comes to."""
        left = MOST_SLOTS - total(before) - total(more)
        if left < 1:
            raise DialogueError(f"the {MOST_SLOTS} slots that a script may ask for are used up; ~u takes lines back")
        most = min(self.limit, left)
        slots = min(FIRST_SLOTS, most)
        while True:
            step = [*more, b"run %d" % slots]
            played = self.play(before + step)
            found = found_of(played, before + step)
            if found not in (RUNS, BUSY) or slots >= most or found == BUSY and slots > FIRST_SLOTS:
                return step, played
            slots = min(10 * slots, most)

    def pause(self, lines, played):
        """The lines with which time passes until the next sleeper wakes; none where that takes more than the limit."""
        done = len(played.log.split(b"\n"))
        ticks, most = FIRST_TICKS, min(self.limit, MOST_SLOTS - total(lines) - FIRST_SLOTS)
        while most > 0:
            ticks = min(ticks, most)
            log = self.play([*lines, b"clock 1", b"run %d" % ticks]).log.split(b"\n")[done - 2 :]
            woken = next((n for n, line in enumerate(log) if line.startswith(b"go ")), None)
            if woken is not None:
                count = sum(line.startswith(b"tick ") for line in log[:woken])
                return [PASSES, b"clock 1", b"run %d" % count, b"clock 0"]
            if ticks == most:
                break
            ticks *= 10
        return []

    def add_all(self, batch):
        """Adds the first of many typed lines in one run: those for which the first number of slots is enough. Gives how many
        these are."""
        if self.state() != WAITS or total(self.lines()) + len(batch) * FIRST_SLOTS > MOST_SLOTS:
            return 0
        before = self.lines()
        slots = b"run %d" % min(FIRST_SLOTS, self.limit)
        known = len(Processes(self.played.log).answered)
        played = self.machine.play([*before, *(line for more in batch for line in (*more, slots))])
        found = Processes(played.log)
        answered = found.answered[known:]
        count = answered.index(False) if False in answered else len(answered)
        if played.status or found.state() not in (WAITS, OVER) or not found.idle or count < len(batch):
            count = max(count - 1, 0)
            batch = batch[:count]
            played = self.machine.play([*before, *(line for more in batch for line in (*more, slots))]) if count else None
        if count:
            self.steps[self.at :] = [[*more, slots] for more in batch]
            self.at, self.played = len(self.steps), played
        return count

    def go_to(self, step):
        """The state after this many steps."""
        self.played = self.play([line for one in self.steps[:step] for line in one])
        self.at = step
        return self.state()


class Refused(DialogueError):
    """A run that doesn't come to its end, and what it shows until then."""

    def __init__(self, text, played):
        super().__init__(text)
        self.term, self.terms = played.term, played.terms()


def reason(machine, played, lines):
    """Why a run isn't done, with the line of the script that the program names."""
    files = dict(zip(("image", "second"), (disk.named for disk in machine.images)))
    told = named(with_line(played.said, b"".join(line + b"\n" for line in lines)), files, machine.core)
    return told + hint(played.said, files)
