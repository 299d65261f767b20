#!/usr/bin/env python3
"""A person types at the terminal of a machine that runs a disk: see docs/tools/console.md."""
import signal

if __name__ == "__main__":
    signal.signal(signal.SIGINT, signal.SIG_DFL)  # an interrupt before main ends it without a word

import argparse
import contextlib
import errno
import itertools
import os
import re
import shutil
import sys
import tempfile

sys.path.insert(0, os.path.dirname(os.path.abspath(__file__)))
from v6.disk.contents import contents
from v6.disk.silent import never_runs, why_silent
from v6.host.files import place_of, read_bytes, replace, same_file, told, uninterrupted
from v6.host.program import CORE, TOP, V6, ProgramError, add_version
from v6.run.columns import frame
from v6.run.dialogue import (END_OF_FILE, HIDDEN, INTERRUPT, LINES, MANY, OVER, PROBE, QUIT, RETURN, RUNS, SLEEPS, WAITS, Dialogue,
                             DialogueError, Machine, Refused, clock, keys, line_of, shown)
from v6.run.ends import Processes, programs_of_all
from v6.run.screen import without_echo
from v6.run.script import ELSEWHERE, HEADER, ScriptError, check_lines, head_of
from dataclasses import dataclass  # after v6, which tells a Python that hasn't it

HELP = """~.      ends, and so does the end of a file that is read in the place of the keyboard
~^X     types a control character: ~^D is 004, ~^? is 0177
~k KEYS types keys without a return: ~k abc^D is abc and 004
~:LINE  puts a line of a script: ~:clock 1000, ~:disk 20, ~:pace 5, ~:run 50000, ~:switch 000001
~~TEXT  types a line that begins with ~
~N      shows line N of the terminal, 0 to 7, and types there from now on; --lines gives these lines
~a      shows all lines on which something was shown, side by side
~h N    hangs line N up; without N, the one that is shown
~l      lists the lines so far
~u N    takes the last N lines back; without N, the last one
~g N    goes to the state after line N, also forward to a line that was taken back
~w      tells what each process does
~?      prints these lines
"""
SHELL = os.path.join(TOP, "examples", "shell", "image")
COPY = "my.image"  # of the shell's disk, where no IMAGE is named
ENDS = signal.SIGTERM, signal.SIGHUP
FULL = errno.ENOSPC, errno.EDQUOT  # why a host has no room
WELCOME = "~? tells what the console does itself, and ~. ends it"
OVER_SSH = "; over ssh type ~~. for it, since ~. ends ssh"
NO_CLOCK = ". No clock runs, so that no signal reaches a program that makes no call: ~:clock 1000 lets it, or ~u takes the line back"
REPLAYED = "--replay plays this one"
LINE = re.compile(r"^(script: (?:too many slots at )?line )([0-9]+)")  # of a script that has a head, which a file needn't have
CONTROL = re.compile(rb"\^([?-~])")  # a control character, as it is typed in ~k
TWO_FILES = (("script", "disk"), ("script", "image"), ("script", "second"), ("script", "second_disk"), ("disk", "second"),
             ("disk", "second_disk"), ("second_disk", "image"))
LONGEST = 254  # of a line that is tried with others in one run: more than 255 keys don't wait


class ConsoleError(DialogueError):
    """What is wrong with words to the console."""


@dataclass
class Typed:
    """A line for the machine: its lines of a script, and what the keyboard's own terminal has shown of it."""

    lines: list
    echo: bytes = b""
    is_hidden: bool = False  # the keyboard's own terminal hasn't shown it


@dataclass
class Order:
    """A line for the console: its letter and its number, if any."""

    letter: str
    number: int = None


class Quit(KeyboardInterrupt):
    """A person has pressed the key that quits, control-\\."""


def can_be_drawn():
    """Whether the host's terminal can move about what it shows."""
    return sys.stdout.isatty() and os.environ.get("TERM", "dumb") != "dumb"


def quit_key(*_):
    raise Quit


class Ended(BaseException):
    """Another program has ended this one by a signal, or the terminal has gone."""


def ended(number, _):
    for other in ENDS:
        signal.signal(other, signal.SIG_IGN)
    raise Ended(number)


class Keyboard:
    """What a person types, line by line, or a file in their place."""

    def __init__(self, file):
        self.file, self.person = file, file.isatty()
        self.waiting, self.rest, self.ended = [], b"", False
        self.editor, self.prompt = None, lambda: b""
        self.hides, self.is_hidden = lambda: False, False

    def edit(self, lines):
        """Has a person's lines edited by readline, with those that were typed before as its history, where the terminal can."""
        if self.person and can_be_drawn():
            try:
                import readline
            except ImportError:
                return
            readline.parse_and_bind("tab: self-insert")
            readline.parse_and_bind("set enable-bracketed-paste off")
            for line in lines:
                readline.add_history(line)
            self.editor = readline

    def edited(self):
        """A line of a person, who edits it after what the machine's terminal shows on its last line; nothing at the end of a file."""
        sys.stdout.write("\r")
        try:
            return input(self.prompt().decode("ascii", "replace")).encode("utf-8", "surrogateescape") + b"\n"
        except EOFError:
            return b""

    def unseen(self):
        """A line of a person that the host's terminal doesn't show, as far as there is one that can be told so."""
        with contextlib.ExitStack() as stack:
            with contextlib.suppress(ImportError, OSError, ValueError):
                import termios

                handle = self.file.fileno()
                before = termios.tcgetattr(handle)
                stack.callback(termios.tcsetattr, handle, termios.TCSADRAIN, before)
                termios.tcsetattr(handle, termios.TCSADRAIN, [*before[:3], before[3] & ~termios.ECHO, *before[4:]])
            return self.file.read1(65536)

    def piece(self):
        """What comes next of the file, or of a person."""
        self.is_hidden = self.person and self.hides()
        if self.is_hidden:
            return self.unseen()
        return self.edited() if self.editor else self.file.read1(65536)

    def fill(self):
        """Reads what there is; at least one line, but at the end. Lines of a file may end as on other hosts, with a carriage return too."""
        while not self.waiting and not self.ended:
            piece = self.piece()
            if self.person:
                self.waiting = piece.splitlines(keepends=True) or [b""]
            elif piece:
                *self.waiting, self.rest = (self.rest + piece).split(b"\n")
                self.waiting = [line.removesuffix(b"\r") + b"\n" for line in self.waiting]
            else:
                self.waiting, self.ended = [self.rest.removesuffix(b"\r") + b"\n"] * bool(self.rest), True

    def read(self):
        """The next line; None at the end."""
        try:
            self.fill()
        except Quit:
            return Typed(keys(bytes([QUIT])))
        except KeyboardInterrupt:
            return Typed(keys(bytes([INTERRUPT])))
        if not self.waiting:
            return None
        line = self.waiting.pop(0)
        if not line.endswith(b"\n"):
            return Typed(keys(line + bytes([END_OF_FILE])), line, self.is_hidden and line != b"")
        line = line[:-1]
        return self.command(line[1:]) if line.startswith(b"~") else self.typed(line)

    def answer(self, prompt):
        """What a person types to a question of the console; nothing at the end of a file, an interrupt, or where the terminal has gone."""
        self.prompt, self.hides = lambda: prompt, lambda: False
        try:
            if not self.editor:
                sys.stdout.buffer.write(prompt)
                sys.stdout.buffer.flush()
            self.fill()
        except (KeyboardInterrupt, OSError):
            return ""
        return os.fsdecode(self.waiting.pop(0).strip(b"\0 \t\r\n")) if self.waiting else ""

    def batch(self):
        """The lines of a script for what waits in a file: lines that are typed as they stand, one after the other."""
        found = []
        for line in self.waiting[: MANY if not self.person else 0]:
            text = line[:-1]
            if text.startswith(b"~") or len(text) > LONGEST or not all(0o40 <= key <= 0o176 or key == 0o11 for key in text):
                break
            found.append(keys(text + bytes([RETURN])))
        return found

    def typed(self, line):
        return Typed(keys(line + bytes([RETURN])), line + b"\r" if self.person and not self.is_hidden else b"", self.is_hidden)

    def command(self, line):
        if line == b".":
            return None
        if line.startswith(b"~"):
            return self.typed(line)
        if line.startswith(b":"):
            return Typed([line[1:]])
        if len(line) == 2 and line.startswith(b"^") and 0o77 <= line[1] <= 0o176:
            return Typed(keys(bytes([line[1] & 0o37 if line[1] != 0o77 else INTERRUPT])))
        if line.startswith(b"k ") and len(line) > 2:
            return Typed(keys(CONTROL.sub(lambda key: bytes([key[1][0] & 0o37 if key[1] != b"?" else INTERRUPT]), line[2:])))
        words = line.decode("ascii", "replace").split()
        if words and words[0] in ORDERS and len(words) <= 1 + (words[0] in "ugh"):
            if words[1:] and not words[1].isdecimal():
                raise ConsoleError(f"'{words[1]}': no number")
            numbers = [word for word in words if word.isdecimal()]
            return Order(words[0], int(numbers[0]) if numbers else None)
        raise ConsoleError("no command of the console; ~? tells which there are")


class Console:
    """The dialogue, the line that is shown and typed at, and how much of each line has been shown."""

    def __init__(self, dialogue, keyboard, side=False):
        self.dialogue, self.keyboard, self.side, self.refused = dialogue, keyboard, side, False
        self.line, self.shown, self.told = 0, [0] * LINES, set()
        self.is_kept = True  # what was typed, as far as it is to be

    def write(self, data):
        sys.stdout.buffer.write(data)
        sys.stdout.buffer.flush()

    def show(self, terms, typed=b""):
        """Shows what is new on the line, and tells a person which other lines have something new; or shows all lines side by side."""
        if self.side:
            self.shown = [len(term) for term in terms]
            self.draw(terms)
            return
        term, old = terms[self.line], self.shown[self.line]
        self.write(without_echo(term[:old], term[old:], typed) if typed else term[old:])
        self.shown[self.line] = len(term)
        more = {line for line, other in enumerate(terms) if len(other) > self.shown[line]}
        if self.keyboard.person and more - self.told:
            tell(f"new on {', '.join(f'line {line}' for line in sorted(more - self.told))}: ~N shows line N")
            self.write(self.last())
        self.told = more

    def frame(self, terms, less):
        """The lines on which something was shown, and the one where one types, side by side in what the host's terminal has."""
        size = shutil.get_terminal_size()
        shown = [line for line, term in enumerate(terms) if term or line == self.line]
        return "\n".join(frame(terms, shown, self.line, size.columns, size.lines - less))

    def draw(self, terms):
        """Clears the host's terminal, shows the lines side by side, and below them the end of that where one types."""
        self.write(b"\x1b[H\x1b[2J" + self.frame(terms, 2).encode() + b"\n\n" + terms[self.line].rsplit(b"\n", 1)[-1])

    def all(self, _):
        tell("all lines\n" + self.frame(self.dialogue.played.terms(), 3))

    def last(self):
        """What the line shows at its end."""
        return self.dialogue.played.terms()[self.line].rsplit(b"\n", 1)[-1]

    def hides(self):
        """Whether what is typed isn't echoed, as after `Password:`. Where the line doesn't end with a question, it counts as echoed."""
        return self.last().rstrip().endswith(b":") and not self.dialogue.echoes(self.typed(PROBE))

    def prompt(self):
        """Shows the last line of the terminal again, to a person to whom something was told in between."""
        terms = self.dialogue.played.terms()
        self.shown = [min(old, len(term)) for old, term in zip(self.shown, terms)]
        self.shown[self.line] = len(terms[self.line])
        self.told = {line for line in self.told if len(terms[line]) > self.shown[line]}
        if self.keyboard.person:
            self.write(self.last())

    def typed(self, lines):
        """Lines of a script that type at the line that is shown."""
        if not self.dialogue.machine.eight or line_of(self.dialogue.lines()) == self.line:
            return lines
        return [b"line %d" % self.line, *lines]

    def add(self, line):
        for one in line.lines:
            if ELSEWHERE.fullmatch(one):
                self.one_of_eight(int(one[-1:]))
        is_typed = any(one.startswith((b"type", b"byte")) for one in line.lines)
        try:
            found = self.dialogue.add([HIDDEN] * line.is_hidden + (self.typed(line.lines) if is_typed else line.lines))
        except Refused as error:
            self.show(error.terms, line.echo)
            raise
        self.show(self.dialogue.played.terms(), line.echo)
        return found

    def add_all(self, most):
        """Adds what waits in a file in as few runs as can be. Gives whether it was any."""
        batch = self.keyboard.batch()[:most]
        if batch:
            batch[0] = self.typed(batch[0])
        count = self.dialogue.add_all(batch) if len(batch) > 1 else 0
        del self.keyboard.waiting[:count]
        if count:
            self.show(self.dialogue.played.terms())
        return count

    def order(self, order):
        found = ORDERS[order.letter](self, order.number)
        if order.letter in "?lugwa":
            self.prompt()
        return found

    def go_to_line(self, line):
        """Shows a line of the terminal: what is new there, and to a person at least its end."""
        self.one_of_eight(line)
        self.line = line
        terms = self.dialogue.played.terms()
        if self.side:
            self.draw(terms)
            return
        tell(f"line {line}")
        if len(terms[line]) > self.shown[line]:
            self.show(terms)
        else:
            self.prompt()

    def hang_up(self, line):
        line = self.line if line is None else line
        self.one_of_eight(line)
        return self.add(Typed([b"hangup %d" % line]))

    def one_of_eight(self, line):
        if line >= LINES or line and not self.dialogue.machine.eight:
            raise ConsoleError(f"there is no line {line}" + (": --lines gives eight, 0 to 7" if line < LINES else ""))

    def help(self, _):
        tell("lines that begin with ~:\n" + HELP.rstrip())

    def list(self, _):
        first = self.dialogue.first()
        told = [f"{n:5}  {shown(step)}" for n, step in enumerate(self.dialogue.steps[first:], 1)]
        at = self.dialogue.at - first
        listed = told[:at] + (["taken back:"] if told[at:] else []) + told[at:]
        tell("\n".join([f"{lines(at)}, as they were typed" if at != 1 else "1 line, as it was typed", *listed]))

    def back(self, count):
        at = self.dialogue.at - (1 if count is None else count)
        if at < self.dialogue.first():
            most = self.dialogue.at - self.dialogue.first()
            raise ConsoleError(f"{lines(most)} can be taken back" + (f": ~u {most}, or ~g 0" if most else ""))
        found = self.dialogue.go_to(at)
        if self.side:
            self.draw(self.dialogue.played.terms())
        self.stands()
        return found

    def go(self, line):
        if line is None:
            raise ConsoleError("~g wants the number of a line; ~l lists them")
        count = len(self.dialogue.steps) - self.dialogue.first()
        if line > count:
            raise ConsoleError(f"there {'is' if count == 1 else 'are'} {lines(count)}")
        before = self.dialogue.at
        found = self.dialogue.go_to(line + self.dialogue.first())
        if self.dialogue.at > before:
            self.show(self.dialogue.played.terms())
            self.write(b"\n" * self.keyboard.person)
        self.stands()
        return found

    def who(self, _):
        machine, lines = self.dialogue.machine, self.dialogue.lines()
        commands = commands_of(machine.memory(lines), int(machine.core), self.dialogue.played.log)
        tell("\n".join(Processes(self.dialogue.played.log).told(programs_of_all(machine.disks(lines)), commands)))

    def stands(self):
        """Tells after which line one is."""
        at = self.dialogue.at - self.dialogue.first()
        tell(f"after line {at}: {shown(self.dialogue.steps[self.dialogue.at - 1])}" if at > 0 else "before the first line")

    def processes(self):
        return Processes(self.dialogue.played.log).told()

    def runs_on(self):
        everybody = self.processes()
        busy = "; ".join([line for line in everybody if line.endswith(" runs")] or everybody)
        tell(f"the machine runs on after {self.dialogue.limit} slots ({busy}); ~:run N gives it more, and what you type "
             "waits for it" + NO_CLOCK * (not clock(self.dialogue.lines())))


ORDERS = {"?": Console.help, "l": Console.list, "u": Console.back, "g": Console.go, "w": Console.who, "h": Console.hang_up, "a": Console.all,
          **{str(line): Console.go_to_line for line in range(LINES)}}


def lines(count):
    return f"{count} line{'' if count == 1 else 's'}"


def commands_of(data, core, log):
    """The words with which each process was executed, by its number, from the bytes of memory."""
    from v6.debug.views import arguments_of, text_of  # which has more to import than a console needs
    from v6.run.moments import Memory
    from v6.log.processes import Table

    if data is None:
        return {}
    table, memory, found = Table(), Memory(data, core), {}
    for line in log.decode("ascii", "replace").split("\n"):
        if line and line != "end":
            table.take(line)
    for slot, row in table.rows.items():
        if slot and row.place and row.state != "dead":
            words = arguments_of(memory.process(row, None if row.text is None else table.texts.get(row.text)))
            found[row.number] = " ".join(text_of(word)[1:-1] for word in words)
    return found


def tell(text):
    try:
        print(f"\nconsole: {text}", file=sys.stderr, flush=True)
    except OSError as error:
        if error.errno != errno.EIO:  # of a terminal that has gone
            raise


def keep(console, save):
    """Keeps what was typed. Where the host has no room for it, a person is told so after each line, and goes on."""
    try:
        save()
        console.is_kept = True
    except OSError as error:
        if not (console.keyboard.person and error.errno in FULL):
            raise
        console.is_kept = False
        tell(f"{told(error)}: what is typed isn't kept until there is room")
        console.prompt()


def talk(console, found, save):
    """Reads lines until the end, or until no key can change anything any more."""
    many = MANY
    while found != OVER:
        if found == RUNS:
            console.runs_on()
        elif found == SLEEPS:
            tell("everybody sleeps for a time, and that is long: ~:clock 1000 and ~:run N let it pass")
        try:
            if found == WAITS and console.add_all(many):
                found, many = console.dialogue.state(), min(2 * many, MANY)
                keep(console, save)
                continue
            many = 16
            line = console.keyboard.read()
            if line is None:
                return
            found = (console.add(line) if isinstance(line, Typed) else console.order(line)) or console.dialogue.state()
            keep(console, save)
        except DialogueError as error:
            console.refused = True
            tell(f"{error}" + ("" if isinstance(error, ConsoleError) else "\nconsole: this line is taken back"))
            console.prompt()
            found = WAITS
        except OSError as error:
            if not (console.keyboard.person and error.errno in FULL):
                raise
            tell(f"{told(error)}\nconsole: this line is taken back")
            console.prompt()
            found = WAITS
        except KeyboardInterrupt:
            tell("stopped; this line is taken back")
            console.prompt()
            found = WAITS
    tell("nobody waits for a key any more: the run is over")


def number(text):
    """A number as scripts and commands have them: docs/manual/scripts.md."""
    if not (text.isascii() and text.isdigit() and len(text) <= 9):
        raise argparse.ArgumentTypeError(f"'{text}': no number of one to nine digits")
    return int(text)


def options_of(words):
    parser = argparse.ArgumentParser(prog="console.py", description="The terminal of a machine: docs/tools/console.md")
    parser.add_argument("image", nargs="?", help=f"the disk; it isn't changed. Without it, {COPY}, a copy of the shell's disk")
    parser.add_argument("--script", metavar="FILE", help="where the dialogue is kept; one that is there is gone on with")
    parser.add_argument("--disk", metavar="FILE", help="where the disk goes that the dialogue leaves")
    parser.add_argument("--v6", metavar="COMMAND", default=V6, help="the program (bin/v6)")
    parser.add_argument("--core", type=number, help=f"the size of core, in clicks ({CORE}, or that of the script)")
    parser.add_argument("--clock", type=number, default=0, help="a new dialogue has a tick after each N slots (0: none)")
    parser.add_argument("--slots", type=number, default=2000000, help="what a line is given at most (2000000)")
    parser.add_argument("--lines", action="store_true", help="eight lines of the terminal, one shown at a time")
    parser.add_argument("--side", action="store_true", help="shows these side by side")
    parser.add_argument("--second", metavar="IMAGE2", help="a second disk, which isn't changed either")
    parser.add_argument("--second-disk", metavar="FILE", help="where the second disk goes that the dialogue leaves")
    parser.add_argument("--replay", action="store_true", help="play a script also where it was typed at another disk or core")
    add_version(parser)
    options = parser.parse_args(words)
    if options.slots < 1:
        parser.error("--slots: at least 1")
    options.is_copy = options.image is None
    options.image = options.image or COPY
    if options.side and not options.lines:
        parser.error("--side: there is one line without --lines")
    if options.lines and options.second:
        parser.error("--lines and --second: a machine has eight lines, or a second disk")
    if options.second_disk and not options.second:
        parser.error("--second-disk: there is none without --second")
    for one, other in TWO_FILES:
        if same_file(getattr(options, one), getattr(options, other)):
            names = [f"{'--' * (name != 'image')}{name.replace('_', '-')}" for name in (one, other)]
            parser.error(f"{names[0]} and {names[1]} are the same file")
    return options


def make_copy():
    """Makes a copy of the shell's disk, and tells it. One that is there already is typed at as it is."""
    data = read_bytes(SHELL)
    try:
        with uninterrupted(), open(COPY, "xb") as file:
            file.write(data)
    except FileExistsError:
        tell(f"the disk is {COPY}, which was here")
    except OSError as error:
        if error.filename is None:  # it was made, and has no room
            os.unlink(COPY)
        raise OSError(error.errno, error.strerror, os.path.abspath(COPY)) from None
    else:
        tell(f"{COPY} is a copy of the shell's disk; --disk {COPY} keeps in it what is done")


class Script:
    """The file in which a dialogue is kept, if any. One that another program writes meanwhile, as a second console does that was
    begun with the same name, isn't written over."""

    def __init__(self, name):
        self.name, self.known, self.moved, self.old = name, None, False, None
        if name:
            place_of(name)  # what can't be written is told before anything is typed
        if name and os.path.exists(name):
            self.known = read_bytes(name)

    def lines(self):
        """The lines of a script that is there, with the core that they were typed at."""
        if self.known is None:
            return [], None
        lines = self.known.removesuffix(b"\n").split(b"\n")
        found = HEADER.fullmatch(lines[0])
        return (lines[1:] if found else lines if lines != [b""] else []), found

    def save(self, data):
        if not self.name:
            return
        now = read_bytes(self.name) if os.path.lexists(self.name) else None
        if now != self.known and now != data:
            self.moved, old = True, self.name
            self.name = beside(old)
            tell(f"another program has changed {old}, and its lines stay there; this dialogue is kept in {self.name}")
        replace(self.name, data)
        self.known = data

    def keep(self, data):
        """Keeps a script with lines that were taken back beside it, in FILE.old."""
        if not self.name:
            return
        if self.old is None:
            self.old = self.name + ".old"
            if os.path.lexists(self.old) and head_of(self.old) is None:
                self.old = beside(self.old)  # one that isn't a console's stays
        replace(self.old, data)


def check_header(options, machine, found):
    """A script goes on only over the disk and the core that it was typed at, unless --replay says otherwise; and in no case where the
    machine hasn't its lines or its second disk, since it would be another run."""
    if not found or found[0] == machine.header:
        return
    mine = HEADER.fullmatch(machine.header)
    what, way = (("at eight lines of the terminal", "without --second it goes on") if found[3] and not mine[3] else
                 ("beside a second disk", "--second IMAGE2 goes on with it") if found[4] and not mine[4] else
                 (f"at another disk than {options.image}", REPLAYED) if mine[1] != found[1] else
                 ("with another size of core", REPLAYED) if mine[2] != found[2] else
                 ("at one line of the terminal", REPLAYED) if mine[3] and not found[3] else
                 (f"beside another second disk than {options.second}" if found[4] else "without a second disk", REPLAYED))
    if way != REPLAYED or not options.replay:
        raise ConsoleError(f"{options.script} was typed {what}: another --script begins a new dialogue, and {way}")


def run(options, folder):
    keyboard = Keyboard(sys.stdin.buffer)
    if options.side and not (keyboard.person and can_be_drawn()):
        raise ConsoleError("--side wants a person at a terminal that can be cleared; ~a shows all lines once")
    script = Script(options.script)
    if options.is_copy:
        make_copy()
    old, head = script.lines()
    core = options.core if options.core is not None else int(head[2]) if head else CORE
    eight = options.lines or bool(head and head[3] and not options.second)
    machine = Machine(options.v6, options.image, core, folder, eight, options.second)
    for disk in machine.images:
        if disk.cut:
            raise ConsoleError(disk.cut)
    start = [b"clock %d" % options.clock] if options.clock else []
    console = Console(Dialogue(machine, options.slots, start), keyboard, options.side)

    def save():
        script.save(console.dialogue.script())
        if console.dialogue.at < len(console.dialogue.steps):
            script.keep(machine.text([line for step in console.dialogue.steps for line in step]))

    disks = {}  # where the disks go that are left, what is there now
    for name in filter(None, (options.disk, options.second_disk)):
        place_of(name)  # what can't be written is told before anything is typed
        disks[name] = read_bytes(name) if os.path.exists(name) else None
    if keyboard.person and not options.side:  # which clears the terminal
        tell(WELCOME + OVER_SSH * ("SSH_CONNECTION" in os.environ))
    try:
        check_header(options, machine, head)
        if not eight and script.known is not None:
            check_lines(options.script, script.known, "--lines gives eight")
        found = console.dialogue.begin(old)
        if machine.eight and line_of(old):
            console.line = line_of(old)
            tell(f"line {console.line}")
        console.show(console.dialogue.played.terms())
        if not tell_silence(machine, console.dialogue.played):
            return 1
    except ScriptError as error:
        tell(error)
        return 1
    except DialogueError as error:
        said = str(error) if head else LINE.sub(lambda line: f"{line[1]}{int(line[2]) - 1}", str(error), count=1)
        tell(f"{options.script}: {said.removeprefix('script: ')}" if said.startswith("script: ") else said)
        return 1
    save()
    console.keyboard.prompt, console.keyboard.hides = console.last, console.hides
    console.keyboard.edit([shown(step) for step in console.dialogue.steps[console.dialogue.first() :] if HIDDEN not in step])
    status = 0
    try:
        talk(console, found, save)
        if not console.is_kept:
            save()
    except Ended as error:  # what has been typed is kept, as at the end
        status = 128 + error.args[0]
        save()
    is_kept = put_disks(options, machine, console.dialogue.lines(), disks)
    if options.second and not (options.second_disk or options.script):
        keep_second(machine, console.dialogue.lines(), keyboard if keyboard.person and not status else None)
    return status or int(console.refused and not console.keyboard.person or script.moved or not is_kept)


def tell_silence(machine, played):
    """Says why nothing is shown, where the disk tells it. Gives whether anything can come of what is typed."""
    why = None if any(played.terms()) else why_silent(read_bytes(machine.images[0].copy), played.log)
    if why:
        tell(why)
    return not (why and never_runs(played.log))


def keep_second(machine, lines, keyboard):
    """Says that the second disk's files have changed, where they have, and that no file keeps them; a person may name one."""
    image, left = machine.images[1], machine.disks(lines)[1]
    if contents(left) == contents(read_bytes(image.copy)):
        return
    tell(f"what was changed on {image.named} isn't kept: --second-disk FILE keeps it, or --script FILE what was typed")
    while keyboard:
        name = keyboard.answer(b"a file to keep it in now, or a return for none: ")
        if not name:
            return
        try:
            if os.path.lexists(name) and not same_file(name, image.named):
                raise FileExistsError(errno.EEXIST, "there already", name)
            put_disk(name, image, left, None)
            return
        except OSError as error:
            tell(told(error))


def put_disks(options, machine, lines, before):
    """Writes the disks that are left, as far as they are asked for. Gives whether each is where it was asked for. `before` has what was
    there when the dialogue began."""
    asked = options.disk, options.second_disk
    disks = machine.disks(lines) if any(asked) else []
    return all([put_disk(name, image, disk, before[name]) for name, image, disk in zip(asked, machine.images, disks) if name])


def put_disk(name, image, disk, before):
    """Writes a disk that is left. It doesn't take the place of a file that another program, as a second console, has changed or made since
    the dialogue began: what that has done would be lost. Gives whether the disk is where it was asked for."""
    place, is_image = name, same_file(name, image.named)
    if image.has_changed():
        told = f"{image.named} isn't any more what it was when the dialogue began: another program has changed it"
        if is_image:
            place = beside(name)
            told += f". It is left so, and the disk of this dialogue goes to {place}"
        tell(told)
    if not is_image and os.path.exists(name) and read_bytes(name) not in (before, disk):
        place = beside(name)
        tell(f"another program has written {name} since the dialogue began. It is left so, and the disk of this dialogue goes to {place}")
    replace(place, disk)
    return place == name


def beside(name):
    """The first name of a file that isn't there: NAME.1, NAME.2 .."""
    return next(found for found in (f"{name}.{number}" for number in itertools.count(1)) if not os.path.lexists(found))


def main(words):
    options = options_of(words)
    signal.signal(signal.SIGINT, signal.default_int_handler)
    signal.signal(signal.SIGQUIT, quit_key)
    for number in ENDS:
        signal.signal(number, ended)
    try:
        with tempfile.TemporaryDirectory() as folder:
            return run(options, folder)
    except (ProgramError, ConsoleError) as error:
        tell(error)
    except BrokenPipeError:
        sys.stderr.close()
    except OSError as error:
        tell(told(error))
    except KeyboardInterrupt:
        tell("stopped")
    except Ended as error:
        return 128 + error.args[0]
    return 1


if __name__ == "__main__":
    sys.exit(main(sys.argv[1:]))
