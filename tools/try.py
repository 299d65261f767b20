#!/usr/bin/env python3
"""Runs one program on a small disk, as a command of the host: see docs/tools/try.md."""
import signal

if __name__ == "__main__":
    signal.signal(signal.SIGINT, signal.SIG_DFL)  # an interrupt before main ends it without a word

import argparse
import os
import struct
import sys
import tempfile

sys.path.insert(0, os.path.dirname(os.path.abspath(__file__)))
from v6.disk.volume import CHARACTER, ROOT, DiskError, Volume, check_name, plural
from v6.host.files import guarded, place_of, read_bytes, replace
from v6.host.program import CORE, V6, ProgramError, add_version, call
from v6.pdp11 import compiler
from v6.pdp11.assembler import Assembler
from v6.run.dialogue import MOST_SLOTS, Dialogue, DialogueError, Machine, Refused, total
from v6.run.ends import BUSY, RUNS, WAITS

HERE, WRITTEN = b"here", b"written"  # the directory of the root that is the folder, and the file of /etc that is the output
FAILED, OUT_OF_SLOTS, STOPPED = 125, 124, 126  # the status where it isn't the program's own
ENDS = 20  # how often the end of a file is typed to a program that reads on
PIECE = 200  # keys that are typed at once: 256 may wait
EXACT = 1000000  # up to so many slots are counted exactly
SEGMENTS = 16  # of input for which they are counted
WHY = {2: "no such file", 7: "its arguments have more than 510 bytes", 8: "it is no program",
       12: "it is too large for memory, or has separate text and data", 13: "it can't be executed"}
# how a program ends by a signal, in the words of sh(I)
SIGNALS = {1: "Hangup", 2: "Interrupt", 3: "Quit", 4: "Illegal instruction", 5: "Trace/BPT trap", 6: "IOT trap", 7: "EMT trap",
           8: "Floating exception", 9: "Killed", 10: "Bus error", 11: "Memory fault", 12: "Bad system call", 13: "Broken pipe"}
# The first program of the machine: it opens the console for what it runs, waits for that, and keeps how it ended. What the
# child does before its exec is put in.
FIRST = """
	sys	open; tty; 2
	sys	dup
	clr	r0
	sys	dup
	clr	r0
	sys	stty; modes
	sys	fork
	br	child
	mov	r0,r5
1:	sys	wait
	cmp	r0,r5
	bne	1b
	mov	r1,word
	mov	$0f,r1
	br	keep
child:{before}
	sys	exec; name; list
	mov	r0,word
	mov	$1f,r1
keep:	mov	r1,2f
	sys	creat; 2:0; 600
	sys	write; word; 2
	sys	exit
tty:	</dev/tty8\\0>
0:	</etc/ended\\0>
1:	</etc/refused\\0>
	.even
modes:	0; -1; 0		/ no key erases, none is shown, and what is written goes out as it is
word:	0
"""
IN_FOLDER = "\n	sys	chdir; here"
TO_FILE = "\n	mov	$1,r0\n	sys	close\n	sys	open; out; 1"


class TryError(Exception):
    """Why the program can't be run; the text tells it."""


KNOWN = (TryError, DiskError, DialogueError, ProgramError)


def program_of(options):
    """The bytes of the program, and the assembler where it is made of a source."""
    names = [options.program, *options.sources]
    if options.program.endswith(".c"):
        try:
            return compiler.program_of(names)
        except compiler.CompileError as error:
            raise TryError(error) from None
    if not options.program.endswith(".s"):
        return read_bytes(options.program), None
    assembler = Assembler()
    data = assembler.assemble([(name, read_bytes(name).decode("utf-8", "replace")) for name in names])
    if data is None:
        raise TryError("\ntry.py: ".join(assembler.errors))
    return data, assembler


def text(data):
    return "".join(f".byte {byte:o}\n" for byte in data + b"\0")


def first_program(path, options):
    """The first program of the machine, for a program and its arguments."""
    words = [os.path.basename(path), *(os.fsencode(word) for word in options.arguments)]
    before = IN_FOLDER * has_folder(options) + TO_FILE * options.binary
    addresses = "; ".join(f"arg{n}" for n in range(len(words)))
    source = FIRST.format(before=before) + f"list:	{addresses}; 0\nname:\n{text(path)}"
    source += "".join(f"arg{n}:\n{text(word)}" for n, word in enumerate(words))
    source += f"here:\n{text(b'/' + HERE)}out:\n{text(b'/etc/' + WRITTEN)}"
    return Assembler().assemble([("try.py", source)])


def disk_of(options, program, name):
    """A disk with the program and what it needs, on a copy of one that is named."""
    if options.disk:
        image = read_bytes(options.disk)
        status, said = call(options.v6, "check", "/dev/stdin", data=image)
        if status:
            raise TryError(f"{options.disk}: {said}")
        volume = Volume(image)
    else:
        volume = Volume.empty(4000, 960, 0)
    etc, dev, programs = (directory(volume, word) for word in (b"etc", b"dev", b"bin"))
    if volume.look(dev, b"tty8") is None:
        volume.make(dev, b"tty8", CHARACTER | 0o666, volume.time)
    put(volume, programs, name, program, 0o755)
    put(volume, etc, b"init", first_program(b"/bin/" + name, options), 0o755)
    put(volume, etc, b"ended", b"\0", 0o600)  # keeps a block for how the program ends, should it fill the disk
    if options.binary:
        put(volume, etc, WRITTEN, b"", 0o600)
    for file in options.files:
        put(volume, ROOT, os.fsencode(os.path.basename(file)), read_bytes(file), 0o644)
    if has_folder(options):
        from v6.disk import tryback

        tryback.put_folder(volume, options.folder, HERE)
    if not options.disk:
        for major, minor, device in ((8, 2, b"null"),):
            volume.make(dev, device, CHARACTER | 0o666, 0, major << 8 | minor)
        directory(volume, b"tmp")
    return volume.image(short=True)


def has_folder(options):
    return options.folder is not None or options.back is not None


def directory(volume, name):
    found = volume.look(ROOT, name)
    return volume.make_directory(ROOT, name, 0o755, volume.time) if found is None else found


def put(volume, where, name, data, mode):
    number = volume.look(where, name)
    number = volume.make(where, name, mode, volume.time) if number is None else number
    inode = volume.inode(number)
    inode.mode = inode.mode & ~0o777 | mode
    volume.set_inode(number, inode)
    volume.write_file(number, data, volume.time)


class Input:
    """The standard input as keys, in pieces that the terminal can hold."""

    def __init__(self, file):
        self.file, self.person, self.rest, self.ended = file, file.isatty(), b"", False

    def piece(self):
        """The keys of the next piece, the last of which ends a line or lets what stands there be read; b"" at the end."""
        while not self.ended and len(self.rest) < PIECE and not (self.person and self.rest):
            more = self.file.read1(65536)
            self.rest += more
            self.ended = not more
        if not self.rest:
            self.ended = self.ended and not self.person
            return b""
        piece = self.rest[:PIECE]
        end = piece.rfind(b"\n") + 1 or len(piece.rstrip(b"\\")) or len(piece)
        piece, self.rest = self.rest[:end], self.rest[end:]
        return escaped(piece) + (b"" if piece.endswith(b"\n") else b"\4")


def escaped(data):
    """The keys for these bytes: a backslash stands before a key that would be lost otherwise."""
    keys = bytearray()
    for n, byte in enumerate(data):
        if byte in (0o177, 0o34) or byte > 0o177:
            raise TryError(f"the byte {byte:03o} of the standard input can't be typed")
        if byte == 4 or byte in b"#@" and data[n - 1 : n] == b"\\":
            keys += b"\\"
        keys.append(byte)
    return bytes(keys)


class Remembering(Machine):
    """A machine that knows what it has played last, so that a run that the system stops leaves its disk too."""

    lines = ()

    def play(self, lines, *words):
        self.lines = list(lines)
        return super().play(lines, *words)


class Run:
    """A program as it runs, with what is typed to it. What it shows goes to a stream of the host."""

    def __init__(self, machine, limit, stream):
        self.dialogue, self.machine, self.stream, self.shown = Dialogue(machine, limit), machine, stream, 0

    def show(self, term):
        self.stream.write(term[self.shown :])
        self.stream.flush()
        self.shown = len(term)

    def add(self, keys):
        found = self.dialogue.add([b"byte %03o" % key for key in keys])
        self.show(self.dialogue.played.term)
        return found

    def run(self, source):
        """Runs the program to its end, or to where nothing more comes of it."""
        found, ends = self.add(b""), 0
        while found in (WAITS, BUSY) and ends < ENDS:
            keys = source.piece()
            ends += not keys
            found = self.add(keys or b"\4")
        return found

    def reaches(self, before, more, slots, mark, length):
        log = self.machine.play([*before, *more, b"run %d" % slots]).log
        return mark in log if mark else len(log) >= length

    def least(self, before, step, mark, length=0):
        """With how few slots a step comes to a line of the log, or to all its lines; within a hundredth of many."""
        *more, last = step
        low, high = -1, int(last[4:])
        while high - low > max(1, high // 100 if high > EXACT else 1):
            middle = (low + high) // 2
            if self.reaches(before, more, middle, mark, length):
                high = middle
            else:
                low = middle
        return high

    def slots(self):
        """How many slots the program took, from its first instruction to its exit, in words."""
        steps, done = self.dialogue.steps, []
        if len(steps) > SEGMENTS:
            return f"at most {total(self.dialogue.lines())} slots"
        count = 0
        for n, step in enumerate(steps):
            if n == len(steps) - 1:
                count += self.least(done, step, b"\nexit 2 ")
            else:
                count += self.least(done, step, None, len(self.machine.play([*done, *step]).log))
            if not n:
                count -= self.least(done, step, b"\nimage 2 ")
            done += step
        return f"{'about ' if count > EXACT else ''}{plural(count, 'slot')}"


def bytes_of(volume, path):
    return volume.read(volume.inode(volume.find(path)))


def word_of(volume, path):
    """A word that the first program has kept in a file, or None."""
    try:
        data = bytes_of(volume, path)
    except DiskError:
        return None
    return struct.unpack("<H", data)[0] if len(data) == 2 else None


def come_home(run, lines, options):
    """Brings home what the run with these lines leaves: its disk, its folder, and its output where that is a file. Gives the
    disk, and whether it is full."""
    image = run.machine.disk(lines)
    volume = Volume(image)
    if options.final:
        replace(options.final, image)
    try:
        if options.back is not None:
            from v6.disk import tryback

            for line in tryback.bring(image, volume, HERE, options):
                tell(line)
    finally:
        if options.binary:
            sys.stdout.buffer.write(bytes_of(volume, b"/etc/" + WRITTEN))
            sys.stdout.buffer.flush()
    is_full = (options.binary or options.back is not None) and not volume.count_free()
    if is_full:
        tell("the disk is full, so what was written may have been cut")
    return volume, is_full


def finish(run, found, options):
    """Tells how the program ended; gives its status."""
    volume, is_full = come_home(run, run.dialogue.lines(), options)
    refused, ended = word_of(volume, b"/etc/refused"), word_of(volume, b"/etc/ended")
    if refused is not None:
        raise TryError(f"{options.program}: {WHY.get(refused, f'error {refused}')}")
    if ended is None:
        tell("it waits for a key" if found != RUNS else f"it runs on after {total(run.dialogue.lines())} slots")
        return OUT_OF_SLOTS
    by = ended & 0o177
    status = 128 + by if by else ended >> 8
    if by:
        tell(SIGNALS.get(by, f"Signal {by}") + " -- Core dumped" * bool(ended & 0o200))
    if options.tell:
        tell(f"status {status}, {run.slots()}")
    return status or FAILED * is_full


def tell(text):
    print(f"try.py: {text}", file=sys.stderr, flush=True)


def stopped(run, error, options):
    """The status of a run that the system has stopped, of which all comes home that there is."""
    run.show(error.term)
    tell(str(error))
    if options.binary or options.back is not None:
        come_home(run, run.machine.lines, options)
    return STOPPED


def refuse_early(options):
    """Refuses before the run what could not be written after it."""
    if options.back is not None and os.path.lexists(options.back):
        raise TryError(f"{options.back}: there already, and a folder is to be made")
    for name in filter(None, (options.back, options.final)):
        place_of(name)


def run_program(options):
    refuse_early(options)
    program, assembler = program_of(options)
    name = os.fsencode(os.path.basename(options.program).removesuffix(".s").removesuffix(".c"))
    try:
        check_name(name)
    except DiskError as error:
        raise TryError(f"{options.program}: {error}") from None
    with tempfile.TemporaryDirectory() as folder:
        image = os.path.join(folder, "image")
        with open(image, "wb") as file:
            file.write(disk_of(options, program, name))
        stream = sys.stderr.buffer if options.binary else sys.stdout.buffer
        run = Run(Remembering(options.v6, image, options.core, folder), options.slots, stream)
        try:
            found = run.run(Input(sys.stdin.buffer))
        except Refused as error:
            return stopped(run, error, options)
        return finish(run, found, options)


def options_of(words):
    parser = argparse.ArgumentParser(prog="try.py", description="Runs one program on a small disk: docs/tools/try.md")
    parser.add_argument("-t", dest="tell", action="store_true", help="tell the status and the slots on standard error")
    parser.add_argument("--with", dest="sources", metavar="FILE", action="append", default=[], help="another source")
    parser.add_argument("--file", dest="files", metavar="FILE", action="append", default=[],
                        help="a file for the disk's root")
    parser.add_argument("--folder", metavar="DIR", help="a folder whose copy is the program's current directory")
    parser.add_argument("--back", metavar="NEW", help="a new folder for what stands there when the program has ended")
    parser.add_argument("--binary", action="store_true", help="the output is a file of the disk, and comes home byte for byte")
    parser.add_argument("--disk", metavar="IMAGE", help="a copy of this disk in the place of a small one")
    parser.add_argument("--final", metavar="FILE", help="where the disk goes that the run leaves")
    parser.add_argument("--core", type=int, default=CORE, help=f"the size of core, in clicks ({CORE})")
    parser.add_argument("--slots", type=int, default=MOST_SLOTS, help=f"what the program is given at most ({MOST_SLOTS})")
    parser.add_argument("--v6", metavar="COMMAND", default=V6, help="the program that runs disks (bin/v6)")
    add_version(parser)
    parser.add_argument("program", metavar="PROGRAM", help="a program, or its source: FILE.s or FILE.c")
    parser.add_argument("arguments", metavar="ARG", nargs=argparse.REMAINDER, help="its arguments")
    options = parser.parse_args(words)
    if options.slots < 1:
        parser.error("--slots: at least 1")
    return options


def main(words):
    options = options_of(words)
    return guarded("try.py", lambda: run_program(options), *KNOWN, failed=FAILED)


if __name__ == "__main__":
    sys.exit(main(sys.argv[1:]))
