"""What look.py shows of a moment: the processes, one of them whole, and what core and the swap area hold."""
from v6.debug.calls import PENDING, call_at, kept, octal, text_of
from v6.host.files import read_bytes
from v6.log.processes import SWAP_FIRST, SWAP_LAST, blocks
from v6.log.words import Teller
from v6.pdp11 import disassembler
from v6.pdp11.names import ARGUMENTS
from v6.run.moments import ADDRESSES, word

BEFORE, AFTER = 16, 10  # bytes of code before PC, and words from it on
LONGEST = 4  # bytes that an instruction has after its first word
DEPTH, MOST_ARGUMENTS = 16, 256  # words of a stack that are shown, and words of a program's arguments
TOP = 512  # bytes at the top of a stack in which ps(I) looks for arguments
STATES = {"R": "runs", "r": "can run", "o": "could run, and is out of core", "z": "has ended, and its parent hasn't waited for it"}
FILES, SIGNALS = 15, 20
HEAD = "S ENTRY   PID  PPID UID PRI PLACE      TIME SIZE TEXT WAITS     COMMAND"
ROW = "{} {:5} {:5} {:5} {:>3} {:>3} {:10} {:4} {:>4} {:>4} {:9} {}"
JSR, JSR_MASK, LONG = 0o004000, 0o177000, (0o27, 0o37, 0o60, 0o70)
NO_IMAGE = "it has no image at this moment"


def arguments_of(process):
    """The arguments with which a program was executed, at the top of the stack: by their list, or, where a program has written over
    that, the texts past its end, as ps(I) finds them."""
    return listed_arguments(process) or texts_of(process)


def texts_of(process):
    """What is past the end of a list of arguments, -1, where it is text to the top of the stack."""
    for end in range(ADDRESSES - 2, ADDRESSES - TOP, -2):
        if process.word(end) == 0o177777:
            found = process.bytes(end + 2, ADDRESSES - end - 2).rstrip(b"\0")
            if found and all(0o40 <= byte < 0o177 or not byte for byte in found):
                return found.split(b"\0")
    return []


def listed_arguments(process):
    """The arguments by their count, their addresses and the -1 after these."""
    for end in range(ADDRESSES - 2, ADDRESSES - TOP - 2 * MOST_ARGUMENTS, -2):
        if process.word(end) != 0o177777:
            continue
        for count in range(1, MOST_ARGUMENTS):
            at = end - 2 * count
            if process.word(at - 2) == count and all((process.word(at + 2 * n) or 0) > end for n in range(count)):
                return [process.string(process.word(at + 2 * n)) for n in range(count)]
    return []


class Views:
    """Shows moments, with the names of programs."""

    def __init__(self, programs, sizes):
        self.programs, self.sizes, self.sources = programs, sizes, {}

    # the log

    def line(self, moment, number):
        """A line of the log, counted from 0 on, and what it tells."""
        table, text = moment.history.table(number), moment.history.run.log[number]
        mark = ">" if number + 1 == moment.at < moment.lines else " "
        return f"{mark}{number + 1:>6}  {text:22}  {Teller(table, self.sizes).told(table.read(text))}"

    def log(self, moment):
        """The lines that came with a moment. The one that is looked at, where others of the moment come after it, is marked."""
        return [self.line(moment, number) for number in range(moment.first, moment.lines)]

    def last(self, moment, count):
        """So many lines of the log, the last of them the one that is looked at."""
        return [self.line(moment, number) for number in range(max(0, moment.at - count), moment.at)]

    def head(self, moment):
        running = moment.running()
        who = self.nobody(moment) if running is None else "the swapper runs" if not running else f"{self.who(moment, running)} runs"
        line = f"line {moment.at} of {len(moment.history.run.log)}"
        within = f" (of the lines {moment.first + 1} to {moment.lines} of the moment)" if moment.at < moment.lines else ""
        return f"slot {moment.slots} of {moment.history.last}, second {moment.table.second()}, {line}{within}: {who}"

    def nobody(self, moment):
        """That nobody runs: nobody can, or somebody could, and a later line chooses."""
        table = moment.table
        could = moment.at < len(moment.history.run.log) and any(table.letter(slot) == "r" for slot in table.rows)
        return "nobody runs yet" if could else "nobody can run"

    # processes

    def program(self, moment, number):
        process = moment.process(number)
        if process is None or not process.parts:
            return None
        words = arguments_of(process)
        return self.programs.of(process, words[0].decode("ascii", "replace") if words else "")

    def command(self, moment, number):
        """The words with which the program of a process was executed, as ps(I) shows them, or the path of its file; where core isn't
        known, in brackets, the programs that are as large."""
        if not moment.history.run.has_memory:
            return by_size(moment.table.rows[moment.slot_of(number)], self.sizes)
        process = moment.process(number)
        words = arguments_of(process) if process and process.parts else []
        if words:
            return " ".join(text_of(one)[1:-1] for one in words)
        program = self.program(moment, number)
        return program.path if program else ""

    def who(self, moment, number):
        """A process with the path of its program, or the name that it was executed by."""
        if not moment.history.run.has_memory:
            return Teller(moment.table, self.sizes).who(moment.slot_of(number))
        program = self.program(moment, number)
        name = program.path if program else self.command(moment, number).partition(" ")[0]
        return f"process {number}" + (f" ({name})" if name else "")

    def ps(self, moment):
        """The processes as ps(I) and pstat show them."""
        out = [HEAD]
        for slot, row in sorted(moment.table.rows.items()):
            process = moment.process(row.number) if slot else None
            user = "-" if process is None else str(process.u[18])
            out.append(ROW.format(*cells(moment.table, slot, user, self.command(moment, row.number) if slot else "")).rstrip())
        return out

    def process(self, moment, number):
        """A process whole."""
        slot = moment.slot_of(number)
        row, process = moment.table.rows[slot], moment.process(number)
        out = [f"process {number} in entry {slot}, a child of process {row.parent}" if number else "the swapper, in entry 0",
               f"state      {self.state(moment, slot)}"]
        if process is None and slot and row.place and not moment.history.run.has_memory:
            where = "in core from click" if row.place.where == "at" else "in the swap area from block"
            return [*out, f"image      {row.size} clicks, {where} {row.place.start} on", f"program    {self.command(moment, number) or 'not known'}"]
        if process is None:
            return out + [f"image      {'the swapper has none' if not slot else NO_IMAGE}"]
        if not process.parts:
            out.append(f"left       half of its u area, in block {row.place.start}")
            return out + self.area(moment, number)
        program = self.program(moment, number)
        text = "no text" if row.text is None else f"text {row.text}"
        where = "in core from click" if row.place.where == "at" else "in the swap area from block"
        out.append(f"image      {row.size} clicks, {where} {row.place.start} on; {text}")
        out.append(f"program    {program.path if program else 'no file of the disk has its words'}")
        out += [f"names      {name} doesn't fit: its words are others" for name in self.programs.others(process)]
        out.append("arguments  " + (" ".join(text_of(one) for one in arguments_of(process)) or "none at the top of the stack"))
        out += self.registers(process) + self.source(process.pc, program) + self.call(process)
        out += ["code"] + self.code(process, program) + ["stack"] + self.stack(process, program)
        return out + self.area(moment, number)

    def state(self, moment, slot):
        letter, row = moment.table.letter(slot), moment.table.rows[slot]
        if letter in STATES:
            return f"{letter}: {STATES[letter]}"
        does = "waits" if letter in "wW" else "sleeps"
        own = row.channel == f"wait.{slot}"
        what = "for a child" if own else "for the disk" if row.channel == f"disk.{slot}" else Teller(moment.table, self.sizes).channel(row.channel)
        return f"{letter}: {does} {what}, at priority {row.priority}" + (", out of core" if letter.isupper() else "")

    def registers(self, process):
        shown = [f"r{number} {value:06o}" for number, value in enumerate(process.registers[:6])]
        codes = "".join(name if process.u[16] & bit else "-" for name, bit in (("n", 8), ("z", 4), ("v", 2), ("c", 1)))
        return ["registers  " + "  ".join(shown), f"           sp {process.registers[6]:06o}  pc {process.pc:06o}  codes {codes}"]

    def call(self, process):
        if process.pending:
            name = PENDING.get(process.pending, f"call {process.pending}")
            return [f"call       {kept(process).told() if name != 'disk' else 'a wait for the disk'} has begun, and isn't done"]
        call = call_at(process)
        return [f"call       {call.told()} comes next"] if call else []

    def code(self, process, program=None, at=None, count=AFTER):
        """The words from an address on, disassembled; those round PC without an address."""
        start = start_of(process, process.pc) if at is None else at
        words, end = [], (process.pc if at is None else at) + 2 * count
        while start + 2 * len(words) < end + LONGEST and (one := process.word(start + 2 * len(words))) is not None:
            words.append(one)
        out = []
        source = None
        for where, line, found in disassembler.lines(words, start, program.exact if program else disassembler.unnamed):
            if where >= end:  # what is after belongs to the last instruction
                break
            mark, before = ">" if where == process.pc else " ", source
            source = program.line_at(where) if program else None
            if source and source != before:
                out.append(f"  {self.told(source)}")
            shown = " ".join(f"{one:06o}" for one in found)
            name = f"{self.name(program, where):14} " if program and program.names else ""
            out.append(f"{mark} {where:06o} {name}{shown:20}  {line.expandtabs(8)}".rstrip())
        return out or [f"  {start:06o} nothing is there"]

    def told(self, source):
        """A line of a source: its file, its number, and its text, where the file is at hand."""
        file, line = source
        if file not in self.sources:
            try:
                self.sources[file] = read_bytes(file).decode("utf-8", "replace").split("\n")
            except OSError:
                self.sources[file] = []
        texts = self.sources[file]
        return f"{file}:{line}" + (f"  {texts[line - 1].strip()}" if line <= len(texts) else "")

    def source(self, address, program):
        """Which line of its source a program is in."""
        found = program.line_at(address) if program else None
        return [f"source     {self.told(found)}"] if found else []

    def place(self, address, program):
        """An address by its name and its line of the source, as far as they are known."""
        name, found = self.name(program, address), program.line_at(address) if program else None
        told = [name] * bool(name) + ([self.told(found)] if found else [])
        return [f"  pc {address:06o}: {', '.join(told)}"] if told else []

    def came(self, process, program):
        """The instruction or the call from which a process goes on, with its name and its line of the source, as far as they are known."""
        told = self.place(process.pc, program)
        call = f", in its call {PENDING.get(process.pending, 'of then')}" if process.pending else ""
        return f"  from pc {process.pc:06o}{call}" + (told[0][len("  pc 000000") :] if told else "")

    def name(self, program, address):
        return (program.name_at(address) if program else None) or ""

    def stack(self, process, program=None):
        """The words from SP on, with what may be return addresses."""
        at, out = process.registers[6], []
        for address in range(at, min(at + 2 * DEPTH, ADDRESSES), 2):
            value = process.word(address)
            if value is None:
                break
            back = returns(process, value, program.exact if program else disassembler.unnamed)
            name, source = self.name(program, value), program.line_at(value) if program else None
            line = f" ({source[0]}:{source[1]})" if source else ""
            told = f"return to {name or octal(value)}{line}, from {back}" if back else ""
            out.append(f"  {address:06o} {value:06o}  {told}".rstrip())
        more = (ADDRESSES - at) // 2 - len(out)
        if out and more > 0:
            out.append(f"  and {more} more words")
        return out or [f"  {at:06o} nothing is there" if at else "  empty"]

    def area(self, moment, number):
        """The u area, field by field."""
        process = moment.process(number)
        u = process.u
        user, group, real_user, real_group = u[18:22]
        out = ["u area", f"  user {user}, group {group}; real user {real_user}, real group {real_group}",
               f"  directory: inode {word(u, 22)}",
               f"  clicks: text {word(u, 24)}, data {word(u, 26)}, stack {word(u, 28)}",
               f"  pending call: {PENDING.get(u[30], 'none')}" + (f", {' '.join(octal(one) for one in process.kept)}" if u[30] else ""),
               f"  ticks: {word(u, 48)} in the program, {word(u, 50)} in the kernel; of its children {long(u, 52)} and {long(u, 56)}",
               f"  exit status: {octal(word(u, 60))}"]
        caught = [(n, word(u, 64 + 2 * n)) for n in range(1, SIGNALS) if word(u, 64 + 2 * n)]
        does = [f"{n} {'ignored' if handler & 1 else 'to ' + octal(handler)}" for n, handler in caught]
        out.append("  signals: " + (", ".join(does) or "each as at the start"))
        return out + self.files(moment, number)

    def files(self, moment, number):
        """The open files: by descriptors their entries in the table of open files, and who has the same one."""
        users = {}
        for row in moment.table.rows.values():
            process = moment.process(row.number) if row.number and row.state != "dead" else None
            for descriptor in range(FILES if process else 0):
                users.setdefault(process.u[104 + descriptor], []).append((row.number, descriptor))
        process, out = moment.process(number), []
        for descriptor in range(FILES):
            entry = process.u[104 + descriptor]
            if entry:
                others = {}
                for who, other in users.get(entry, []):
                    if (who, other) != (number, descriptor):
                        others.setdefault(who, []).append(str(other))
                told = "; ".join(f"{', '.join(files)} of process {who}" for who, files in others.items())
                out.append(f"  file {descriptor}: open file {entry - 1}" + (f", as {told}" if told else ""))
        return out or ["  no open files"]

    # core and the swap area

    def map(self, moment, where):
        """Who holds which clicks of core, or which blocks of the swap area, and what is free."""
        return map_of(moment.table, where, lambda number: self.who(moment, number))

    def texts(self, moment):
        return shared_texts(moment.table)

    def words(self, process, program, at, count):
        """Words of memory, eight a line, and their bytes as text."""
        out, end = [], min(at + 2 * count, ADDRESSES)
        for start in range(at, end, 16):
            addresses = range(start, min(start + 16, end), 2)
            found = [process.word(address) for address in addresses]
            shown = " ".join("  --  " if one is None else f"{one:06o}" for one in found)
            text = "".join("  " if one is None else char(one & 255) + char(one >> 8) for one in found)
            out.append(f"{start:06o} {self.name(program, start):14} {shown:55}  {text}".rstrip())
        return out


def char(byte):
    return chr(byte) if 0o40 <= byte < 0o177 else "."


def long(data, at):
    """A number of two words, the high one first."""
    return word(data, at) << 16 | word(data, at + 2)


def cells(table, slot, user, command):
    """What HEAD names, of the process in an entry; its user and its command are memory's to tell."""
    row = table.rows[slot]
    priority = "-" if row.state == "dead" else table.priority[slot]
    return [table.letter(slot), slot, row.number, row.parent, user, priority, place_of(row), row.time, row.size if slot else "-",
            "-" if row.text is None else row.text, row.channel or "-",
            command if slot else "(the swapper)"]


def by_size(row, sizes):
    """In brackets the programs that are as large as that of a process: docs/tools/console.md."""
    names = sizes.get(row.program, []) if row.state != "dead" else []
    return f"({' or '.join(names)})" if names else ""


def map_of(table, where, who):
    """Who holds which clicks of core, or which blocks of the swap area, and what is free; `who` tells a process by its number."""
    first, last = (1, table.core) if where == "at" else (SWAP_FIRST, SWAP_LAST)
    held = sorted((place.start, units, name) for place, units, name in table.holders() if place.where == where)
    out, at, free = [], first, 0
    for start, units, name in [*held, (last + 1, 0, None)]:
        if start > at:
            out.append(f"{at:5} to {start - 1:5} {start - at:5}  free")
            free += start - at
        if name:
            told = name if name.startswith("text") else who(int(name))
            out.append(f"{start:5} to {start + units - 1:5} {units:5}  {told}")
        at = max(at, start + units)
    return [*out, f"{free} of {last - first + 1} {'clicks' if where == 'at' else 'blocks'} are free"]


def shared_texts(table):
    """The table of shared texts."""
    if not table.texts:
        return ["there are no shared texts"]
    out = ["TEXT CLICKS BLOCKS        USERS LOADED  CORE"]
    for number, text in sorted(table.texts.items()):
        core = f"at {text.click}" if text.loaded else "-"
        out.append(f"{number:4} {text.clicks:6} {text.block:5} to {text.block + blocks(text.clicks) - 1:5} {text.users:5} {text.loaded:6}  "
                   f"{core}")
    return out


def place_of(row):
    if row.place is None:
        return "-"
    return f"at {row.place.start}" if row.place.where == "at" else f"swap {row.place.start}"


def start_of(process, pc):
    """An address before PC from where the instructions lead to it: the furthest of them."""
    for at in range(max(pc - BEFORE, pc & 1), pc, 2):
        words = [process.word(address) for address in range(at, pc, 2)]
        if None not in words and leads(words, at):
            return at
    return pc


def leads(words, at):
    """Whether these words are whole instructions, with the words that calls have after them."""
    while words:
        text, count = disassembler.instruction(words, at) or ("", len(words) + 1)
        count += ARGUMENTS.get(text[4:], 0) if text.startswith("sys\t") else 0
        if count > len(words):
            return False
        at, words = at + 2 * count, words[count:]
    return True


def returns(process, value, name=disassembler.unnamed):
    """The call of a subroutine after which an address stands, as text, or None."""
    for back in (4, 2):
        if value & 1 or value < back:
            continue
        first = process.word(value - back)
        if first is None or first & JSR_MASK != JSR:
            continue
        mode = first & 0o77
        is_long = mode in LONG[:2] or mode & 0o60 == 0o60
        if is_long == (back == 4):
            words = [process.word(value - back + 2 * n) or 0 for n in range(back // 2)]
            return disassembler.instruction(words, value - back, name)[0].replace("\t", " ")
    return None
