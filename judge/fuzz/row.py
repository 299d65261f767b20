"""Writes a failing case of the fuzzer as a row file: docs/rows.md has the language. What it must come to is the reference's."""
import itertools
import re
import struct

from judge.fuzz.cases import HI, read
from judge.fuzz.judge import MOST_SLOTS, OUTPUTS, TooSlow, check_answer, number, reference_run

from v6.pdp11 import disassembler
from v6.pdp11.names import ARGUMENTS
from v6.rows.runner import plain
from v6.rows.file import HEADER, INODE_7, RowError, Row, place

PAGES = {"disk": "disk-image.md", "odd": "disk-image.md", "words": "calls.md", "hostile": "calls.md", "script": "scripts.md",
         "host": "ports.md", "command": "commands.md", "lines": "terminal.md", "slow": "scripts.md", "two": "calls.md"}
IN_LINE, GAP = 16, 3  # bytes of a disk in a line, and how far two that differ may be apart in it
MOST_BYTES = 100_000  # of a disk that differ, in a row file


def quoted(data):
    """A text of a section: itself with a new line where it can be so, or in quotes."""
    text = data[:-1]
    is_plain = re.fullmatch(rb"[a-z;]([ -~]*[!-~])?", text) and not re.match(rb"booted|\.\.", text)
    if data.endswith(b"\n") and is_plain and b", " not in text:  # which would part what is repeated
        return text.decode("ascii")
    return '"' + plain(data).replace("\n", "\\n") + '"'


def texts(data):
    """Lines of a section, of which one that comes again and again stands once with its number."""
    lines = [line for line in re.split(rb"(?<=\n)", data) if line]
    for line, group in itertools.groupby(lines):
        count = len(list(group))
        yield f"    {quoted(line)}" if count == 1 else f"    {count} times {quoted(line)}"


def code(words, at):
    """Lines of a program, each instruction with its source; a call's arguments stand with it, and many zeros in one line."""
    lines = list(disassembler.lines(words, at))
    while lines:
        zeros = len(list(itertools.takewhile(lambda line: list(line[2]) == [0], lines[:IN_LINE])))
        if zeros > 2:
            yield f"  {lines[0][0]:8o}  {' '.join('0' * zeros)}"
            lines = lines[zeros:]
            continue
        (at, text, found), *lines = lines
        count = ARGUMENTS.get(text[4:], 0) if text.startswith("sys\t") else 0
        for _, more, word in lines[:count]:
            text, found = f"{text}; {more}", [*found, *word]
        lines = lines[count:]
        yield f"  {at:8o}  {' '.join(f'{word:06o}' for word in found):22}  ; {text}".replace("\t", " ")


def pieces(image, base):
    """Where an image differs from another of its length: lines of bytes with their places."""
    differ = [at for at in range(len(image)) if image[at] != base[at]]
    if len(differ) > MOST_BYTES:
        raise RowError(f"{len(differ)} bytes of the disk differ")
    while differ:
        at, count = differ[0], 1
        while count < len(differ) and differ[count] <= differ[count - 1] + GAP and differ[count] < at + IN_LINE:
            count += 1
        data, differ = image[at : differ[count - 1] + 1], differ[count:]
        yield f"  {at:8}  {data.hex(' '):24}; {place(at, len(data))}"


def program_lines(image):
    """The lines of `init`, where the disk has a program in the place of the example's."""
    size = int.from_bytes(image[INODE_7 + 6 : INODE_7 + 8], "little")
    head = struct.unpack("<4H", image[HEADER : HEADER + 8].ljust(8, b"\0"))
    if not 16 < size <= 4096 or size % 2 or head != (0o407, size - 16, 0, 0):
        return []
    words = struct.unpack(f"<{size // 2 - 8}H", image[HEADER + 16 : HEADER + size].ljust(size - 16, b"\0"))
    return ["init", *code(words, 0)]


class Read(Row):
    """The row of some lines."""

    def __init__(self, text):
        self.text = text
        super().__init__("fuzz")

    def read(self, path):
        self.section, self.own = None, True
        for line in self.text.split("\n"):
            self.line(line)


def disk_lines(image, base):
    return image_lines(image, base, program_lines(image))


def image_lines(image, base, program=()):
    """The size of an image, a program that it has, and where it is another than the example's with that program."""
    lines = ([f"size {len(image)}"] if len(image) != len(base) else []) + list(program)
    there = Read("\n".join(lines)).image(base)
    found = list(pieces(image, there))
    return lines + (["disk", *found] if found else [])


def wanted_lines(case, found):
    """What the row must come to, by the reference. Of the disk that is left its counts are told."""
    if case.command[0] == "check":
        status, report = check_answer(case.image)
        return ([f"status {status}"] if status else []) + [f"report {report.decode().rstrip()}"]
    is_eight = case.command[0] == "run8"
    want = reference_run(case.image, number(case.core), case.script(), 8 if is_eight else 1, case.others())
    lines = [f"status {want.status}"] if want.status else []
    lines += [f"report {want.report.decode().rstrip()}"] if want.report else []
    if want.run is None or case.command[0] not in ("run", "run8", "run2"):
        return lines + second_lines(case)
    log = "".join(f"{line}\n" for line in want.run.log).encode()
    shown = [(f"term {number}" if number else "term", bytes(line.shown)) for number, line in enumerate(want.run.u.lines)]
    lines += [text for name, data in shown if data for text in (name, *texts(data))]
    lines += ["log", *texts(log)]
    lines += store_lines(want.run.u.stores[0], found, "")
    return lines + second_lines(case) + (store_lines(want.run.u.stores[1], found, "second ") if case.others() else [])


def store_lines(store, found, disk):
    """What must be left on a disk: the inodes of which something was found, and the counts."""
    left = [line for name in found for line in left_lines(store, re.match(rf"{disk}final inode (\d+), ", name))]
    return [*(["left", *dict.fromkeys(left)] if left else []), f"check ok {len(store.nodes)} nodes {store.room} free"]


def second_lines(case):
    """The second image, where the command has one. What follows is of that disk."""
    return [line for image in case.others() for line in ("second", *image_lines(image, read(HI)))]


def left_lines(store, name):
    """Lines of the fields of an inode that the reference tells: all but its addresses."""
    node = store.nodes.get(int(name[1])) if name else None
    if node is None:
        return
    at = 1024 + 32 * (int(name[1]) - 1)
    fields = struct.pack("<H4BH", node.mode, node.nlink, node.uid, node.gid, node.size >> 16, node.size & 0xFFFF)
    times = b"".join(struct.pack("<2H", time >> 16, time & 0xFFFF) for time in (node.actime, node.modtime))
    for place_of, data in ((at, fields), (at + 24, times)):
        yield f"  {place_of:8}  {data.hex(' '):24}; {place(place_of, len(data))}"


def row_of(case, found, base):
    """The text of a row file."""
    lines = [f"# seed {case.seed} of the fuzzer, kind {case.kind}", f"# docs/manual/{PAGES[case.kind]}"]
    lines += [f"# {plain(line.encode('ascii', 'backslashreplace'))[:110]}" for line in found[:4]]
    lines += [f"# the files: {case.host.said()}"] if case.host else []
    lines += disk_lines(case.image, base)
    words = case.words()
    if words == ["run", "image", case.core, "script", *OUTPUTS] and number(case.core) is not None:
        lines += [f"core {int(case.core)}"] if case.core != "1200" else []
    elif all(re.fullmatch(r"[!-~]+", word) for word in words):
        lines += ["command " + " ".join(words)]
    else:
        raise RowError("the words can't stand in a row file")
    script = case.script()
    lines += ["script", *texts(script)] if script else []
    try:
        lines += wanted_lines(case, found)
    except TooSlow:
        lines += [f"# more than {MOST_SLOTS} slots: the reference doesn't follow"]
    return "\n".join(lines) + "\n"
