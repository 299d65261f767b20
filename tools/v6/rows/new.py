"""A new row of a program in assembly: its words with their sources. What it must come to is for its author to say."""
import os
import re
import struct

from v6.host.files import read_bytes, replace
from v6.host.program import TOP
from v6.pdp11 import disassembler
from v6.pdp11.assembler import Assembler
from v6.pdp11.names import ARGUMENTS
from v6.rows.file import DATA, RowError, names

NAME = re.compile(r"[a-z]\w*/\w+", re.ASCII)
UNSAID = "What is to be seen, and why, from that page. Then the sections that say it, worked by hand and not taken from a run:"
ROW = """\
# {title}
# docs/manual/{page}
# {unsaid}
# term, log, left, status and report, as docs/rows.md has them.
made 0
init
{lines}
script
    run {slots}
"""


def quoted(data):
    table = {0o12: "\\n", 0o15: "\\r", 0o11: "\\t", 0o134: "\\\\", 0o42: '\\"'}
    return '"' + "".join(table.get(byte) or (chr(byte) if 0o40 <= byte < 0o177 else f"\\{byte:03o}") for byte in data) + '"'


def program_lines(name):
    """The lines of /etc/init: each instruction's address, its words, and its source, with addresses in the place of names."""
    assembler = Assembler()
    made = assembler.assemble([(name, read_bytes(name).decode("utf-8", "replace"))])
    if made is None:
        raise RowError("\n".join(f"{error}" for error in assembler.errors))
    if assembler.sizes["bss"]:
        raise RowError(f"{name}: a row's program has no bss: .=.+N in the text takes room")
    starts = [(assembler.parts[part].base + start, part, text) for part, start, text in assembler.lines if part != "bss"]
    starts.sort(key=lambda one: one[0])
    out, ends = [], [at for at, _, _ in starts[1:]] + [len(made) - 16]
    for (at, part, text), end in zip(starts, ends):
        data = made[16 + at : 16 + end]
        if at % 2 or len(data) % 2 or "<" in text.split("/ ")[0]:
            out += [f"    {at:6o}  {quoted(data)}"] * bool(data)
            continue
        words = struct.unpack(f"<{len(data) // 2}H", data)
        lines = code(words, at) if part == "text" else [(at + 2 * n, f"{word:o}", [word]) for n, word in enumerate(words)]
        out += [f"    {where:6o}  {' '.join(f'{word:06o}' for word in found):27}; {source}" for where, source, found in lines]
    return out


def code(words, at):
    """Instructions, each with the arguments of its call."""
    lines = list(disassembler.lines(list(words), at))
    while lines:
        (where, text, found), *lines = lines
        count = ARGUMENTS.get(text[4:], 0) if text.startswith("sys\t") else 0
        for _, more, word in lines[:count]:
            text, found = f"{text}; {more}", [*found, *word]
        lines = lines[count:]
        yield where, text.replace("\t", " "), found


def new_row(name, source, page, slots, data=DATA):
    """Writes a row's file, and its line of the list; gives the path of the file, and whether the family is new."""
    if not NAME.fullmatch(name):
        raise RowError(f"{name}: a name is FAMILY/NAME, in small letters, as calls/dup_of_a_pipe")
    path = os.path.join(data, "rows", name)
    if os.path.lexists(path):
        raise RowError(f"{path}: there already")
    if not os.path.exists(os.path.join(TOP, "docs", "manual", page)):
        raise RowError(f"{page}: no page of docs/manual")
    title = name.rpartition("/")[2].replace("_", " ")
    text = ROW.format(title=title, page=page, unsaid=UNSAID, lines="\n".join(program_lines(source)), slots=slots)
    is_new = not os.path.isdir(os.path.dirname(path))
    os.makedirs(os.path.dirname(path), exist_ok=True)
    replace(path, text.encode("ascii", "backslashreplace"))
    if data == DATA:
        replace(os.path.join(os.path.dirname(DATA), "stdout"), "".join(f"ok {one}\n" for one in names()).encode())
    return path, is_new
