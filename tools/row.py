#!/usr/bin/env python3
"""Shows rows, which are whole runs with what they must come to, and runs them: see docs/rows.md."""
import signal

if __name__ == "__main__":
    signal.signal(signal.SIGINT, signal.SIG_DFL)  # an interrupt before main ends it without a word

import argparse
import os
import shlex
import sys
import tempfile

sys.path.insert(0, os.path.dirname(os.path.abspath(__file__)))
from v6.host.files import guarded
from v6.host.program import V6, ProgramError, add_version
from v6.host.progress import Progress, clear
from v6.pdp11 import disassembler
from v6.pdp11.names import ARGUMENTS
from v6.rows.file import DATA, TEXT, Row, RowError, names
from v6.rows.new import UNSAID, new_row
from v6.rows.runner import Runner, chosen, differences, plain


# showing


def shown(data):
    """Bytes as the lines of a row file have them, a line for each new line in them."""
    lines = data.split(b"\n")
    out = [plain(line) + "\\n" for line in lines[:-1]] + ([plain(lines[-1])] if lines[-1] else [])
    return [f'    "{line}"' for line in out]


def code(data, at):
    """Lines of the words of a program, each instruction with its arguments."""
    lines = list(disassembler.lines([int.from_bytes(data[i : i + 2], "little") for i in range(0, len(data), 2)], at))
    while lines:
        (at, text, words), *lines = lines
        count = ARGUMENTS.get(text[4:], 0) if text.startswith("sys\t") else 0
        for _, more, word in lines[:count]:
            text, words = f"{text}; {more}", [*words, *word]
        lines = lines[count:]
        yield f"  {at:6o}  {' '.join(f'{w:06o}' for w in words):22}  ; {text}".replace("\t", " ")


def whole_program(row, image):
    """The program of a row, as it stands on the disk: its lines, those of its frames too."""
    start = 0
    for name in ("before", "init", "after"):
        for at, data, source in row.sources[name]:
            at += start if name == "after" else 0
            now = image[TEXT + at : TEXT + at + len(data)]
            if source is None:
                yield f'  {at:6o}  "{plain(now)}"'.replace("\n", "\\n")
            else:
                yield from code(now, at)
        start += len(row.parts[name] or b"")


def show(row, image, came, found):
    print("\n".join(f"# {line}" for line in row.remarks))
    for name in row.frames:
        print(f"frame {name}")
    if row.program() is not None:
        print("/etc/init", *whole_program(row, image), sep="\n")
    for inode, block, data, sources in row.files():
        print(f"the file of inode {inode}, in block {block}: header {' '.join(f'{w:o}' for w in header(data))}")
        for at, part, source in sources:
            print(*([f'  {at:6o}  "{plain(part)}"'] if source is None else code(part, at)), sep="\n")
    print("v6", row.command())
    lines = [(f"line {line}", came[f"term.{line}"]) for line in range(1, 8) if came[f"term.{line}"]]
    for name, data in (("script", row.script), ("terminal", came["term"]), *lines, ("log", came["log"]), ("report", came["report"])):
        print(name, *squeezed(shown(data)), sep="\n")
    tell(row, found)


def squeezed(lines):
    """Lines, of which one that comes again and again stands once with its number."""
    out = []
    for line in lines:
        if out and out[-1][1] == line:
            out[-1][0] += 1
        else:
            out.append([1, line])
    return [line if count == 1 else f"    {count} times {line.strip()}" for count, line in out]


def header(data):
    return [int.from_bytes(data[at : at + 2], "little") for at in range(0, 16, 2)]


def is_unsaid(row):
    """Whether the words of a new row stand there still, in the place of what is to be seen."""
    return UNSAID in row.remarks


def tell(row, found):
    if is_unsaid(row):
        print(f"{row.name}: it doesn't say yet what is to be seen, and what it must come to")
    elif not found:
        print("ok", row.name)
    for what, wanted, came in found:
        wanted, came = (value if isinstance(value, int) else f'"{plain(value[:200])}"' for value in (wanted, came))
        print(f"{row.name}: {what}: {wanted} is wanted, and {came} came")


# the command line


def main(words):
    parser = argparse.ArgumentParser(prog="row.py", description="Shows and runs rows of whole runs: docs/rows.md")
    parser.add_argument("names", metavar="NAME", nargs="*", help="a row, or a pattern as 'calls/*'; none: the list of all; new "
                        "FAMILY/NAME makes one")
    parser.add_argument("-q", "--quiet", action="store_true", help="tell only whether each row came out as it says")
    parser.add_argument("--v6", metavar="COMMAND", default=V6, help="the program that runs them (bin/v6)")
    parser.add_argument("--data", metavar="FOLDER", default=DATA, help="another folder that has rows/FAMILY/NAME")
    parser.add_argument("--from", dest="source", metavar="FILE", help="of a new row: its program, in assembly")
    parser.add_argument("--page", default="calls.md", metavar="PAGE", help="of a new row: the page of docs/manual (calls.md)")
    parser.add_argument("--slots", type=int, default=100, help="of a new row: how many its script gives (100)")
    add_version(parser)
    options = parser.parse_args(words)
    if options.source and (len(options.names) != 2 or options.names[0] != "new"):
        parser.error("--from: row.py new FAMILY/NAME --from FILE makes a row")
    if options.names[:1] == ["new"] and not options.source:
        parser.error("new: --from names the program of the row, in assembly")
    return guarded("row.py", lambda: run(options), RowError, ProgramError)


def run(options):
    """The status: 1 where a row that was run didn't come out as it says, or doesn't say it yet."""
    if options.source:
        path, is_new = new_row(options.names[1], options.source, options.page, options.slots, options.data)
        if is_new:
            print(f"{options.names[1].partition('/')[0]}: a new family")
        data = f" --data {shlex.quote(options.data)}" if options.data != DATA else ""
        print(f"{path}: say there what it must come to, by hand; then row.py{data} {options.names[1]}")
        return 0
    failed = 0
    if not options.names:
        for name in names(options.data):
            try:
                print(f"{name}: {''.join(Row(name, options.data).remarks[:1])}")
            except RowError as error:
                failed += unread(error)
        return int(failed > 0)
    with tempfile.TemporaryDirectory() as folder, Progress("row.py") as progress:
        return int(run_rows(options, Runner(options.v6, folder), progress) > 0)


def run_rows(options, runner, progress):
    """How many rows didn't come out as they say. A terminal that is shown each of them needn't be told how far it is."""
    failed, every = 0, chosen(options.names, options.data)
    for number, name in enumerate(every, 1):
        if not sys.stdout.isatty():
            progress.tell(f"{number} of {len(every)}: {name}" + f"; {failed} failed" * bool(failed))
        try:
            row = Row(name, options.data)
            row.check_sources()
            image, came = runner.run(row)
        except RowError as error:
            failed += unread(error)
            continue
        found = differences(row, image, came)
        failed += bool(found) or is_unsaid(row)
        tell(row, found) if options.quiet else show(row, image, came, found)
    return failed


def unread(error):
    """Tells what is wrong with a row that can't be read, and counts it."""
    sys.stdout.flush()
    clear()
    print(f"row.py: {error}", file=sys.stderr)
    return 1


if __name__ == "__main__":
    sys.exit(main(sys.argv[1:]))
