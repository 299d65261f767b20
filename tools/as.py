#!/usr/bin/env python3
"""Assembles programs for the PDP-11/40 and the Sixth Edition: see docs/tools/as.md."""
import signal

if __name__ == "__main__":
    signal.signal(signal.SIGINT, signal.SIG_DFL)  # an interrupt before main ends it without a word

import argparse
import os
import sys

sys.path.insert(0, os.path.dirname(os.path.abspath(__file__)))
from v6.host.files import guarded, put_out, read_bytes, same_file
from v6.host.program import add_version
from v6.pdp11 import disassembler
from v6.pdp11.assembler import Assembler

MOST_ERRORS = 20  # that are told: a file that is no source has one on each line
KINDS = {1: "absolute", 2: "text", 3: "data", 4: "bss"}


def listing(assembler):
    """Each line of the source with the address and the words that it came to."""
    lines = assembler.lines
    ends = {part: done.size for part, done in assembler.parts.items()}
    out = []
    for part, start, text in reversed(lines):
        done = assembler.parts[part]
        piece, ends[part] = done.bytes[start : ends[part]], start
        words = " ".join(f"{int.from_bytes(piece[at : at + 2], 'little'):06o}" for at in range(0, min(len(piece), 6), 2))
        more = " .." if len(piece) > 6 else ""
        address = done.base + start + assembler.origin & 0xFFFF
        out.append(f"{address:5} {address:06o}  {words + more:23}  {text}".rstrip())
    return "\n".join(reversed(out)) + "\n"


def symbols(assembler):
    """The names of the source, by their addresses."""
    rows = [f"{value:5} {value:06o}  {KINDS[kind & 7]:8}  {'global' if kind & 0o40 else '':6}  {name}\n"
            for name, kind, value in assembler.symbols()]
    return "\n" + "".join(rows)


def programs(options):
    """Each program that is made, with its sources."""
    if options.into is None:
        yield options.out, [*options.sources, *options.behind]
        return
    for name in options.sources:
        yield os.path.join(options.into, os.path.basename(name).removesuffix(".s")), [name, *options.behind]


def assemble(options):
    return int(any([assemble_one(options, *one) for one in programs(options)]))


def assemble_one(options, out, names):
    """Makes a program of sources, and gives its status."""
    for name in names:
        if same_file(name, out) and os.path.exists(name):
            print(f"as.py: {name}: the source itself, and the program would take its place", file=sys.stderr)
            return 1
    sources = [(name, read_bytes(name).decode("utf-8", "replace")) for name in names]
    assembler = Assembler()
    traced = tuple(names) if options.lines else ()
    data = assembler.assemble(sources, options.shared, options.symbols or options.lines, traced)
    if data is None:
        for error in assembler.errors[:MOST_ERRORS]:
            print(f"as.py: {error}", file=sys.stderr)
        left = len(assembler.errors) - MOST_ERRORS
        if left > 0:
            print(f"as.py: and {left} more", file=sys.stderr)
        return 1
    put_out(out, data, 0o755)
    if options.listing:
        print(listing(assembler) + (symbols(assembler) if options.symbols else ""), end="")
    return 0


def disassemble(options):
    for name in options.sources:
        try:
            print(disassembler.source(read_bytes(name)), end="")
        except ValueError as error:
            print(f"as.py: {name}: {error}", file=sys.stderr)
            return 1
    return 0


def main(words):
    parser = argparse.ArgumentParser(prog="as.py", description="An assembler in the syntax of as(I): docs/tools/as.md")
    parser.add_argument("sources", metavar="FILE", nargs="+", help="the source, in the order in which it is read")
    parser.add_argument("-o", dest="out", help="the program that is made (a.out)")
    parser.add_argument("--into", metavar="FOLDER", help="make a program of each FILE there, which has its name without .s")
    parser.add_argument("--with", dest="behind", metavar="FILE", action="append", default=[], help="a source that stands after each")
    parser.add_argument("-n", dest="shared", action="store_true", help="with a text that is shared: magic 0410")
    parser.add_argument("-l", dest="listing", action="store_true", help="print each line with its address and words")
    parser.add_argument("-s", dest="symbols", action="store_true", help="with a table of symbols, also in the listing")
    parser.add_argument("-g", dest="lines", action="store_true", help="with a table of symbols that has the lines of the source")
    parser.add_argument("--disassemble", action="store_true", help="print source for programs")
    add_version(parser)

    def body():
        options = parser.parse_args(words)
        if options.into is not None and options.out is not None:
            parser.error("-o names one program, and --into is for several")
        options.out = "a.out" if options.out is None else options.out
        return disassemble(options) if options.disassemble else assemble(options)

    return guarded("as.py", body)


if __name__ == "__main__":
    sys.exit(main(sys.argv[1:]))
