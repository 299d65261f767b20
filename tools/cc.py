#!/usr/bin/env python3
"""Compiles programs in C for the PDP-11/40 and the Sixth Edition: see docs/tools/c.md."""
import signal

if __name__ == "__main__":
    signal.signal(signal.SIGINT, signal.SIG_DFL)  # an interrupt before main ends it without a word

import argparse
import os
import sys

sys.path.insert(0, os.path.dirname(os.path.abspath(__file__)))
from v6.host.files import guarded, put_out, same_file
from v6.host.program import add_version
from v6.host.progress import Progress
from v6.pdp11.compiler import HOME, CompileError, Compiler, Program, gcc, pcc, program_of


def compile_all(options, progress):
    for name in options.sources:
        if same_file(name, options.out):
            raise CompileError(f"{name}: the source itself, and the program would take its place")
    words = [f"-I{name}" for name in options.folders] + [f"-D{name}" for name in options.defined]
    compiler = Compiler(options.compiler, words, gcc if options.gcc else pcc, options.lines, progress)
    if options.assembly:
        program = Program(compiler)
        for name in options.sources:
            program.add(name)
        put_out(options.out, "".join(f"{source.rstrip()}\n" for _, source in program.sources).encode("latin-1"))
    else:
        data, _ = program_of(options.sources, compiler, options.symbols, options.shared)
        put_out(options.out, data, 0o755)


def main(words):
    parser = argparse.ArgumentParser(prog="cc.py", description="A compiler for the PDP-11/40: docs/tools/c.md")
    parser.add_argument("sources", metavar="FILE", nargs="+", help="a source in C, NAME.c, or in assembly, NAME.s")
    parser.add_argument("-o", dest="out", default="a.out", help="the program that is made (a.out)")
    parser.add_argument("-n", dest="shared", action="store_true", help="with a text that is shared: magic 0410")
    parser.add_argument("-S", dest="assembly", action="store_true", help="make assembly of the files, and no program")
    parser.add_argument("-s", dest="symbols", action="store_true", help="with a table of symbols")
    parser.add_argument("-g", dest="lines", action="store_true", help="with a table of symbols that has the lines of the sources")
    parser.add_argument("-I", dest="folders", metavar="FOLDER", action="append", default=[], help="where headers are, too")
    parser.add_argument("-D", dest="defined", metavar="NAME[=TEXT]", action="append", default=[], help="a name of the preprocessor")
    parser.add_argument("--gcc", action="store_true", help="with GCC, which tools/c/build-gcc.sh makes, in the place of pcc")
    parser.add_argument("--compiler", metavar="FOLDER", default=HOME, help="where tools/c/build.sh has put the compiler")
    add_version(parser)

    def body():
        options = parser.parse_args(words)
        with Progress("cc.py") as progress:
            compile_all(options, progress)

    return guarded("cc.py", body, CompileError)


if __name__ == "__main__":
    sys.exit(main(sys.argv[1:]))
