#!/usr/bin/env python3
"""Plays a script on a disk and shows the terminal; no file is lost where the run isn't done: see docs/tools/run.md."""
import signal

if __name__ == "__main__":
    signal.signal(signal.SIGINT, signal.SIG_DFL)  # an interrupt before main ends it without a word

import argparse
import itertools
import os
import sys
import tempfile

sys.path.insert(0, os.path.dirname(os.path.abspath(__file__)))
from v6.disk.refusal import hint, told_cut
from v6.disk.silent import why_silent
from v6.disk.volume import DiskError
from v6.host.files import STREAMS, guarded, place_of, put_out, read_bytes, same_file
from v6.host.program import CORE, V6, ProgramError, add_version, call, named
from v6.run.script import ScriptError, add_replay, check_script, head_of, with_line

OUTPUTS = ("term", "log", "disk")
SECOND = "second disk"  # what `v6 run2` writes beside these
LINES = tuple(f"term.{line}" for line in range(1, 8))  # what `v6 run8` writes beside the console's file
SHOWN = ("term", *LINES)
ONE_FILE = ({"image", "disk"}, {"second", SECOND}, {"image", "second"})  # which may be


def options_of(words):
    parser = argparse.ArgumentParser(prog="run.py", description="Plays a script on a disk: docs/tools/run.md")
    parser.add_argument("image", help="the disk")
    parser.add_argument("script", help="the script: docs/manual/scripts.md")
    parser.add_argument("--term", metavar="FILE", default="-",
                        help="where what the terminal shows goes (the standard output)")
    parser.add_argument("--eight", action="store_true",
                        help="with eight terminal lines, of which seven are shown in FILE.1 to FILE.7 beside the FILE of --term")
    parser.add_argument("--log", metavar="FILE", help="where the log goes")
    parser.add_argument("--disk", metavar="FILE", help="where the disk goes that the run leaves; it may be the image")
    parser.add_argument("--second", metavar="IMAGE2", help="with a second disk, which mount(II) puts on a directory")
    parser.add_argument("--second-disk", metavar="FILE", help="where the second disk goes that the run leaves; it may be IMAGE2")
    parser.add_argument("--core", type=int, help=f"the size of core, in clicks ({CORE}, or that of a script of the console)")
    add_replay(parser)
    parser.add_argument("--damaged", action="store_true", help="play it also where an image ends before what its files hold")
    parser.add_argument("--v6", metavar="COMMAND", default=V6, help="the program (bin/v6)")
    add_version(parser)
    options = parser.parse_args(words)
    if options.eight and options.term in STREAMS:
        parser.error("--eight needs the FILE of --term, beside which the other lines have theirs")
    if options.eight and options.second:
        parser.error("--eight and --second: a machine has eight lines, or a second disk")
    if options.second_disk and not options.second:
        parser.error("--second-disk: there is none without --second")
    named = {"image": options.image, "second": options.second, "script": options.script, **outputs_of(options)}
    for (one, first), (other, second) in itertools.combinations(named.items(), 2):
        if (same_file(first, second) or first in STREAMS and second in STREAMS) and {one, other} not in ONE_FILE:
            parser.error(f"{one} and {other} are the same file")
    return options


def outputs_of(options):
    """The files that are asked for, by what they get: those of the lines have the name of the console's, with the number of the
    line after it."""
    outputs = {name: getattr(options, name) for name in OUTPUTS if getattr(options, name)}
    if options.second_disk:
        outputs[SECOND] = options.second_disk
    if options.eight:
        outputs.update({line: options.term + line.removeprefix("term") for line in LINES})
    return outputs


def refuse_cut(files):
    """Refuses an image that ends before what its files hold: what is missing would be zeros."""
    for port, name in files.items():
        said = told_cut(name, read_bytes(name), port) if name and os.path.isfile(name) else ""
        if said:
            raise DiskError(f"{said}; --damaged plays it with zeros there")


def run(options):
    """The status of the program. What it writes goes to files of its own first. The disk takes its place where the run is
    done; what was shown and logged up to there is kept in any case, but not of a run that never began."""
    outputs = outputs_of(options)
    core = options.core
    if core is None:
        head = head_of(options.script)
        core = int(head[2]) if head else CORE
    check_script(options.script, options.image, core, options.eight, options.second, options.replay)
    if not options.damaged:
        refuse_cut({"image": options.image, "second": options.second})
    for name in outputs.values():
        if name not in STREAMS:
            place_of(name)
    with tempfile.TemporaryDirectory() as folder:
        made = {name: os.path.join(folder, name) for name in (*OUTPUTS, *LINES, SECOND)}
        words = [options.image, str(core), options.script, *(made[name] for name in OUTPUTS)]
        second = [options.second, made[SECOND]] if options.second else []
        status, said = call(options.v6, "run8" if options.eight else "run2" if second else "run", *words, *second)
        for name, target in outputs.items():
            if os.path.exists(made[name]) and (name not in ("disk", SECOND) or not status):
                put_out(target, read_bytes(made[name]))
        if status:
            script = read_bytes(options.script) if os.path.isfile(options.script) else b""
            files = {"image": options.image, "second": options.second, "script": options.script}
            said = named(with_line(said, script), files, core) + hint(said, files)
            print(f"run.py: {said}", file=sys.stderr)
        elif os.path.isfile(options.image) and not any(os.path.getsize(made[name]) for name in outputs if name in SHOWN):
            why = why_silent(read_bytes(options.image), read_bytes(made["log"]))
            if why:
                print(f"run.py: {why}", file=sys.stderr)
        return status


def main(words):
    options = options_of(words)
    return guarded("run.py", lambda: run(options), DiskError, ProgramError, ScriptError, failed=3)


if __name__ == "__main__":
    sys.exit(main(sys.argv[1:]))
