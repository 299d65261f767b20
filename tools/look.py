#!/usr/bin/env python3
"""Shows any moment of a run, forwards and backwards: see docs/tools/look.md."""
import signal

if __name__ == "__main__":
    signal.signal(signal.SIGINT, signal.SIG_DFL)  # an interrupt before main ends it without a word

import argparse
import os
import sys

sys.path.insert(0, os.path.dirname(os.path.abspath(__file__)))
from v6.debug.commands import Looker, LookError
from v6.debug.symbols import Programs
from v6.debug.views import Views
from v6.disk.volume import DiskError
from v6.host.files import folder_of_runs, guarded, read_bytes
from v6.host.program import CORE, V6, ProgramError, add_version
from v6.host.progress import Progress
from v6.log.processes import LogFault
from v6.run.ends import programs_of_all
from v6.run.history import History
from v6.run.moments import NO_MEMORY, MomentError, Run
from v6.run.script import ScriptError, add_replay, check_script, read_script

KNOWN = (LookError, MomentError, ProgramError, LogFault)
LAST = ("end", "panic")


def compare(run, name):
    """Looks whether a log is that of this run. One that is cut is said to be, and one of another run is refused."""
    *lines, rest = read_bytes(name).decode("ascii", "replace").split("\n")
    is_whole = bool(lines) and lines[-1].split(" ")[0] in LAST and not rest
    count, lines = len(lines), lines[:-1] if lines and lines[-1] == "end" else lines
    for number, (found, wanted) in enumerate(zip(lines, run.lines), 1):
        if found != wanted:
            raise LookError(f"{name}: line {number} is of another run: it is {found[:60]!r}, and here {wanted!r}")
    if len(lines) > len(run.lines):
        raise LookError(f"{name}: it has {count} lines, and this run has {len(run.log)}")
    if len(lines) < len(run.lines) or not is_whole and not run.status:
        print(f"look.py: {name}: it is cut after line {len(lines)}; the run has {len(run.log)}", file=sys.stderr)


def looker_of(options, folder):
    check_script(options.script, options.image, options.core, options.eight, options.second, options.replay)
    run = Run(options.v6, options.image, options.core, read_script(options.script), folder, options.eight, options.second)
    if options.log:
        compare(run, options.log)
    disks = [read_bytes(name) for name in filter(None, (options.image, options.second))]
    programs = Programs(disks[0], options.symbols)
    for name in programs.strangers():
        print(f"look.py: {name}: no program, so it has no names", file=sys.stderr)
    looker = Looker(History(run), Views(programs, programs_of_all(disks)))
    if not run.has_memory:
        print(f"look.py: {NO_MEMORY}: what it would tell is left out", file=sys.stderr)
    if run.status:
        print(f"look.py: {run.said}: the run is shown up to slot {looker.history.last}", file=sys.stderr)
    return looker


def do(looker, command):
    """Does a command; whether it was done. Where it isn't, a line says why, and the moment stays."""
    history = looker.history
    try:
        with Progress("look.py") as progress:
            history.tells = progress.person and (lambda slot: progress.tell(f"slot {slot} of {history.last}"))
            lines = list(looker.lines_of(command))
        print(*lines, sep="\n", end="\n" * bool(lines))
        return True
    except KNOWN as error:
        sys.stdout.flush()
        print(f"look.py: {error}", file=sys.stderr)
        return False


def talk(looker):
    """Commands from a terminal, after a prompt. An empty line is the last command that was done again, and an interrupt ends a command."""
    import readline  # noqa: F401, since input() edits its line by it

    command, last = "slot", "slot"
    while True:
        try:
            last = command if do(looker, command) else last
            if looker.is_over:
                break
            command = input(f"{looker.moment.slots}> ").strip() or last
        except KeyboardInterrupt:
            command = ""
            print()
        except EOFError:
            print()
            break


def look(options):
    with folder_of_runs() as folder:
        looker = looker_of(options, folder)
        if not options.commands and sys.stdin.isatty():
            return talk(looker)
        faults = 0
        for command in options.commands or sys.stdin:
            faults += not do(looker, command)
            if looker.is_over:
                break
        return int(faults > 0)


def options_of(words):
    parser = argparse.ArgumentParser(prog="look.py", description="Shows any moment of a run: docs/tools/look.md")
    parser.add_argument("image", help="the disk")
    parser.add_argument("core", type=int, help=f"the size of core, in clicks; {CORE} is the most")
    parser.add_argument("script", help="the script: docs/manual/scripts.md")
    parser.add_argument("-c", dest="commands", action="append", metavar="COMMAND", help="a command, instead of those that are typed")
    parser.add_argument("--eight", action="store_true", help="with eight lines of a terminal, as `v6 run8`")
    parser.add_argument("--second", metavar="IMAGE2", help="with a second disk, as `v6 run2`")
    parser.add_argument("--log", metavar="LOG", help="a log that is to be that of this run")
    parser.add_argument("--symbols", metavar="FILE", action="append", default=[], help="a program with names, if the disk's has none")
    parser.add_argument("--v6", metavar="COMMAND", default=V6, help="the program (bin/v6)")
    add_replay(parser)
    add_version(parser)
    options = parser.parse_args(words)
    if options.eight and options.second:
        parser.error("--eight and --second: a machine has eight lines, or a second disk")
    return options


def main(words):
    options = options_of(words)
    return guarded("look.py", lambda: look(options), *KNOWN, ScriptError, DiskError)


if __name__ == "__main__":
    sys.exit(main(sys.argv[1:]))
