#!/usr/bin/env python3
"""Tells the calls of each process of a run as they come: see docs/tools/trace.md."""
import signal

if __name__ == "__main__":
    signal.signal(signal.SIGINT, signal.SIG_DFL)  # an interrupt before main ends it without a word

import argparse
import os
import sys

sys.path.insert(0, os.path.dirname(os.path.abspath(__file__)))
from v6.debug.tracer import Tracer
from v6.host.files import folder_of_runs, guarded
from v6.host.program import CORE, V6, ProgramError, add_version
from v6.host.progress import Progress
from v6.log.processes import LogFault
from v6.run.moments import MomentError, Run
from v6.run.script import ScriptError, add_replay, check_script, read_script

# for a script of a machine of which memory tells nothing, by which calls are known
OTHER_WAYS = "look.py --eight shows what its log tells", "look.py --second IMAGE2 shows what its log tells"


def trace(options):
    image = options.image
    with folder_of_runs() as folder:
        check_script(options.script, image, options.core, replay=options.replay, ways=OTHER_WAYS)
        run = Run(options.v6, image, options.core, read_script(options.script), folder)
        shown = 0
        with Progress("trace.py") as progress:
            is_told = progress.person and not sys.stdout.isatty()  # which would show the lines themselves
            tells = is_told and (lambda slot: progress.tell(f"slot {slot} of {run.script.slots}"))
            for _, said in Tracer(run, options, tells).follow():
                shown += 1
                print(said)
        if options.process is not None and not shown:
            raise MomentError(f"process {options.process} makes no call there")
        if run.status:
            print(f"trace.py: {run.said}", file=sys.stderr)
        return run.status


def options_of(words):
    parser = argparse.ArgumentParser(prog="trace.py", description="Tells the calls of each process of a run: docs/tools/trace.md")
    parser.add_argument("image", help="the disk")
    parser.add_argument("core", type=int, help=f"the size of core, in clicks; {CORE} is the most")
    parser.add_argument("script", help="the script: docs/manual/scripts.md")
    parser.add_argument("--process", type=int, metavar="N", help="the calls of this process alone, by its number")
    parser.add_argument("--from", dest="first", type=int, default=1, metavar="LINE", help="the first line of the log that counts")
    parser.add_argument("--to", dest="last", type=int, default=sys.maxsize, metavar="LINE", help="the last one")
    parser.add_argument("--v6", metavar="COMMAND", default=V6, help="the program (bin/v6)")
    add_replay(parser)
    add_version(parser)
    return parser.parse_args(words)


def main(words):
    options = options_of(words)
    return guarded("trace.py", lambda: trace(options), MomentError, ProgramError, ScriptError, LogFault)


if __name__ == "__main__":
    sys.exit(main(sys.argv[1:]))
