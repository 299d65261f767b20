"""The command page.py, by which lessonpages.py makes the pages of its runs too."""
import argparse
import os
import sys

from v6.disk.volume import DiskError
from v6.host.files import folder_of_runs, guarded, place_of, put_out, read_bytes, same_file
from v6.host.program import CORE, V6, ProgramError, add_version
from v6.host.progress import Progress
from v6.log.processes import LogFault
from v6.run.moments import MomentError
from v6.run.script import ScriptError, add_replay

MOMENTS = 1500  # that are looked at, where nobody says another number


class PageError(Exception):
    """Why there is no page; the text tells it."""


def marks_of(name, last):
    """The marks of a file, a line each: the number of a line of the log, and a sentence."""
    marks = []
    for number, line in enumerate(read_bytes(name).decode("utf-8", "replace").splitlines(), 1):
        first, _, sentence = line.strip().partition(" ")
        if not line.strip() or line.startswith(";"):
            continue
        if not (first.isascii() and first.isdecimal() and 1 <= int(first) <= last):
            raise PageError(f"{name}: line {number}: it begins with {first[:20]!r}, and the log has the lines 1 to {last}")
        marks.append([int(first), sentence.strip()])
    return sorted(marks, key=lambda mark: mark[0])


def page_of_run(options):
    """The page of a run that is made here, and that it is whole."""
    from v6.debug.views import Views
    from v6.page.html import WITHOUT, html_of_run
    from v6.page.run import Recorded, account_of_lines, account_of_run
    from v6.run.ends import programs_of_all
    from v6.run.script import check_script, read_script, ticks_of
    from v6.debug.symbols import Programs

    check_script(options.script, options.image, options.core, options.eight, options.second, options.replay)
    with folder_of_runs() as folder:
        script = read_script(options.script)
        run = Recorded(options.v6, options.image, options.core, script, folder, options.eight, options.second)
        disks = [read_bytes(name) for name in filter(None, (options.image, options.second))]
        programs, sizes = Programs(disks[0], options.symbols), programs_of_all(disks)
        for name in programs.strangers():
            print(f"page.py: {name}: no program, so it has no names", file=sys.stderr)
        if not run.has_memory:
            print(f"page.py: {WITHOUT}", file=sys.stderr)
        with Progress("page.py") as progress:
            if run.has_memory:
                account = account_of_run(run, Views(programs, sizes), ticks_of(script), options.moments, progress)
            else:
                account = account_of_lines(run, sizes, ticks_of(script), options.moments, progress)
        if run.status:
            print(f"page.py: {run.said}: core is shown up to slot {account.last}", file=sys.stderr)
        if account.left_out():
            print(f"page.py: {account.left_out()}", file=sys.stderr)
        return html_of_run(account, run, head_of(options, options.script, account)), True


def page_of_log(options):
    """The page of a log alone, and whether the log is whole."""
    from v6.log.story import CUT, NOTHING, lines_of
    from v6.page.html import html_of_log
    from v6.page.run import account_of_log
    from v6.run.ends import programs_of
    from v6.run.script import read_script, slots_of, ticks_of

    log = lines_of(read_bytes(options.log))
    if not log:
        raise PageError(f"{options.log}: {NOTHING}")
    sizes = programs_of(read_bytes(options.disk)) if options.disk else {}
    script = read_script(options.script_of_log) if options.script_of_log else None
    ticks, slots = ((), None) if script is None else (ticks_of(script), slots_of(script))
    terminals = [read_bytes(name) for name in options.term]
    with Progress("page.py") as progress:
        account = account_of_log(log, sizes, ticks, slots, progress)
    if not account.table.over:
        print(f"page.py: {options.log}: {CUT}", file=sys.stderr)
    return html_of_log(account, terminals, head_of(options, options.log, account)), account.table.over


def head_of(options, name, account):
    """What is said of a page at its top."""
    marks = marks_of(options.marks, len(account.log)) if options.marks else []
    return {"title": options.title or f"The run of {os.path.basename(name)}", "marks": marks}


def make(options):
    for name in (options.image, options.second, options.script, options.log, options.marks):
        if name and same_file(name, options.output):
            raise PageError(f"{options.output}: the page would take the place of what it is made of")
    if options.output != "-":
        place_of(options.output)
    page, is_whole = page_of_log(options) if options.log else page_of_run(options)
    put_out(options.output, page)
    return int(not is_whole)


def options_of(words):
    parser = argparse.ArgumentParser(prog="page.py", description="Makes a page of a run for a browser: docs/tools/page.md",
                                     usage="page.py [options] IMAGE CORE SCRIPT -o PAGE\n       page.py [options] --log LOG -o PAGE")
    parser.add_argument("image", nargs="?", metavar="IMAGE", help="the disk")
    parser.add_argument("core", nargs="?", type=int, metavar="CORE", help=f"the size of core, in clicks; {CORE} is the most")
    parser.add_argument("script", nargs="?", metavar="SCRIPT", help="the script: docs/manual/scripts.md")
    parser.add_argument("-o", "--output", metavar="PAGE", required=True, help="where the page goes, in HTML")
    parser.add_argument("--title", metavar="TEXT", help="the title of the page")
    parser.add_argument("--marks", metavar="FILE", help="marks of the run: a line of the log and a sentence, on a line each")
    parser.add_argument("--moments", type=int, default=MOMENTS, metavar="N", help=f"how many moments are looked at, at most ({MOMENTS})")
    parser.add_argument("--symbols", metavar="FILE", action="append", default=[], help="a program with names, if the disk's has none")
    parser.add_argument("--eight", action="store_true", help="with eight lines of a terminal, as `v6 run8`, without what core holds")
    parser.add_argument("--second", metavar="IMAGE2", help="with a second disk, as `v6 run2`, without what core holds")
    parser.add_argument("--log", metavar="LOG", help="a page of this log alone, without what core holds")
    parser.add_argument("--term", metavar="FILE", action="append", default=[], help="what a terminal has shown, beside --log")
    parser.add_argument("--disk", metavar="IMAGE", help="names programs by the size of their images on this disk, beside --log")
    parser.add_argument("--script", dest="script_of_log", metavar="FILE", help="tells by its ticks how many slots have passed, beside --log")
    parser.add_argument("--v6", metavar="COMMAND", default=V6, help="the program (bin/v6)")
    add_replay(parser)
    add_version(parser)
    options = parser.parse_args(words)
    if bool(options.log) == bool(options.image) or options.image and options.script is None:
        parser.error("either IMAGE CORE SCRIPT or --log LOG is wanted")
    if options.image and (options.term or options.disk or options.script_of_log):
        parser.error("--term, --disk and --script stand beside --log alone")
    if options.log and (options.eight or options.second):
        parser.error("--eight and --second stand beside IMAGE CORE SCRIPT alone")
    if options.eight and options.second:
        parser.error("--eight and --second: a machine has eight lines, or a second disk")
    if options.moments < 2:
        parser.error("--moments: 2 are the fewest")
    return options


def main(words):
    options = options_of(words)
    return guarded("page.py", lambda: make(options), PageError, MomentError, ProgramError, LogFault, ScriptError, DiskError)
