#!/usr/bin/env python3
"""Tells, draws, compares and audits the logs of runs, and asks about them: see docs/tools/log.md."""
import signal

if __name__ == "__main__":
    signal.signal(signal.SIGINT, signal.SIG_DFL)  # an interrupt before main ends it without a word

import argparse
import collections
import functools
import os
import re
import sys
import textwrap

sys.path.insert(0, os.path.dirname(os.path.abspath(__file__)))
from v6.disk.volume import DiskError
from v6.host.files import guarded, put_out, read_bytes
from v6.host.program import V6, ProgramError, add_version, call
from v6.log.lions import OF_WORDS, told
from v6.log.picture import Picture
from v6.log.processes import MOST_BYTES, LogFault
from v6.log.story import CUT, NOTHING, Story
from v6.run.ends import programs_of
from v6.run.script import ScriptError, read_script, slots_of, ticks_of

WIDEST = len("newproc (1826)")  # of the procedures that `show --book` names
COMMON, MORE = 3, 5  # lines that are shown before the place where two logs part, or a line at fault, and after it
FAULT = re.compile("log: line ([0-9]+) is (not lawful|no log line)")
WIDTH = 100
HELP = {"show": "tells a log in words", "draw": "makes a picture of it", "diff": "tells where two logs part",
        "ask": "hides each choice, and tells by the rules who was right",
        "audit": "asks the program whether it is lawful, and shows the first line that isn't"}


def story_of(options, name, table=None):
    programs = programs_of(read_bytes(options.disk)) if options.disk else None
    moments = ticks_of(read_script(options.script)) if options.script else ()
    return Story(read_bytes(name), programs, moments, table)


# show


def show(options):
    story = story_of(options, options.log)
    width = story.width()
    number_width = max(len(str(len(story.lines))), 4)
    moment = "    slots" if options.script else " "
    for part in (str(slot // 10 or " ") for slot in range(width)), (str(slot % 10) for slot in range(width)):
        head = "".join(part)
        if head.strip():
            first = head[0].isdecimal()
            print(f"{'line' if first else '':>{number_width}}{moment if first else ' ' * len(moment)} {head}".rstrip())
    for number, line in enumerate(story.lines, 1):
        words, passed = story.take(line)
        if options.first <= number <= options.last:
            at = f" {'' if passed is None else passed:>8}" if options.script else " "
            print(f"{number:>{number_width}}{at} {story.letters(width)}  {procedure(line) if options.book else ''}{words}")
    return ended(story, options)


def procedure(line):
    """The procedure of Lions' book that does what a line tells, with the line at which it stands there."""
    return f"{told(OF_WORDS.get(line.partition(' ')[0], '')):{WIDEST}}  "


def ended(story, options):
    """The status of a log that was read whole: 1 where it is cut, or of another run than the script."""
    faults = [] if story.table.over else [CUT]
    if options.script:
        faults += filter(None, [story.other_script()])
    for fault in faults:
        print(f"log.py: {options.log}: {fault}", file=sys.stderr)
    return int(bool(faults))


# draw


def draw(options):
    story = story_of(options, options.log)
    if not story.lines:
        raise ScriptError(f"{options.log}: {NOTHING}")
    picture = Picture(len(story.lines), story.width(), story.teller)
    slots = slots_of(read_script(options.script)) if options.script else None
    for number, line in enumerate(story.lines):
        _, passed = story.take(line)
        if slots is not None and (number == 0 or line == "end"):
            passed = slots if number else 0
        picture.take(story.table, passed)
    put_out(options.output, picture.drawn(story.table).encode())
    return ended(story, options)


# diff


def tell(story, lines, mark):
    for line in lines:
        words, _ = story.take(line)
        print(f"{mark} {story.table.lines:>8}  {line:24}  {words}")


def parting(one, other):
    """How many lines are the same in both, though their `boot` may tell another core or time."""
    least = min(len(one.lines), len(other.lines))
    return next((at for at in range(min(1, least), least) if one.lines[at] != other.lines[at]), least)


def diff(options):
    one, other = story_of(options, options.log), story_of(options, options.other)
    if one.lines == other.lines:
        return 0
    same = parting(one, other)
    common = range(max(same - COMMON, 1), same)  # indices of lines, after `boot`
    for story, mark in ((one, "<"), (other, ">")):
        if same and one.lines[0] != other.lines[0]:
            tell(story, story.lines[:1], mark)
        for line in story.lines[story.table.lines : min(common.start, same)]:
            story.take(line)
    if common:
        print(f"the same up to line {same}")
        tell(one, [one.lines[at] for at in common], " ")
        for at in common:
            other.take(other.lines[at])
    for story, name, mark in ((one, options.log, "<"), (other, options.other, ">")):
        tell(story, story.lines[same : same + MORE], mark)
        if len(story.lines) <= same:
            print(f"{mark}           {name} ends here")
    counts(one.lines[same:], other.lines[same:])
    return 1


def counts(one, other):
    """How often each word comes from there on, where it isn't as often."""
    one, other = (collections.Counter(line.partition(" ")[0] for line in lines) for lines in (one, other))
    told = [f"{word} {one[word]}/{other[word]}" for word in sorted(one | other) if one[word] != other[word]]
    if told:
        print("from there on: " + ", ".join(told))


# ask


def ask(options):
    from v6.log.choices import Ruled
    from v6.log.quiz import Quiz

    sys.stdin.reconfigure(errors="backslashreplace")
    story = story_of(options, options.log, Ruled())
    return ended(story, options) if Quiz(story, sys.stdin).play(options.first, options.count) else 0


# audit


def audit(options):
    data = read_bytes(options.log)
    status, said = call(options.v6, "audit", "/dev/stdin", data=data)
    print(said)
    found = FAULT.fullmatch(said)
    if found:
        fault_told(options, data, int(found[1]), found[2] != "not lawful")
    return int(status != 0)


def is_lawful_behind(options, lines, line):
    """Whether the program finds a line lawful after others that are."""
    _, said = call(options.v6, "audit", "/dev/stdin", data="".join(one + "\n" for one in (*lines, line)).encode())
    found = FAULT.fullmatch(said)
    return said.startswith("lawful: ") or bool(found) and int(found[1]) > len(lines) + 1


def shown_line(line, is_bad):
    """A line at fault; one that is no line of a log in quotes, as far as a line may go."""
    if line is None:
        return "the log ends here"
    return repr(line[:MOST_BYTES]) + ".." * (len(line) > MOST_BYTES) if is_bad else line


def fault_told(options, data, number, is_bad):
    """The lines before the one at fault, that line, the rule, and the line that would be lawful, where the rules give one, or
    which part of the rule it breaks."""
    from v6.log.choices import Ruled
    from v6.log.rules import bad, unlawful

    programs = programs_of(read_bytes(options.disk)) if options.disk else None
    story = Story(data, programs, (), Ruled())
    first = max(number - COMMON, 1)
    for line in story.lines[: first - 1]:
        story.take(line)
    tell(story, story.lines[first - 1 : number - 1], " ")
    line = story.lines[number - 1] if number <= len(story.lines) else None
    print(f"> {number:>8}  {shown_line(line, is_bad)}")
    is_lawful = functools.partial(is_lawful_behind, options, story.lines[: number - 1])
    for rule in bad(line, number) if is_bad else unlawful(story.table, line, is_lawful):
        print(textwrap.fill(rule + ".", WIDTH))


# the command


def options_of(words):
    parser = argparse.ArgumentParser(prog="log.py", description="Tells, draws, compares and audits logs: docs/tools/log.md")
    add_version(parser)
    commands = parser.add_subparsers(dest="command", required=True, metavar="show, draw, diff, ask, audit")
    first = {"dest": "first", "type": int, "default": 1, "metavar": "LINE"}
    for name, help_of in HELP.items():
        command = commands.add_parser(name, help=help_of, description=f"log.py {name}: docs/tools/log.md")
        command.add_argument("log", help="the log of a run: docs/manual/log.md")
        if name == "diff":
            command.add_argument("other", help="the log of another run")
        command.add_argument("--disk", metavar="IMAGE", help="names programs by the size of their images on this disk")
        if name == "audit":
            command.add_argument("--v6", metavar="COMMAND", default=V6, help="the program (bin/v6)")
        else:
            command.add_argument("--script", metavar="FILE", help="tells by the script of the run how many slots have passed")
        if name == "ask":
            command.add_argument("--from", **first, help="the first that is asked for")
            command.add_argument("--count", type=int, default=sys.maxsize, metavar="N", help="how many choices are asked for")
        if name == "show":
            command.add_argument("--from", **first, help="the first line that is shown")
            command.add_argument("--to", dest="last", type=int, default=sys.maxsize, metavar="LINE", help="the last one")
            command.add_argument("--book", action="store_true", help="names the procedures of Lions' book, with their lines")
        if name == "draw":
            command.add_argument("-o", "--output", metavar="FILE", default="-", help="where the picture goes, in SVG")
    options = parser.parse_args(words)
    if options.command == "ask" and options.log == "-":
        parser.error("ask reads answers from the standard input, so its log is a file")
    return options


def main(words):
    options = options_of(words)
    does = {"show": show, "draw": draw, "diff": diff, "ask": ask, "audit": audit}[options.command]
    return guarded("log.py", lambda: does(options), LogFault, ScriptError, DiskError, ProgramError)


if __name__ == "__main__":
    sys.exit(main(sys.argv[1:]))
