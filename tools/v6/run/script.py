"""Scripts, as docs/manual/scripts.md has them: when their ticks come, in slots of the run, and what the console's begin with."""
import hashlib
import os
import re

from v6.host.files import read_bytes

MOST, LONGEST = 1048576, 300  # bytes of a script, and of a line
COUNT = re.compile(rb"(clock|run) ([0-9]{1,9})")
# the first line of a script of the console
HEADER = re.compile(rb"; console: image sha256 ([0-9a-f]{64}) core ([0-9]{1,9})(?:( lines)| second sha256 ([0-9a-f]{64}))?")
OTHER = re.compile(rb"tick|type(?: [\x20-\x7e]*)?|byte [0-3][0-7]{2}|switch [01][0-7]{5}|(?:disk|pace) [0-9]{1,9}|"
                   rb"(?:line|hangup) [0-7]|(?:;.*)?", re.DOTALL)


ELSEWHERE = re.compile(rb"(?:line|hangup) [1-7]")  # what a machine of one line of a terminal hasn't
HAS_OPTIONS = "--eight plays it so", "--second IMAGE2 plays it so"  # of a tool that has both machines

FAULT = re.compile(r"(script: line|script: too many slots at line) ([0-9]+)")  # as the program tells one


class ScriptError(Exception):
    """What is wrong with a script: the number of the line, and its text."""


class ScriptFile(bytes):
    """The bytes of a script, with the name of its file."""

    name = None


def fault(number, line, data):
    """What is wrong with a line of a script."""
    name = getattr(data, "name", None) or "script"
    return ScriptError(f"{name}: line {number}: {shown(line)}: {why(line)}")


def why(line):
    """Why a line can't be one of a script."""
    if line.startswith(b"boot "):
        return "a log begins so, and no script"
    if len(line) > LONGEST:
        return f"more than {LONGEST} bytes"
    return "no line of a script" if line == line.rstrip(b" \t") else "a blank or a tab at its end"


def shown(line):
    """A line of a script between quotes, as much of it as fits a message."""
    text = "".join(chr(byte) if 0o40 <= byte < 0o177 else f"\\{byte:03o}" for byte in line)
    return f"'{text[:60]}..'" if len(text) > 60 else f"'{text}'"


def with_line(said, data):
    """What the program says, with the text of the line of the script that it names."""
    found, lines = FAULT.fullmatch(said), lines_of(data)
    if not found or int(found[2]) > len(lines):
        return said
    line = lines[int(found[2]) - 1]
    return f"{said}: {shown(line)}" + f": {why(line)}" * found[1].endswith("script: line")


def read_script(name):
    """The bytes of a script; of one that is too long, or has no end, one more than a script may have."""
    data = ScriptFile(read_bytes(name, MOST + 1))
    data.name = name
    return data


def head_of(name):
    """The first line of a script of the console, parted: the disk and the core that it was typed at. None of another script, and of
    what isn't a file, as a pipe."""
    if not os.path.isfile(name):
        return None
    return HEADER.fullmatch(read_bytes(name, 200).partition(b"\n")[0])


def digest_of(name):
    """The sha256 of a file, as heads have it. What isn't a file has none."""
    return hashlib.sha256(read_bytes(name)).hexdigest().encode() if os.path.isfile(name) else None


def check_script(name, image, core, eight=False, second=None, replay=False, ways=HAS_OPTIONS):
    """Refuses a script that is of another machine: one of the console that was typed at eight lines where there is one, or beside a second
    disk where there is none, and any that names a line which isn't there. `ways` say how it can be played. A script that was typed at
    other disks, or with another core, is played where `replay` says so."""
    if not os.path.isfile(name) or not os.path.isfile(image):
        return
    found = head_of(name)
    if found and found[3] and not eight:
        raise ScriptError(f"{name} was typed at eight lines: {ways[0]}")
    if found and found[4] and not second:
        raise ScriptError(f"{name} was typed beside a second disk: {ways[1]}")
    if not eight:
        check_lines(name, read_script(name), ways[0])
    if found and not replay:
        check_head(found, name, image, core, second)


def check_head(found, name, image, core, second):
    """Refuses a script of the console that was typed at another disk or core, or beside another second disk."""
    what = (f"at another disk than {image}" if digest_of(image) != found[1] else
            "with another size of core" if int(found[2]) != core else
            f"beside another second disk than {second}" if found[4] and digest_of(second) not in (None, found[4]) else None)
    if what:
        raise ScriptError(f"{name} was typed {what}: --replay plays it all the same")


def check_lines(name, data, way):
    """Refuses a script that names another line of the terminal than the one of a machine that has one: what it types there would be lost
    without a word."""
    if len(data) > MOST:
        return  # which is the fault that the program tells
    for number, line in enumerate(lines_of(data), 1):
        if ELSEWHERE.fullmatch(line):
            raise ScriptError(f"{name}: line {number}: {shown(line)}: this run has line 0 alone: {way}")


def add_replay(parser):
    parser.add_argument("--replay", action="store_true", help="play a script of the console at another disk or core too")


def lines_of(data):
    """The lines of a script, without their ends and without a carriage return before one."""
    *lines, last = data.split(b"\n")
    return [line[:-1] if line.endswith(b"\r") else line for line in lines] + ([last] if last else [])


def ticks_of(data):
    """How many slots have passed at each tick of a script, one after the other."""
    slots, every, since = 0, 0, 0
    for number, line in enumerate(lines_of(data), 1):
        found = COUNT.fullmatch(line)
        if found and found[1] == b"clock":
            every, since = int(found[2]), 0
        elif found:
            end = slots + int(found[2])
            while every and slots + every - since <= end:
                slots += every - since
                since = 0
                yield slots
            since += end - slots
            slots = end
        elif line == b"tick":
            yield slots
        elif not OTHER.fullmatch(line):
            raise fault(number, line, data)


def slots_of(data):
    """How many slots a script asks for, all told."""
    asked = filter(None, map(COUNT.fullmatch, lines_of(data)))
    return sum(int(found[2]) for found in asked if found[1] == b"run")
