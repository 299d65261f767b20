#!/usr/bin/env python3
"""Compares what pages of tools/page.py show at random lines of random runs with what a reference has then.

    judge/compare/pages.py COMMAND RUNS LINES [FIRST] [SLOTS]
    judge/compare/pages.py [small] [execs] COMMAND RUNS LINES [FIRST] [SLOTS]

The runs are those of judge/compare/processes.py, cut after SLOTS slots (60): a seed gives a disk, a size of core and a script. Of
each run a page is made, and so many LINES of its log are drawn. COMMAND is a built v6. Compared are the line itself, and what
the page has after the moment with which it came, at the last line of that moment: the rows of the table of processes with
their state, number, parent, user, place, time, size, text and what is waited for; of each process its registers and condition
codes, the call that it waits in, its signals' handlers and open files; who holds core and the swap area; the shared texts; and all that the terminal has
shown.

The reference is the Python module `abstract_unix`; the environment variable ABSTRACT_UNIX names the folder in which it is.
"""
import os
import random
import re
import subprocess
import sys
import tempfile

sys.path.insert(0, os.path.dirname(os.path.dirname(os.path.dirname(os.path.realpath(__file__)))))
from judge import TOP
from judge.compare import moments as like
from judge.compare.comparing import asked
from judge.compare.processes import kind_of

from tests.page.pagereader import Read, process_of, shown, table_of
from v6.debug.views import HEAD, ROW
from v6.run.moments import Script
from v6.run.script import ELSEWHERE, lines_of

SLOTS = 60
CALLS = None, "read", "write", "read", "write", "sleep", "wait", "a wait for the disk"  # that have begun, by the number of what is pending
BEGUN = re.compile(r"call +([a-z ]+).* has begun, and isn't done")


def page_of(command, case, script, folder):
    """The page of a run, as its reader has it."""
    case.write(folder)
    for name, data in (("script", script), ("page.html", b"")):
        with open(os.path.join(folder, name), "wb") as file:
            file.write(data)
    words = ["image", str(case.core), "script", "-o", "page.html", "--replay", "--moments", "100000"]
    words += ["--v6", os.path.abspath(command)]
    subprocess.run([sys.executable, os.path.join(TOP, "tools", "page.py"), *words], cwd=folder, check=True)
    with open(os.path.join(folder, "page.html"), "rb") as file:
        return Read(file.read())


def differences(page, line, wanted):
    """What differs at the last line of a moment; and how many processes were compared."""
    panels, count = page.at(line), 0
    pairs = [("ps", like.rows_of([HEAD, *table_of(panels, ROW)]), wanted.rows()),
             ("texts", like.texts_of(shown(panels["texts"])), wanted.texts()),
             ("terminal", page.terminal(line), bytes(wanted.unix.lines[0].shown))]
    pairs += [(where, like.held_of(shown(panels[where])), wanted.held(where)) for where in ("core", "swap")]
    for slot, process in enumerate(wanted.unix.procs):
        if process is None or process.zombie or wanted.table.rows[slot].place is None:
            continue
        lines, count = process_of(panels, slot), count + 1
        pairs += [(f"registers of {process.pid}", like.registers_of(lines), wanted.registers(slot)),
                  (f"u area of {process.pid}", like.area_of(lines), wanted.area(slot)),
                  (f"call of {process.pid}", call_of(lines), CALLS[process.pending])]
    return [f"{what}: {one} and {other}" for what, one, other in pairs if one != other], count


def call_of(lines):
    """The call that a process waits in, as its rows tell it, or None."""
    return next((found[1].strip() for found in map(BEGUN.match, lines) if found), None)


def compare(command, runs, lines, first, slots, kind):
    differ, compared, processes, played = 0, 0, 0, 0
    for seed in range(first, first + runs):
        case, rng = kind(seed), random.Random(f"pages {seed}")
        script = Script(case.script.bytes())
        script = Script(script.cut(min(script.slots, slots)))
        if any(ELSEWHERE.fullmatch(line) for line in lines_of(script.data)):
            continue  # page.py refuses it at one line of the terminal
        played += 1
        with tempfile.TemporaryDirectory() as folder:
            page = page_of(command, case, script.data, folder)
        texts, columns = page.head["texts"], page.columns
        for line in [rng.randrange(page.head["lines"]) + 1 for _ in range(lines)]:
            place = columns["moments"][line - 1] - 1
            slot, last = columns["slots"][place], columns["ends"][place]
            wanted = like.Wanted(case, script.cut(slot, True))
            found, count = differences(page, last, wanted)
            log = wanted.run.log[:last]
            if line > last or texts[columns["raw"][line - 1]] != log[line - 1]:
                found.append(f"line {line}: {texts[columns['raw'][line - 1]]} in slot {slot}, and {log[line - 1 : line]}")
            compared, processes, differ = compared + 1, processes + count, differ + bool(found)
            for one in found[:4]:
                print(f"seed {seed}, line {line}, slot {slot}: {one}", flush=True)
    print(f"{played} runs, {compared} lines, {processes} processes, {differ} lines differ")
    return bool(differ)


if __name__ == "__main__":
    case, words = kind_of(sys.argv[1:])
    sys.exit(compare(*asked(words, __doc__, 2, 0, SLOTS), case))
