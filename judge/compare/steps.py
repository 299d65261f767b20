#!/usr/bin/env python3
"""Goes through the runs of rows slot by slot, as tools/look.py does, and tells where that differs from what `v6 memory` tells.

    judge/compare/steps.py COMMAND [SLOTS [NAME..]]

COMMAND is a built v6 with the command `memory`. The rows are those of crates/run_rows/data that run a disk, or those of these
names or patterns, as tools/row.py takes them; of a longer run the first SLOTS slots are gone through (1,000,000). The
instructions between two turns in the kernel are done by tools/v6/debug/stepper.py. Compared are the registers, the codes and all of the
memory of each process where a call begins after which more has changed than its answer, and what another call leaves alone; and
each answer that tools/v6/debug/answers.py knows is compared with the program's.
"""
import os
import sys
import tempfile
from collections import Counter
from concurrent.futures import ProcessPoolExecutor

sys.path.insert(0, os.path.dirname(os.path.dirname(os.path.dirname(os.path.realpath(__file__)))))
import judge  # which finds tools/v6
from v6.host.program import ProgramError
from v6.run.history import History
from v6.run.moments import MomentError, Run
from v6.rows.runner import Runner, chosen
from v6.debug import walk as walk_module
from v6.debug.walk import Walk
from v6.rows.file import DATA, Row, RowError
from v6.run.script import ScriptError

SLOTS = 1_000_000


def ask_all():
    """In a process of the pool, each known answer is asked for."""
    walk_module.is_due = lambda count: True


def gone_through(command, name, most):
    """What a row came to: how many slots and turns in the kernel were gone through, what differs, or None, and how many answers
    were known."""
    row = Row(name)
    if row.lines["command"] is not None:
        return None
    with tempfile.TemporaryDirectory() as folder:
        runner, image, turns = Runner(command, folder), os.path.join(folder, "disk"), 0
        with open(image, "wb") as out:
            out.write(row.image(runner.base(row.disk.numbers["made"])))
        try:
            walk = Walk(History(Run(command, image, row.numbers["core"], row.script, folder)), 0, knows=True)
        except (MomentError, ScriptError):
            return None  # a disk, a script or a core that is refused
        last = min(walk.history.last, most)
        try:
            while walk.at < last:
                walk.met = None
                walk.go(last)
                turns += walk.met is not None
        except Exception as error:  # of the tool too
            return walk.at, turns, f"{type(error).__name__}: {error}", walk.answered
    return last, turns, None, walk.answered


def main(command, most, names):
    rows = slots = turns = differ = 0
    answered = Counter()
    with ProcessPoolExecutor(initializer=ask_all) as pool:
        wanted = [(name, pool.submit(gone_through, command, name, most)) for name in names]
        for name, future in wanted:
            found = future.result()
            if found is None:
                continue
            rows, slots, turns, differ = rows + 1, slots + found[0], turns + found[1], differ + bool(found[2])
            answered += found[3]
            if found[2]:
                print(f"{name}: {found[2]}", flush=True)
    told = ", ".join(f"{count} of {name}" for name, count in sorted(answered.items()))
    print(f"{rows} rows, {slots} slots, {turns} turns in the kernel, answers known: {told or 'none'}; {differ} rows differ")
    return int(differ > 0)


if __name__ == "__main__":
    _, *words = sys.argv
    if not words or not all(word.isdecimal() for word in words[1:2]):
        sys.exit(__doc__)
    try:
        sys.exit(main(words[0], int((words[1:2] or [SLOTS])[0]), chosen(words[2:] or ["*/*"], DATA)))
    except (ProgramError, RowError) as error:
        sys.exit(f"steps.py: {error}")
