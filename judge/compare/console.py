#!/usr/bin/env python3
"""Compares runs of random programs that read the console, under random scripts, with a reference.

    judge/compare/console.py make SEED FOLDER
    judge/compare/console.py compare COMMAND COUNT [FIRST]
    judge/compare/console.py alone COUNT [FIRST]
    judge/compare/console.py smallest COMMAND SEED FOLDER

A seed gives a small disk made at random, whose /etc/init goes round reading what is typed, writing it back and setting
the modes of the console; a size of core; and a script of all kinds of lines. `make` writes them into a folder as
`image`, `core` and `script`, with `listing`, in which a reader finds the program's calls. `compare` runs COMMAND, a
built v6, and the reference over COUNT seeds from FIRST on (0 where it isn't given), and prints each difference in
status, report, bytes of the terminal, lines of the log and what the final disk stands for; then what the programs came to. `alone` does
the same with the reference alone. `smallest` leaves out lines of a script as long as there is a difference, and makes
what is left.

The reference is that of file_calls.py.
"""
import collections
import os
import random
import re
import sys
import tempfile

sys.path.insert(0, os.path.dirname(os.path.dirname(os.path.dirname(os.path.realpath(__file__)))))
from judge.compare import comparing
from judge.compare.file_calls import built_differences, by_command, by_reference, log_differences, reference
from judge.random.console import KEEP, TELL, init_of, random_program, said
from judge.random.disk import Tree
from judge.random.script import random_script

SCRIPT_FAULT = 5


class Case:
    """What a seed gives, perhaps with another script."""

    def __init__(self, seed, script=None):
        rng = random.Random(f"console {seed}")
        self.seed, self.tree = seed, Tree(random.Random(f"tree {seed}"))
        self.program = random_program(random.Random(f"program {seed}"), self.tree)
        self.core = rng.choice((64, 100, 1200, 3968))
        self.script = script or random_script(random.Random(f"script {seed}"))
        self.image = self.tree.image(init_of(self.program), random.Random(f"disk {seed}"))

    def listing(self):
        lines = ["the calls, each with the address of its word"]
        for name, steps in (("first", self.program.first), ("loop", self.program.body), ("end", self.program.ending)):
            items = [item for step in steps for item in step if item not in (TELL, KEEP)]
            lines += [name] + [f"{item.at:6}  {said(item)}" for item in items]
        return "\n".join([*lines, "", "the disk", *self.tree.listing()]) + "\n"

    def write(self, folder):
        comparing.write_case(folder, self)


# differences

def refused_differences(want, got):
    if (got.status, got.report) != (want.status, want.report):
        yield f"status {got.status} {got.report!r}, and by the reference {want.status} {want.report!r}"
    if got.term or got.final:
        yield f"{len(got.term)} bytes of the terminal and {len(got.final)} of the disk"


def differences(command, case):
    """How a v6 and the reference differ, and what the reference comes to, with its log."""
    with tempfile.TemporaryDirectory() as folder:
        case.write(folder)
        want, log = by_reference(case, folder)
        if command is None:
            return list(flaws(case, folder, want, log)), want, log
        got = by_command(command, case, folder)
        return list(found_differences(case, folder, want, got)), want, log


def found_differences(case, folder, want, got):
    if want.status == SCRIPT_FAULT:
        return refused_differences(want, got)
    return [*built_differences(case, folder, want, got), *log_differences(folder)]


def flaws(case, folder, want, log):
    """What isn't as it should be of a case by itself."""
    if not reference("check", f"{folder}/image")[1].startswith(b"ok "):
        yield f"the disk has a fault: {reference('check', f'{folder}/image')[1]}"
    elif want.status not in (0, SCRIPT_FAULT):
        yield f"status {want.status} {want.report!r}"
    elif want.status == 0 and "image 1 " not in " ".join(log):
        yield "init doesn't begin"
    elif not case.program.ending and not case.script.signal_line():
        yield from (f"a signal: {line}" for line in log if line.startswith("signal 1 "))


# counts

def count(case, want, log, counts):
    counts["scripts with a fault"] += want.status == SCRIPT_FAULT
    counts["scripts with a key that makes a signal"] += want.status == 0 and case.script.signal_line() > 0
    if want.status == 0:
        counts["signals"] += sum(line.startswith("signal ") for line in log)
        counts["runs to an exit"] += any(line.startswith("exit 1 ") for line in log)
        counts["runs that show nothing"] += not want.term
        counts["bytes shown"] += len(want.term)
        counts["results told"] += len(re.findall(rb"[01][0-7]{6}\r?\n", want.term))
        counts["calls done"] += log.count("trap 1")
        counts["reads that wait"] += log.count("sleep 1 10 keys")
        counts["wakes of keys"] += log.count("wake keys")
        counts["ticks"] += sum(line.startswith("tick") for line in log)


# words

def compare(command, runs, first, kind):
    counts, differ = collections.Counter(), 0
    for seed in range(first, first + runs):
        case = kind(seed)
        found, want, log = differences(command, case)
        differ += bool(found)
        for line in found[:8]:
            print(f"seed {seed}: {line}", flush=True)
        count(case, want, log, counts)
    print(f"{runs} runs, {differ} differ")
    for name, number in counts.items():
        print(f"{number:8}  {name}")
    return bool(differ)


def smallest(command, seed, folder, kind):
    """Leaves out more and more lines of the script, first many and then single ones, as long as there is a
    difference."""
    case = kind(seed)
    if not differences(command, case)[0]:
        sys.exit(f"seed {seed}: no difference")
    size = len(case.script.lines)
    while size:
        at = 0
        while at < len(case.script.lines):
            fewer = kind(seed, case.script.without(at, at + size))
            if fewer.script.lines and differences(command, fewer)[0]:
                case = fewer
            else:
                at += size
        size //= 2
    case.write(folder)
    print(case.listing(), case.script.bytes(), *differences(command, case)[0], sep="\n")


def main(words):
    return comparing.main(words, Case, __doc__, compare, smallest)


if __name__ == "__main__":
    sys.exit(main(sys.argv[1:]))
