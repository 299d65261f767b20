#!/usr/bin/env python3
"""A fuzzer: hostile disks, programs, scripts, words and files for the built program, judged by a reference.

    judge/fuzz/main.py [HOURS] [--v6 COMMAND] [--first N] [--count N] [--kind KIND] [--keep FOLDER]
    judge/fuzz/main.py --seed N [--v6 COMMAND] [--kind KIND] [--keep FOLDER]
    judge/fuzz/main.py --check COUNT [--first N] [--v6 COMMAND]

Each case comes from its number, the seed, and from nothing else. The kinds are

    disk     disks of judge/compare that are spoiled, byte by byte or field by field, cut or made longer
    odd      disks with odd sizes, links, modes, names and lists, most of which must run
    words    programs of judge/compare of which some words are changed
    hostile  programs of calls of all numbers with hostile arguments, and of random words
    script   scripts with spoiled lines, events in any order, and long ones
    host     files that are missing, folders, locked, devices that are full, endless pipes, pipes that close, one file as two
             ports, files with a limit of bytes
    command  words of commands, good and bad
    lines    programs over the lines of a terminal, mostly under `run8`
    slow     programs of judge/compare, or over some lines of a terminal, under a slow disk and a paced terminal
    two      programs over two disks under `run2`, of which one may be spoiled

Without `--seed` cases are tried for so many hours (1), or `--count` of them, from `--first` on (by the clock where it isn't
given). The program runs with limits of time and memory; every thousandth seed runs under valgrind too. A share of the other
kinds runs under `run8` too, where programs find other lines under the console's name. Compared with the reference are the
status, the report, the bytes of the terminals, the log line by line, what each final disk stands for, the bytes of the swap
area, and for each third seed all that `memory` leaves. A refused command must leave its files as they were, and a
failed one fronts of what it would have written. Of a run that the reference can't follow, as one of very many slots, all that
comes before its first slot is judged.

A case that fails is made small: bytes of the disk, lines and slots of the script, words of the program and files of the host
are taken away as long as it fails. What is left is kept in FOLDER (fuzz.kept) as a row file, rows/fuzz/seed_N, with what the
reference comes to; docs/rows.md has its language. `--seed` does this for one seed. The exit status is 1 where a case failed.

`--check` tries COUNT spoiled images on `v6 check`, and as many spoiled scripts on `v6 run`, and judges the first fault that is
named, and the counts of what is accepted.

The reference is the Python module `abstract_unix`; the environment variable ABSTRACT_UNIX names the folder in which it is. It
needs Linux, and valgrind for what runs under it.
"""
import argparse
import collections
import functools
import os
import random
import shlex
import sys
import tempfile
import time

sys.path.insert(0, os.path.dirname(os.path.dirname(os.path.dirname(os.path.realpath(__file__)))))
from judge.fuzz import row as fuzz_row
from judge.random import spoil
from judge.compare.comparing import needs_reference
from judge.fuzz.cases import HI, KINDS, TOP, Case, case_of, of_compared, read
from judge.fuzz.judge import Program, answered, by_itself, check_answer, differences, ended, events_of
from judge.fuzz.small import Small
from v6.rows.runner import Runner
from v6.rows.runner import differences as row_differences

UNDER_VALGRIND = 1000  # one seed in so many
OF_ONE = 20  # spoiled images and scripts that are made of one
MOST_SMALL = 20  # failing cases that are made small; more are told, and their seeds can be tried again


def said(text):
    print(text, flush=True)


def tell(case, found):
    what = f"seed {case.seed}, {case.kind}" + (f" of {case.sort}" if case.sort else "")
    what += f" ({case.host.said()})" if case.host else ""
    for line in found[:5]:
        said(f"{what}: {line[:600]}")


def sizes(case):
    second = f"{len(case.second)} of a second one, " if case.others() else ""
    return f"{len(case.image)} bytes of disk, {second}{len(case.lines)} lines of the script"


def listed(failed):
    return f"{len(failed)} failed" + (f": {failed}" if failed else "")


# what is kept


def keep(case, found, program, folder):
    """Keeps a small failing case as a row file, and says whether that row fails too."""
    place = os.path.join(folder, "rows", "fuzz")
    os.makedirs(place, exist_ok=True)
    name = os.path.join(place, f"seed_{case.seed}")
    try:
        text = fuzz_row.row_of(case, found, read(HI))
        row = fuzz_row.Read(text)
    except fuzz_row.RowError as error:
        said(f"seed {case.seed}: no row file: {error}")
        return
    with open(name, "w", encoding="ascii") as file:
        file.write(text)
    with tempfile.TemporaryDirectory() as work:
        wrong = row_differences(row, *Runner(shlex.join(program.command), work).run(row))
    said(f"seed {case.seed}: kept as {name}, {text.count(chr(10))} lines; as a row it {'fails' if wrong else 'holds'}")


def make_small(case, found, program, folder):
    small = Small(program, case, found)
    if not small.fails(case):
        said(f"seed {case.seed}: it doesn't fail again")
        return
    least = small.smallest()
    found = differences(program, least, collections.Counter(), small.valgrind)
    said(f"seed {case.seed}: made small in {small.tries} tries: {sizes(least)}")
    keep(least, found, program, folder)


# many cases


def fuzz(options, program):
    """Tries case after case, until an interrupt at the latest; whether one failed."""
    first = options.first if options.first is not None else int(time.time()) * 1000
    until = time.monotonic() + 3600 * options.hours
    counts, failed, seed = collections.Counter(), [], first
    said(f"seeds from {first} on, by {shlex.join(program.command)}")
    try:
        while seed < first + options.count if options.count is not None else time.monotonic() < until:
            attempt(case_of(seed, options.kind), program, counts, failed, options.keep)
            seed += 1
            if (seed - first) % 500 == 0:
                said(f"{seed - first} cases, {len(failed)} failed, up to seed {seed - 1}")
    except KeyboardInterrupt:
        said("interrupted")
    for name, value in sorted(counts.items()):
        said(f"{value:9}  {name}")
    said(f"{seed - first} cases, seeds {first} to {seed - 1}, {listed(failed)}")
    return bool(failed)


def attempt(case, program, counts, failed, folder):
    """Judges a case; one that fails is told, and the first of them are made small."""
    found = differences(program, case, counts, case.seed % UNDER_VALGRIND == 0)
    counts[f"kind {case.kind}"] += 1
    if found:
        failed.append(case.seed)
        tell(case, found)
        if len(failed) <= MOST_SMALL:
            make_small(case, found, program, folder)


def one(options, program):
    """The case of one seed; whether it failed."""
    case = case_of(options.seed, options.kind)
    said(f"seed {case.seed}, {case.kind}{' of ' + case.sort if case.sort else ''}: v6 {' '.join(case.words())[:200]}")
    said(sizes(case))
    found = differences(program, case, collections.Counter(), options.seed % UNDER_VALGRIND == 0)
    if not found:
        said("it doesn't fail")
        return False
    tell(case, found)
    make_small(case, found, program, options.keep)
    return True


# images and scripts alone


@functools.lru_cache(2)
def unspoiled(number):
    """A case of judge/compare, of which many spoiled ones are made."""
    return of_compared(random.Random(f"unspoiled {number}"), number)


def check_case(seed):
    """A spoiled image, and a spoiled script."""
    rng = random.Random(f"check {seed}")
    case = unspoiled(seed // OF_ONE)
    image = read(HI) if rng.random() < 0.05 else case.image
    for _ in range(rng.choice((1, 1, 1, 2))):
        image = spoil.spoiled_disk(rng, image, mild=rng.random() < 0.1)
    lines = spoil.random_events(rng) if rng.random() < 0.3 else case.lines
    lines = spoil.spoiled_script(rng, lines, most=rng.choice((1, 1, 2, 5)))
    if rng.random() < 0.01:
        lines += [b"; " + b"x" * 252] * (4112 + rng.randrange(3))
    return case.with_(seed=seed, kind="disk", image=image, lines=lines, last_end=rng.choice((b"\n", b"", b"\r\n")))


def check_differences(program, case):
    """What is wrong with the answers to an image and to a script, and what kinds of answers they were."""
    ran, _ = program.over(case, words=["check", "image"])
    wanted = check_answer(case.image)
    found = [*ended(ran.status, ran.report), *answered(ran, *wanted)]
    return found, [*by_itself(program, case.with_(image=read(HI), core="64"))], wanted[1]


def check(options, program):
    """Tries image after image, and script after script; whether one failed."""
    counts, failed, seed = collections.Counter(), [], options.first or 0
    first = seed
    try:
        while seed < first + options.check:
            check_both(check_case(seed), program, counts, failed, options.keep)
            seed += 1
            if (seed - first) % 500 == 0:
                said(f"{seed - first} images and as many scripts, {len(failed)} failed, up to seed {seed - 1}")
    except KeyboardInterrupt:
        said("interrupted")
    for name, value in sorted(counts.items()):
        said(f"{value:9}  {name}")
    said(f"{seed - first} images and as many scripts, seeds {first} to {seed - 1}, {listed(failed)}")
    return bool(failed)


def check_both(case, program, counts, failed, folder):
    image, script, report = check_differences(program, case)
    counts["image: " + " ".join(word for word in report.decode().split() if not word.isdigit())] += 1
    counts["script: " + ("a fault" if events_of(case.script())[1] else "good")] += 1
    for what, found, words in (("image", image, ("check", "image")), ("script", script, Case(0, "").command)):
        if found:
            failed.append(case.seed)
            tell(case, found)
            keep(case.with_(command=words, image=case.image if what == "image" else read(HI)), found, program, folder)


def main(words):
    parser = argparse.ArgumentParser(prog="fuzz.py", description=__doc__, formatter_class=argparse.RawDescriptionHelpFormatter)
    parser.add_argument("hours", metavar="HOURS", nargs="?", type=float, default=1.0)
    parser.add_argument("--v6", metavar="COMMAND", default=f"{TOP}/bin/v6")
    parser.add_argument("--first", type=int)
    parser.add_argument("--count", type=int)
    parser.add_argument("--seed", type=int)
    parser.add_argument("--check", metavar="COUNT", type=int)
    parser.add_argument("--kind", choices=KINDS)
    parser.add_argument("--keep", metavar="FOLDER", default="fuzz.kept")
    options = parser.parse_args(words)
    needs_reference()
    program = Program(shlex.split(options.v6))
    does = check if options.check is not None else one if options.seed is not None else fuzz
    return int(does(options, program))


if __name__ == "__main__":
    sys.exit(main(sys.argv[1:]))
