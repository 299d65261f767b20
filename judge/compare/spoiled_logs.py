#!/usr/bin/env python3
"""Judges which logs are lawful: those of random runs, and the same when they are spoiled.

    judge/compare/spoiled_logs.py COMMAND COUNT [FIRST]
    judge/compare/spoiled_logs.py quick COMMAND COUNT [FIRST]
    judge/compare/spoiled_logs.py often COMMAND COUNT [FIRST]
    judge/compare/spoiled_logs.py write COMMAND COUNT [FIRST] FOLDER

COMMAND is a built v6. It runs COUNT random programs, by turns those of judge/compare/processes.py with the words `small execs`, `full`,
`small`, `signals` and `pipes`, and of each kind of judge/fuzz/main.py that runs a disk, under `run`, `run8` or `run2`; seeds from
FIRST on (0 where it isn't given). Each log must be lawful. Then it is spoiled in seven ways, always the same for a seed:
a line is left out, comes twice or changes places with the next; a number is one more or less; an entry is another; a word is
another line's; a choice is made from entry 0 on. Three judges name the first line that is at fault: `COMMAND audit`, the
auditor of the reference, and the definition in crates/pick_rules/specs as it stands, which judge/compare/definition.py evaluates. It
can't come before the line that was spoiled. `quick` leaves the definition out, which takes most of the time. `often` does too,
and spoils each log four times in each way; the reference goes on there from what it had kept before the spoiled line, and
judges each fiftieth spoiled log from its beginning as well. A spoiled log may be lawful still, as where a `wake` comes twice.
Of a log of more than 1,500 lines these count alone. `write` also leaves each spoiled log in a folder as N.log, and in
`verdicts` a line for each: N, the way, the spoiled line, and the first line at fault or `lawful`.

The reference is the Python module `abstract_unix`; the environment variable ABSTRACT_UNIX names the folder in which it is.
"""
import collections
import copy
import functools
import os
import random
import re
import shlex
import subprocess
import sys
import tempfile

sys.path.insert(0, os.path.dirname(os.path.dirname(os.path.dirname(os.path.realpath(__file__)))))
from judge.compare.comparing import needs_reference
from judge.compare.definition import Auditor
from judge.compare.file_calls import called, read, words_of_run
from judge.fuzz.cases import case_of
from judge.compare.processes import Case, ExecCase, FullCase, PipeCase, SignalCase, in_small_core


class FuzzCase:
    """A case of the fuzzer, of a kind that runs a disk."""

    def __init__(self, seed, kind):
        self.case = case_of(seed, kind)
        self.core, self.command, self.second = self.case.core, self.case.command[0], bool(self.case.others())

    def write(self, folder):
        for name, data in self.case.files().items():
            with open(f"{folder}/{name}", "wb") as file:
                file.write(data)


FUZZED = ("lines", "slow", "two", "disk", "odd", "words", "hostile", "script")
KINDS = (in_small_core(ExecCase), FullCase, in_small_core(Case), SignalCase, PipeCase,
         *(functools.partial(FuzzCase, kind=kind) for kind in FUZZED))
MOST_LINES = 1500  # of a log, of which the rest is left out
OFTEN, WHOLE = 4, 50  # how often a log is spoiled in each way, and which of these logs are judged from their beginning too
STATUS = {"unlawful": 9, "bad": 10}
WORDS = {
    "go": ("trap", "bare", "reap"), "trap": ("go", "bare"), "bare": ("trap", "reap"), "reap": ("trap",), "u": ("k", "i"),
    "k": ("u", "i"), "i": ("u", "k"), "at": ("swap", "keep"), "swap": ("at", "zombie", "text"), "keep": ("at 1",),
    "in": ("out",), "out": ("in",), "fork": ("size", "image"), "size": ("fork", "image"), "image": ("size", "fork"),
    "plain": ("sticky",), "sticky": ("plain",), "idle": ("end", "go 1", "tick i"), "end": ("idle", "panic swap"),
    "text": ("zombie", "swap"), "runin": ("runout", "tout"), "runout": ("runin",), "tout": ("keys", "runin"),
    "keys": ("tout", "show"), "show": ("keys", "tout"), "share": ("in", "trap"), "zombie": ("swap",),
    "tick": ("wake",), "wake": ("go",), "exit": ("image",), "drop": ("share",), "sleep": ("wake", "trap"),
}
# what may stand before the dot of a channel in the place of another word
NUMBERED = {"wait": ("disk", "read"), "read": ("write", "show"), "write": ("read",), "disk": ("wait", "keys"),
            "keys": ("show", "wait"), "show": ("keys", "read")}


def one_of_the_lines(rng, lines, test=lambda line: True):
    """The number of a line that passes, from 0 on: the rare ones are as likely as the others."""
    kinds = collections.defaultdict(list)
    for number, line in enumerate(lines):
        if test(line):
            kinds[line.split(" ")[0]].append(number)
    return rng.choice(kinds[rng.choice(sorted(kinds))])


def changed(line, at, word):
    words = line.split(" ")
    words[at] = word
    return " ".join(words)


def places(line, test):
    return [at for at, word in enumerate(line.split(" ")) if test(word)]


def left_out(rng, lines):
    at = one_of_the_lines(rng, lines)
    return at, lines[:at] + lines[at + 1 :]


def twice(rng, lines):
    at = one_of_the_lines(rng, lines)
    return at + 1, lines[: at + 1] + lines[at:]


def swapped(rng, lines):
    at = one_of_the_lines(rng, lines[:-1])
    return at, lines[:at] + [lines[at + 1], lines[at]] + lines[at + 2 :]


def other_number(rng, lines):
    at = one_of_the_lines(rng, lines, lambda line: re.search(r"\d", line))
    place = rng.choice(places(lines[at], lambda word: re.search(r"\d", word)))
    by = rng.choice((1, -1))
    word = re.sub(r"-?\d+", lambda found: str(int(found[0]) + by), lines[at].split(" ")[place])
    return at, lines[:at] + [changed(lines[at], place, word)] + lines[at + 1 :]


def other_slot(rng, lines):
    at = one_of_the_lines(rng, lines, lambda line: re.match(r"[a-z]+ \d", line) and line.split(" ")[0] not in ("boot", "time"))
    own = lines[at].split(" ")[1]
    word = rng.choice([str(s) for s in range(rng.choice((4, 50))) if str(s) != own])
    return at, lines[:at] + [changed(lines[at], 1, word)] + lines[at + 1 :]


def others(word):
    """The words that may stand in the place of a word."""
    head, dot, number = word.partition(".")
    return tuple(other + dot + number for other in NUMBERED.get(head, ())) if dot else WORDS.get(word, ())


def other_word(rng, lines):
    at = one_of_the_lines(rng, lines, lambda line: places(line, others))
    place = rng.choice(places(lines[at], others))
    word = rng.choice(others(lines[at].split(" ")[place]))
    return at, lines[:at] + [changed(lines[at], place, word)] + lines[at + 1 :]


@functools.lru_cache(maxsize=1)
def choices_from_slot_0(lines):
    """The choices that would be others, were they made from entry 0 on and not from the entry after the last one: their lines,
    and the entries."""
    from abstract_unix import audit, logtext
    auditor, found = audit.Auditor(), []
    for at, line in enumerate(lines):
        entry = logtext.parse(line.encode())
        if entry[0] == "go":
            table = auditor.t
            last, table.last = table.last, len(table.rows) - 1
            slot, table.last = table.chosen(), last
            if slot != entry[1]:
                found.append((at, slot))
        auditor.take(entry)
    return found


def from_slot_0(rng, lines):
    found = choices_from_slot_0(tuple(lines))
    if not found:
        return None
    at, slot = rng.choice(found)
    return at, lines[:at] + [f"go {slot}"] + lines[at + 1 :]


WAYS = (left_out, twice, swapped, other_number, other_slot, other_word, from_slot_0)


ANSWER = re.compile(r"lawful: (\d+) lines\n|log: line (\d+) is (?:not lawful|no log line)\n")


class Judges:
    """The command's auditor, that of the reference, and, where it isn't left out, the definition."""

    def __init__(self, command, quick=False):
        sys.path.insert(0, os.environ["ABSTRACT_UNIX"])
        from abstract_unix import audit, logtext
        self.command, self.audit, self.parse, self.definition = command, audit, logtext.parse, None if quick else Auditor()

    def reference(self, lines):
        """The status of an audit, and the line at fault, where one is."""
        verdict, number = self.audit.judge("".join(line + "\n" for line in lines).encode())
        return (0, None) if verdict == "lawful" else (STATUS[verdict], number)

    def kept(self, lines, places):
        """What the reference keeps of a lawful log before each of these lines."""
        auditor, kept = self.audit.Auditor(), {}
        for at, line in enumerate(lines):
            if at in places:
                kept[at] = copy.deepcopy(auditor)
            auditor.take(self.parse(line.encode()))
        return {**kept, len(lines): auditor}

    def going_on(self, lines, at, kept):
        """The status of the reference's audit, and the line at fault, where it goes on from what it kept before a line."""
        auditor = copy.deepcopy(kept)
        for number, line in enumerate(lines[at:], at + 1):
            entry = self.parse(line.encode())
            if entry is None:
                return STATUS["bad"], number
            if not auditor.fits(entry):
                return STATUS["unlawful"], number
            auditor.take(entry)
        return (0, None) if auditor.last[0] in ("end", "panic") else (STATUS["unlawful"], len(lines) + 1)

    def built(self, lines):
        """The same by the command. A lawful log must have so many lines as it tells."""
        with tempfile.NamedTemporaryFile("w", encoding="ascii") as file:
            file.write("".join(line + "\n" for line in lines))
            file.flush()
            said = subprocess.run([*self.command, "audit", file.name], capture_output=True, text=True, check=False)
        found = ANSWER.fullmatch(said.stdout)
        if found is None or found[1] and (said.returncode != 0 or int(found[1]) != len(lines)):
            return said.returncode, said.stdout
        return said.returncode, int(found[2]) if found[2] else None

    def boards(self, lines):
        """What the definition has seen before each line of a log, up to the one that doesn't fit."""
        if self.definition is None:
            return [None] * (len(lines) + 1)
        seen = [self.definition.begin()]
        for line in lines:
            after = self.definition.after(seen[-1], line)
            if after is None:
                break
            seen.append(after)
        return seen

    def defined(self, lines, boards, at):
        """The line at fault by the definition, of a log that is as it was up to a line."""
        return self.definition.first_fault(lines[at:], boards[at], at + 1)


def log_of(command, seed):
    """The lines of a run; none where its disk or script is refused."""
    case = KINDS[seed % len(KINDS)](seed)
    with tempfile.TemporaryDirectory() as folder:
        case.write(folder)
        words = words_of_run(case, folder, "v6")
        called([*command, getattr(case, "command", words[0]), *words[1:]])
        return read(f"{folder}/v6.log").decode("ascii").splitlines()


def spoiled(seed, lines, times):
    """Each way in which a log is spoiled, so many times: the place of the spoiled line, and the log. None comes twice."""
    found = set()
    for way in WAYS:
        for time in range(times):
            one = way(random.Random(f"spoiled {way.__name__} {seed}" + f" {time}" * (time > 0)), lines)
            if one is not None and tuple(one[1]) not in found:
                found.add(tuple(one[1]))
                yield way.__name__, *one


class Tally:
    """What the judges said, and the spoiled logs where they are to be kept."""

    def __init__(self, folder, is_often):
        self.folder, self.is_often, self.counts, self.wrong, self.verdicts = folder, is_often, collections.Counter(), 0, []

    def differ(self, said):
        print(said, flush=True)
        self.wrong += 1

    def log(self, seed, lines, judges):
        """A log of v6, and the same spoiled."""
        boards, by_reference, built = judges.boards(lines), judges.reference(lines), judges.built(lines)
        ends = lines[-1] == "end" or lines[-1].startswith("panic")
        if len(boards) <= len(lines) or not by_reference == built == ((0, None) if ends else (9, len(lines) + 1)):
            self.differ(f"seed {seed}: the log isn't lawful: {built}, by the reference {by_reference}, by the definition "
                        f"{len(boards)}")
            return
        self.counts["logs, each lawful as far as it goes"] += 1
        self.counts["lines of these"] += len(lines)
        found = list(spoiled(seed, lines, OFTEN if self.is_often else 1))
        kept = judges.kept(lines, {at for _, at, _ in found}) if self.is_often else {}
        for way, at, other in found:
            by_reference, built = self.by_reference(judges, other, at, kept), judges.built(other)
            named = judges.defined(other, boards, at) if judges.definition else by_reference[1]
            if built != by_reference or named != by_reference[1] or named is not None and named <= at:
                self.differ(f"seed {seed}, {way} at {at + 1}: {other[at : at + 1]}: {built}, by the reference {by_reference}, "
                            f"by the definition {named}")
            self.spoiled(way, at + 1, other, named, ends)

    def by_reference(self, judges, lines, at, kept):
        """What the reference says of a spoiled log; where it goes on from what it kept, now and then from the beginning too."""
        if not self.is_often:
            return judges.reference(lines)
        said = judges.going_on(lines, at, kept[at])
        if len(self.verdicts) % WHOLE == 0 and judges.reference(lines) != said:
            self.differ(f"the reference says of a whole log {judges.reference(lines)}, and where it goes on from line {at} "
                        f"{said}")
        return said

    def spoiled(self, way, at, other, named, ends):
        number = len(self.verdicts)
        place = "nowhere" if named == (None if ends else len(other) + 1) else "at once" if named == at else "later"
        self.counts["spoiled logs"] += 1
        self.counts[f"{way}: at fault {place}"] += 1
        self.verdicts.append(f"{number} {way} {at} {named or 'lawful'}")
        if self.folder:
            self.write(f"{number}.log", other)

    def write(self, name, lines):
        with open(f"{self.folder}/{name}", "w", encoding="ascii") as file:
            file.write("".join(line + "\n" for line in lines))


def judge(command, count, first, folder=None, is_quick=False, is_often=False):
    judges, tally = Judges(command, is_quick or is_often), Tally(folder, is_often)
    for seed in range(first, first + count):
        lines = log_of(command, seed)[:MOST_LINES]
        if lines:
            tally.log(seed, lines, judges)
        else:
            tally.counts["runs that are refused"] += 1
    if folder:
        tally.write("verdicts", tally.verdicts)
    for name, value in sorted(tally.counts.items()):
        print(f"{value:8}  {name}")
    print(f"{tally.wrong} differ")
    return bool(tally.wrong)


def main(words):
    needs_reference()
    match words:
        case ["write", command, count, *first, folder] if len(first) < 2:
            os.makedirs(folder, exist_ok=True)
            return judge(shlex.split(command), int(count), int(first[0]) if first else 0, folder)
        case ["quick" | "often" as how, command, count, *first] if len(first) < 2:
            first = int(first[0]) if first else 0
            return judge(shlex.split(command), int(count), first, is_quick=how == "quick", is_often=how == "often")
        case [command, count, *first] if len(first) < 2:
            return judge(shlex.split(command), int(count), int(first[0]) if first else 0)
        case _:
            sys.exit(__doc__)


if __name__ == "__main__":
    sys.exit(main(sys.argv[1:]))
