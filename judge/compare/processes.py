#!/usr/bin/env python3
"""Compares runs of random programs of many processes, under random scripts, with a reference.

    judge/compare/processes.py make SEED FOLDER
    judge/compare/processes.py compare COMMAND COUNT [FIRST]
    judge/compare/processes.py alone COUNT [FIRST]
    judge/compare/processes.py smallest COMMAND SEED FOLDER
    judge/compare/processes.py execs make SEED FOLDER, or one of the others
    judge/compare/processes.py full make SEED FOLDER, or one of the others
    judge/compare/processes.py pipes make SEED FOLDER, or one of the others
    judge/compare/processes.py signals make SEED FOLDER, or one of the others
    judge/compare/processes.py small [execs, signals] make SEED FOLDER, or one of the others

A seed gives a small disk made at random, whose /etc/init makes processes, which make calls on processes and on files
that they share, read what is typed and compute; a size of core; and a script with many ticks. `make` writes them
into a folder as `image`, `core` and `script`, with `listing`, in which a reader finds the program's steps. `compare`
runs COMMAND, a built v6, and the reference over COUNT seeds from FIRST on (0 where it isn't given), and prints each
difference in status, report, bytes of the terminal, lines of the log and what the final disk stands for; then what
the programs came to. `alone` does the same with the reference alone. `smallest` leaves out lines of a script and
steps of a program as long as there is a difference, and makes what is left. With the word `execs` the disks hold more
programs, which execute one another, move the end of their data, let their stacks grow, share texts, and remove and write one
another's files, as random/execs.py has them; with the word `full` such programs fill the swap area and the table of texts, as
random/full.py has them, so that many runs come to a panic; with the word `pipes` processes talk through pipes, as random/pipes.py has
them; with the word `signals` they send one another signals, make faults and leave files `core`, under scripts that type the keys
which make signals, as random/signals.py has them. With the word `small` core has from 64 to 163 clicks, so that most
images are out of it.

The reference is the Python module `abstract_unix`, of which this uses `runs`, `script`, `disk` and `errors`; the
environment variable ABSTRACT_UNIX names the folder in which it is. A run that comes to a panic ends with status 7, and its
disk is compared as that of one that is done.
"""
import collections
import copy
import json
import os
import random
import re
import sys
import tempfile
import time

sys.path.insert(0, os.path.dirname(os.path.dirname(os.path.dirname(os.path.realpath(__file__)))))
from judge.compare import comparing
from judge.compare.file_calls import DISK_BYTES, SWAP_AT, by_command, first_difference, line_difference, node_differences
from judge.random.disk import Tree
from judge.random.execs import Programs, data_at
from judge.random.full import CORES, FullPrograms, tree_for
from judge.random import pipes as random_pipes
from judge.random.processes import assembled, init_of, listed, random_program, random_script
from judge.random.signals import SignalPrograms, random_signal_script

PANIC = 7
PANICS = {"panic swap": b"panic: out of swap space\n", "panic zombie": b"panic: out of swap\n",
          "panic text": b"panic: out of text\n"}

Outcome = collections.namedtuple("Outcome", "status report term log store")


class Case:
    """What a seed gives, perhaps with another script or program."""

    def __init__(self, seed, script=None, program=None):
        rng = random.Random(f"processes {seed}")
        self.seed, self.tree = seed, Tree(random.Random(f"tree {seed}"))
        self.core = rng.choice((3968, 3968, 3968, 3968, 1200, 2100, 200, rng.randrange(64, 3969)))
        self.program = program or random_program(random.Random(f"program {seed}"), self.tree)
        self.script = script or random_script(random.Random(f"script {seed}"))
        self.image = self.tree.image(init_of(self.program), random.Random(f"disk {seed}"))

    def assembled(self):
        return assembled(self.program)

    def listing(self):
        self.assembled()
        lines = ["the steps, each with its address, or that of its call", *listed(self.program.all_steps())]
        return "\n".join([*lines, "", "the disk", *self.tree.listing()]) + "\n"

    def write(self, folder):
        comparing.write_case(folder, self)


class ExecCase(Case):
    """The same with programs that execute one another."""

    slots = (200, 500, 1000, 2000, 4000)

    def __init__(self, seed, script=None, program=None):
        self.seed = seed
        self.choose(random.Random(f"execs {seed}"), random.Random(f"programs {seed}"))
        self.program = self.programs.init = program or self.programs.init
        self.script = script or random_script(random.Random(f"script {seed}"), self.slots)
        init = self.programs.put(self.tree, random.Random(f"files {seed}"))
        self.image = self.tree.image(init, random.Random(f"disk {seed}"))

    def choose(self, rng, programs):
        """The disk, the size of core and the programs."""
        self.tree = Tree(random.Random(f"tree {self.seed}"))
        self.core = rng.choice((3968, 3968, 3968, 1200, 600, 300, 200, 120, rng.randrange(64, 400)))
        self.programs = Programs(programs, self.tree)

    def listing(self):
        lines = []
        for name, program in self.programs.others.items():
            assembled(program, data_at(self.programs.texts[name]))
            lines += ["", name, *listed(program.all_steps())]
        return super().listing() + "\n".join(lines) + "\n"


class FullCase(ExecCase):
    """The same with programs that fill the swap area and the table of texts."""

    slots = (1000, 2000, 4000, 8000)

    def choose(self, rng, programs):
        self.tree = tree_for(self.seed)
        self.core = rng.choice((*CORES, rng.randrange(64, 400)))
        self.programs = FullPrograms(programs, self.tree, self.core)


class PipeCase(Case):
    """The same with processes that talk through pipes."""

    def __init__(self, seed, script=None, program=None):
        rng = random.Random(f"pipes {seed}")
        self.seed, self.tree = seed, Tree(random.Random(f"tree {seed}"))
        self.core = rng.choice((3968, 3968, 3968, 1200, 2100, 600, rng.randrange(300, 3969)))
        self.program = program or random_pipes.random_program(random.Random(f"program {seed}"), self.tree)
        scripts = random_signal_script if rng.random() < 0.3 else random_script
        self.script = script or scripts(random.Random(f"script {seed}"), (1000, 4000, 8000))
        self.image = self.tree.image(random_pipes.init_of(self.program), random.Random(f"disk {seed}"))

    def assembled(self):
        return assembled(self.program, words=random_pipes.ends_of_pipes())


class SignalCase(ExecCase):
    """The same with programs that get signals."""

    slots = (1000, 2000, 4000)

    def __init__(self, seed, script=None, program=None):
        super().__init__(seed, script or random_signal_script(random.Random(f"script {seed}"), self.slots), program)

    def choose(self, rng, programs):
        self.tree = Tree(random.Random(f"tree {self.seed}"))
        self.core = rng.choice((3968, 3968, 1200, 600, 300, 200, 120, rng.randrange(64, 400)))
        self.programs = SignalPrograms(programs, self.tree)


def in_small_core(kind):
    """The same cases in less core."""

    class Small(kind):
        def __init__(self, seed, script=None, program=None):
            super().__init__(seed, script, program)
            self.core = random.Random(f"small {seed}").randrange(64, 164)

    return Small


def kind_of(words):
    """The kind of cases that the first of these words ask for, and the others."""
    is_small = words[:1] == ["small"]
    words = words[is_small:]
    kinds = {"execs": ExecCase, "full": FullCase, "pipes": PipeCase, "signals": SignalCase}
    kind = kinds.get(" ".join(words[:1]), Case)
    return (in_small_core(kind) if is_small else kind), words[kind is not Case :]


# the reference

def reference_run(case):
    sys.path.insert(0, os.environ["ABSTRACT_UNIX"])
    from abstract_unix import runs, script
    return runs.Run(case.image, case.core, script.read(case.script.bytes()))


def outcome_of(run):
    term, log = bytes(run.u.lines[0].shown), "".join(line + "\n" for line in run.log).encode()
    report = PANICS.get(run.log[-1], b"")
    return Outcome(PANIC if report else 0, report, term, log, json.loads(json.dumps(run.u.stores[0].dump())))


# differences

def store_differences(case, want, final):
    from abstract_unix import disk
    behind, image = slice(512 * case.tree.fsize, SWAP_AT), case.image.ljust(DISK_BYTES, b"\0")
    if final[behind] != image[behind] or final[:516] != image[:516]:
        yield "the final disk: its boot block, or what is after the file system, has changed"
    got = json.loads(json.dumps(disk.store_of(final).dump()))
    for key in ("count", "room", "spare", "stamp"):
        if want[key] != got[key]:
            yield f"{key}: {got[key]}, and by the reference {want[key]}"
    for ino in sorted(want["nodes"].keys() | got["nodes"].keys(), key=int):
        yield from node_differences(ino, want["nodes"].get(ino), got["nodes"].get(ino))


def found_differences(case, folder, want, got):
    if (got.status, got.report) != (want.status, want.report):
        yield f"status {got.status} {got.report!r}, and by the reference {want.status} {want.report!r}"
    if got.term != want.term:
        yield "terminal: " + first_difference(want.term, got.term)
    with open(f"{folder}/v6.log", "rb") as file:
        log = file.read()
    if log != want.log:
        yield "log: " + line_difference(want.log, log)
    if want.store is None and got.final or want.store is not None and len(got.final) != DISK_BYTES:
        yield f"a final disk of {len(got.final)} bytes"
    elif want.store is not None:
        yield from store_differences(case, want.store, got.final)


def flaws(want):
    """What isn't as it should be of a case by itself."""
    if b"image 1 " not in want.log and want.log.count(b"\n") > 4:
        yield "init doesn't begin"


def differences(command, case):
    """How a v6 and the reference differ, and what the reference comes to."""
    want = outcome_of(reference_run(case))
    if command is None:
        return list(flaws(want)), want
    with tempfile.TemporaryDirectory() as folder:
        case.write(folder)
        got = by_command(command, case, folder)
        return list(found_differences(case, folder, want, got)), want


# counts

def count(want, counts):
    log = want.log.decode()
    counts["runs to a panic"] += want.status == PANIC
    for line in PANICS:
        counts["runs to " + line] += log.endswith(line + "\n")
    counts["runs in which nobody is left to run"] += log.endswith("idle\nend\n")
    counts["results told"] += len(re.findall(rb"[01][0-7]{6}\r?\n", want.term))
    counts["most processes of a run"] = max(counts["most processes of a run"], most_processes(log))
    for name, text in (("forks", r"^fork"), ("exits", r"^exit"), ("waits that give a child", r"^reap"),
                       ("sleeps for a child", r"^sleep \d+ 40"), ("sleeps for a time", r"^sleep \d+ 90"),
                       ("sleeps for the disk", r"^sleep .* disk"),
                       ("wakes by the disk while somebody runs", r"^trap .*\nwake disk"),
                       ("sleeps for keys", r"^sleep \d+ 10"), ("sleeps for room on a terminal", r"^sleep \d+ 20"),
                       ("wakes of who waits to write", r"^wake show"), ("hangups", r"^signal \d+ 1\n(?:signal .*\n)*wake keys"),
                       ("sleeps for bytes of a pipe", r"^sleep \d+ 1 read"),
                       ("sleeps for room in a pipe", r"^sleep \d+ 1 write"), ("wakes of a pipe", r"^wake (?:read|write)"), ("times set", r"^time"), ("priorities set", r"^nice"),
                       ("execs", r"^bare"), ("texts made", r"^text"), ("texts shared", r"^share"),
                       ("texts left", r"^drop"), ("texts left that are sticky", r"^drop .* sticky"),
                       ("images that grow", r"^size .* at"),
                       ("images that keep their place", r"^size .* keep"),
                       ("images made in the swap area", r"^(?:fork|size|image) .* swap"),
                       ("images that come in", r"^in "), ("images that go out", r"^out "),
                       ("signals sent", r"^signal"), ("signals by keys", r"^signal .*\n(?:signal .*\n)*wake keys"),
                       ("ends by a tick", r"^tick u\n(?:wake .*\n)*(?:drop .*\n)?exit"), ("wakes by time", r"^wake tout"), ("wakes of keys", r"^wake keys"), ("ticks", r"^tick"),
                       ("choices", r"^go"), ("choices after a tick", r"^tick.\w\n(?:wake .*\n)*go"), ("lines", r"^")):
        counts[name] += len(re.findall(text, log, re.MULTILINE))


def most_processes(log):
    most = now = 1
    for line in log.splitlines():
        now += line.startswith("fork") - line.startswith("reap")
        most = max(most, now)
    return most


# words

def compare(command, runs, first, kind=Case):
    counts, differ, since = collections.Counter(), 0, time.time()
    for seed in range(first, first + runs):
        case = kind(seed)
        found, want = differences(command, case)
        differ += bool(found)
        for line in found[:8]:
            print(f"seed {seed}: {line}", flush=True)
        count(want, counts)
    print(f"{runs} runs, {differ} differ, {time.time() - since:.0f} seconds")
    for name, number in counts.items():
        print(f"{number:8}  {name}")
    return bool(differ)


def smallest(command, seed, folder, kind=Case):
    case = kind(seed)
    if not differences(command, case)[0]:
        sys.exit(f"seed {seed}: no difference")
    lines = case.script.lines

    def script_of(some):
        return type(case.script)(some, [b"\n"] * len(some))

    def program_of(some):
        program = copy.copy(case.program)
        program.steps = some
        return program

    def differs(some_lines, program):
        return bool(some_lines) and bool(differences(command, kind(seed, script_of(some_lines), program))[0])

    lines = comparing.without(lines, lambda some: differs(some, case.program))
    steps = comparing.without(case.program.steps, lambda some: differs(lines, program_of(some)))
    lines = comparing.without(lines, lambda some: differs(some, program_of(steps)))
    case = kind(seed, script_of(lines), program_of(steps))
    case.write(folder)
    print(case.listing(), case.script.bytes(), *differences(command, case)[0], sep="\n")


def main(words):
    kind, words = kind_of(words)
    return comparing.main(words, kind, __doc__, compare, smallest)


if __name__ == "__main__":
    sys.exit(main(sys.argv[1:]))
