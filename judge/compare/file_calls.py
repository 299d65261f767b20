#!/usr/bin/env python3
"""Compares runs of random programs of the calls on files with a reference.

    judge/compare/file_calls.py make SEED FOLDER
    judge/compare/file_calls.py compare COMMAND COUNT [FIRST]
    judge/compare/file_calls.py alone COUNT [FIRST]
    judge/compare/file_calls.py smallest COMMAND SEED FOLDER
    judge/compare/file_calls.py two make SEED FOLDER, or one of the others

A seed gives a small disk made at random, whose /etc/init makes calls on files with good and bad arguments and tells
their results, a size of core and a script. `make` writes them into a folder as `image`, `core` and `script`, with
`listing`, in which a reader finds the calls and what is on the disk. `compare` runs COMMAND, a built v6, and the
reference over COUNT seeds from FIRST on (0 where it isn't given), and prints each difference in status, report, bytes
of the terminal, lines of the log and what the final disk stands for; then how often each call was made, and with which
errors. `alone` does the same with the reference alone. `smallest` leaves out calls of a seed as long as there is a difference, and
makes what is left.

With `two` as the first word a seed gives two small disks. /etc/init of the first mounts the second, mostly, and makes calls on files
of both, with names that cross and that don't: mounts and umounts among them, links from disk to disk, names under the directory that
is covered, files that are open at an umount. They are run by `run2`, and both final disks are compared.

A result is counted where it is known of which call it is. A run that tells none, since its console isn't there or its
disk is full, is compared all the same.

The reference is a Python module `abstract_unix` with the words `run`, `check` and `standfor`; the environment variable
ABSTRACT_UNIX names the folder in which it is.
"""
import collections
import json
import os
import random
import re
import subprocess
import sys
import tempfile

sys.path.insert(0, os.path.dirname(os.path.dirname(os.path.dirname(os.path.realpath(__file__)))))
from judge.compare import comparing
from judge.random.calls import random_plan
from judge.random.disk import Tree
from judge.random.program import CALLS, MARK, RESULTS, Call, init_of, items_of, slots_of
from judge.random.two_disks import Root, Second, TwoChooser

DISK_BYTES, SWAP_AT = 2494464, 2048000
ERRORS = {1: "EPERM", 2: "ENOENT", 6: "ENXIO", 9: "EBADF", 13: "EACCES", 15: "ENOTBLK", 16: "EBUSY", 17: "EEXIST",
          18: "EXDEV", 20: "ENOTDIR", 21: "EISDIR", 22: "EINVAL", 23: "ENFILE", 24: "EMFILE", 27: "EFBIG", 28: "ENOSPC",
          29: "ESPIPE", 31: "EMLINK"}
Outcome = collections.namedtuple("Outcome", "status report term final second")


class Case:
    """What a seed gives. `calls` leaves some of its program's calls out. There may be a second disk, with its bytes."""

    second, second_image = None, b""

    def __init__(self, seed, calls=None):
        self.seed, rng = seed, random.Random(f"run {seed}")
        self.tree = self.make_tree()
        self.plan = self.make_plan()
        slots = slots_of(self.plan)
        self.core = rng.choice((64, 100, 1200, 3968, rng.randrange(64, 3969)))
        self.is_cut = rng.random() < 0.12 and not self.plan.ending
        self.script = f"run {rng.randrange(slots)}\n" if self.is_cut else f"run 1\nrun 0\nrun {slots}\n"
        if calls is not None:
            self.plan = self.plan._replace(calls=calls)
        self.image = self.tree.image(init_of(random.Random(f"init {seed}"), self.plan), random.Random(f"disk {seed}"))

    def make_tree(self):
        return Tree(random.Random(f"tree {self.seed}"))

    def make_plan(self):
        return random_plan(random.Random(f"program {self.seed}"), self.tree)

    def listing(self):
        lines = [f"{call.at:6}  {call}" for call in self.plan.all_calls()]
        head = "the calls, each with the address of its word"
        second = ["", "the second disk", *self.second.listing()] if self.second else []
        return "\n".join([head, *lines, "", "the disk", *self.tree.listing(), *second]) + "\n"

    def write(self, folder):
        os.makedirs(folder, exist_ok=True)
        texts = {"core": f"{self.core}\n", "script": self.script, "listing": self.listing()}
        images = {"image": self.image, **({"image2": self.second_image} if self.second else {})}
        for name, data in {**images, **{name: text.encode() for name, text in texts.items()}}.items():
            with open(f"{folder}/{name}", "wb") as file:
                file.write(data)


class TwoDisks(Case):
    """What a seed gives of two disks."""

    def __init__(self, seed, calls=None):
        self.seed = seed
        self.second = Second(random.Random(f"second {seed}"))
        rng = random.Random(f"second disk {seed}")
        self.second_image = self.second.image(rng.randbytes(rng.randrange(1, 1200)), rng)
        super().__init__(seed, calls)

    def make_tree(self):
        return Root(random.Random(f"first {self.seed}"))

    def make_plan(self):
        rng = random.Random(f"program of two {self.seed}")
        return random_plan(rng, self.tree, lambda *given: TwoChooser(*given, self.second))


def read(path):
    try:
        with open(path, "rb") as file:
            return file.read()
    except OSError:
        return b""


def called(words, folder=None):
    """A command's status and what it writes to standard output."""
    done = subprocess.run(words, cwd=folder, stdout=subprocess.PIPE, stderr=subprocess.PIPE, check=False)
    return done.returncode, done.stdout + (done.stderr if done.returncode not in range(14) else b"")


def reference(*words):
    return called([sys.executable, "-m", "abstract_unix", *words], os.environ["ABSTRACT_UNIX"])


def second_of(case):
    """The second disk of a case, where its kind has one."""
    return getattr(case, "second", None)


def words_of_run(case, folder, name):
    at = [f"{folder}/{file}" for file in ("image", "script", f"{name}.term", f"{name}.log", f"{name}.final")]
    if second_of(case):
        return ["run2", at[0], str(case.core), *at[1:], f"{folder}/image2", f"{folder}/{name}.final2"]
    return ["run", at[0], str(case.core), *at[1:]]


def by_reference(case, folder):
    """What the reference comes to, and the lines of its log."""
    status, report = reference(*words_of_run(case, folder, "reference"))
    finals = [read(f"{folder}/reference.{name}") for name in ("final", "final2")]
    outcome = Outcome(status, report, read(f"{folder}/reference.term"), *(json.loads(final) if final else None for final in finals))
    return outcome, read(f"{folder}/reference.log").decode().splitlines()


def by_command(command, case, folder):
    status, report = called(command + words_of_run(case, folder, "v6"))
    return Outcome(status, report, *(read(f"{folder}/v6.{name}") for name in ("term", "final", "final2")))


# differences

def built_differences(case, folder, want, got):
    if (got.status, got.report) != (want.status, want.report):
        yield f"status {got.status} {got.report!r}, and by the reference {want.status} {want.report!r}"
    if got.term != want.term:
        yield "terminal: " + first_difference(want.term, got.term)
    if len(got.final) != DISK_BYTES:
        yield f"a final disk of {len(got.final)} bytes"
    elif want.final:
        yield from disk_differences(folder, ("image", "v6.final"), case.image, case.tree, SWAP_AT, want.final, got.final)
    if second_of(case) and len(got.second) != DISK_BYTES:
        yield f"a second final disk of {len(got.second)} bytes"
    elif second_of(case) and want.second:
        names = ("image2", "v6.final2")
        for line in disk_differences(folder, names, case.second_image, case.second, DISK_BYTES, want.second, got.second):
            yield f"second: {line}"


def disk_differences(folder, names, image, tree, end, want, final):
    found = reference("check", f"{folder}/{names[1]}")[1].decode()
    if not found.startswith("ok "):
        yield f"the final disk has a fault: {found}"
        return
    behind = slice(512 * tree.fsize, end)
    if final[behind] != image.ljust(DISK_BYTES, b"\0")[behind] or final[512:516] != image[512:516]:
        yield "the final disk: its size, or what is after the file system, has changed"
    got = json.loads(reference("standfor", *(f"{folder}/{name}" for name in names))[1])
    if got["block0"] != want["block0"]:
        yield "the boot block"
    want, got = want["store"], got["store"]
    for key in ("count", "room", "spare", "stamp"):
        if want[key] != got[key]:
            yield f"{key}: {got[key]}, and by the reference {want[key]}"
    for ino in sorted(want["nodes"].keys() | got["nodes"].keys(), key=int):
        yield from node_differences(ino, want["nodes"].get(ino), got["nodes"].get(ino))


def node_differences(ino, want, got):
    if want is None or got is None:
        yield f"inode {ino} is used only {'in the final disk' if want is None else 'by the reference'}"
    elif want != got:
        for key in want:
            if want[key] != got[key]:
                yield f"inode {ino}, {key}: {str(got[key])[:200]}, and by the reference {str(want[key])[:200]}"


def first_difference(want, got):
    at = next((i for i, (a, b) in enumerate(zip(want, got)) if a != b), min(len(want), len(got)))
    return f"from byte {at} on {got[at : at + 60]!r}, and by the reference {want[at : at + 60]!r}"


def line_difference(want, got):
    want, got = want.split(b"\n"), got.split(b"\n")
    at = next((i for i, (a, b) in enumerate(zip(want, got)) if a != b), min(len(want), len(got)))
    first = max(at - 3, 0)
    return (f"line {at + 1}, of {len(got)}, {got[first : at + 3]}, and by the reference, of {len(want)}, "
            f"{want[first : at + 3]}")


def log_differences(folder):
    want, got = read(f"{folder}/reference.log"), read(f"{folder}/v6.log")
    if got != want:
        yield "log: " + line_difference(want, got)


def differences(command, case):
    """How a v6 and the reference differ, and what the reference comes to."""
    with tempfile.TemporaryDirectory() as folder:
        case.write(folder)
        want, log = by_reference(case, folder)
        if command is None:
            return list(flaws(case, folder, want, log)), want
        got = by_command(command, case, folder)
        return [*built_differences(case, folder, want, got), *log_differences(folder)], want


def flaws(case, folder, want, log):
    """What isn't as it should be of a case by itself."""
    if not reference("check", f"{folder}/image")[1].startswith(b"ok "):
        yield f"the disk has a fault: {reference('check', f'{folder}/image')[1]}"
    elif want.status:
        yield f"status {want.status} {want.report!r}"
    elif "image 1 " not in " ".join(log) and not case.is_cut:
        yield "init doesn't begin"
    elif not case.plan.ending and any(line.startswith(("signal", "sleep 1")) for line in log):
        yield f"a signal or a wait: {[line for line in log if line.startswith(('signal', 'sleep 1'))][:1]}"
    elif not case.is_cut and not case.plan.ending and case.plan.exits and "idle" not in log:
        yield "init doesn't come to its end"


# counts

def results_of(case, want):
    """What the program has told, in order, as pairs of R0 and C, or None for what isn't a result."""
    if not case.plan.in_file:
        lines = re.findall(rb"([01])([0-7]{6})\r\n", want.term)
        return [(int(value, 8), int(carry)) for carry, value in lines]
    files = [bytes_of(node) for node in want.final["store"]["nodes"].values()] if want.final else []
    data = next((data for data in files if data.startswith(RESULTS.encode())), b"")
    found, at = [], len(RESULTS)
    for item in items_of(case.plan):
        if isinstance(item, int):
            at += item
            continue
        value, mark = (int.from_bytes(data[at + i : at + i + 2], "little") for i in (0, 2))
        if mark not in (MARK, MARK + 1):
            break
        found.append((value, mark - MARK))
        at += 4
    return found


def bytes_of(node):
    """The bytes of a file of at most eight blocks; what is after them isn't looked at."""
    size = min(node["size"], 4096)
    blocks = [bytes.fromhex(node["body"].get(str(n), "00" * 512)) for n in range((size + 511) // 512)]
    return b"".join(blocks)[:size]


def count(case, want, counts):
    """Counts the calls that the program has made and told, with their errors, and says how much it has told. Where a
    result was lost, as in a file on a full disk, it isn't known of which calls the others are, and none is counted."""
    items = [item for item in items_of(case.plan) if not isinstance(item, int)]
    results = results_of(case, want)
    is_front = case.is_cut and not case.plan.in_file
    if len(results) == len(items) or is_front:
        for item, (value, carry) in zip(items, results):
            if isinstance(item, Call):
                counts[CALLS[item.number]][ERRORS.get(value, f"error {value}") if carry else ""] += 1
    return "all" if len(results) == len(items) else "some" if results else "none"


def print_counts(runs, differ, counts, told):
    calls = sum(sum(row.values()) for row in counts.values())
    print(f"{runs} runs, {differ} differ")
    print(f"{told['all']} told all their results, {told['some']} some, {told['none']} none")
    print(f"{calls} calls with a result that is known:")
    for name in CALLS.values():
        row = counts[name]
        errors = ", ".join(f"{error} {times}" for error, times in sorted(row.items()) if error)
        print(f"{name:7}{sum(row.values()):6}  {errors}")
    met = {error for row in counts.values() for error in row}
    print("not met: " + (", ".join(error for error in ERRORS.values() if error not in met) or "none"))


# words

def compare(command, runs, first, kind=Case):
    counts, told, differ = collections.defaultdict(collections.Counter), collections.Counter(), 0
    for seed in range(first, first + runs):
        case = kind(seed)
        found, want = differences(command, case)
        differ += bool(found)
        for line in found[:8]:
            print(f"seed {seed}: {line}", flush=True)
        told[count(case, want, counts)] += 1
    print_counts(runs, differ, counts, told)
    return bool(differ)


def smallest(command, seed, folder, kind=Case):
    """Leaves out more and more calls, first many and then single ones, as long as there is a difference."""
    calls = kind(seed).plan.calls
    if not differences(command, kind(seed))[0]:
        sys.exit(f"seed {seed}: no difference")
    case = kind(seed, comparing.without(calls, lambda some: differences(command, kind(seed, some))[0]))
    case.write(folder)
    print(case.listing(), *differences(command, case)[0], sep="\n")


def main(words):
    kind, words = (TwoDisks, words[1:]) if words[:1] == ["two"] else (Case, words)
    return comparing.main(words, kind, __doc__, compare, smallest)


if __name__ == "__main__":
    sys.exit(main(sys.argv[1:]))
