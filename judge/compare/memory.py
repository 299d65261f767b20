#!/usr/bin/env python3
"""Compares what `v6 memory` leaves of random runs with a reference.

    judge/compare/memory.py [full | instructions] COMMAND COUNT [FIRST]

COMMAND is a built v6. The runs are by turns those of judge/compare/processes.py, those with the word `execs`, and both with the word
`small`; or all of them those with the word `full`, or programs of random instructions, as judge/random/instructions.py has them. COUNT
seeds are taken from FIRST on (0 where it isn't given). Compared are the status, the report, the number of bytes, and each byte
of core and of the swap area that is prescribed: u areas, data and stacks of processes that live, half of the u area of each
that has ended, and texts; and the same of the swap area of the disk that `v6 run` leaves. Where a run comes to a panic `memory`
may write nothing, and the disk alone is compared.

The reference is the Python module `abstract_unix`; the environment variable ABSTRACT_UNIX names the folder in which it is.
It writes beside its FINAL a mask, with 1 for each byte that is prescribed.
"""
import contextlib
import io
import os
import shlex
import subprocess
import sys
import tempfile

sys.path.insert(0, os.path.dirname(os.path.dirname(os.path.dirname(os.path.realpath(__file__)))))
from judge.compare.file_calls import SWAP_AT
from judge.compare.processes import PANIC, Case, ExecCase, FullCase, in_small_core
from judge.random.instructions import InstructionCase

KINDS = (Case, ExecCase, in_small_core(Case), in_small_core(ExecCase))


def read(name):
    try:
        with open(name, "rb") as file:
            return file.read()
    except FileNotFoundError:
        return b""


def differences(command, oracle, case, folder):
    """Whether the run was done, how many bytes were prescribed, and the differences of one case."""
    case.write(folder)
    words = ["memory", f"{folder}/image", str(case.core), f"{folder}/script"]
    mine, other = f"{folder}/mine", f"{folder}/other"
    done = subprocess.run([*command, *words, mine], capture_output=True, check=False)
    came = read(mine)
    said = io.StringIO()
    with contextlib.redirect_stdout(said):
        status = oracle([*words, other])
    if (done.returncode, done.stdout.decode()) != (status, said.getvalue()):
        return True, 0, [f"status {done.returncode} {done.stdout!r}, and not {status} {said.getvalue()!r}"]
    wanted, mask = read(other), read(f"{other}.mask")
    if len(came) != len(wanted):
        return True, 0, [f"{len(came)} bytes, and not {len(wanted)}"]
    disk = left_by(command, case, folder)
    if status == PANIC:
        wanted, mask = swap_area(oracle, words[1:], f"{folder}/swap")
        found = told("the disk's swap area", disk[SWAP_AT:], wanted, mask)
        return True, sum(1 for is_said in mask if is_said), found
    swap = len(wanted) - len(disk) + SWAP_AT
    found = [*told("memory", came, wanted, mask), *told("the disk's swap area", disk[SWAP_AT:], wanted[swap:], mask[swap:])]
    return True, sum(1 for is_said in mask if is_said), found


def left_by(command, case, folder):
    """The disk that a run leaves."""
    names = [f"{folder}/{name}" for name in ("script", "term", "log", "disk")]
    subprocess.run([*command, "run", f"{folder}/image", str(case.core), *names], capture_output=True, check=False)
    return read(names[-1])


def swap_area(oracle, words, name):
    """What a run leaves in the swap area by the reference, with its mask."""
    with contextlib.redirect_stdout(io.StringIO()):
        oracle(["run", *words, *(f"{name}.{end}" for end in ("term", "log", "final")), "--swap", name])
    return read(name), read(f"{name}.mask")


def told(what, came, wanted, mask):
    wrong = [at for at, is_said in enumerate(mask) if is_said and came[at : at + 1] != wanted[at : at + 1]]
    return [f"{what}: {len(wrong)} bytes are others, the first at {wrong[0]}"] if wrong else []


def main(words):
    kinds = {"full": (FullCase,), "instructions": (InstructionCase,)}.get(" ".join(words[:1]), KINDS)
    words = words[kinds is not KINDS :]
    if len(words) not in (2, 3):
        sys.exit(__doc__)
    sys.path.insert(0, os.environ["ABSTRACT_UNIX"])
    from abstract_unix.__main__ import main as oracle
    command, first = shlex.split(words[0]), int(words[2]) if len(words) == 3 else 0
    done = wrong = prescribed = 0
    for seed in range(first, first + int(words[1])):
        case = kinds[seed % len(kinds)](seed)
        with tempfile.TemporaryDirectory() as folder:
            is_done, count, found = differences(command, oracle, case, folder)
        done, prescribed = done + is_done, prescribed + count
        wrong += bool(found)
        for what in found:
            print(f"seed {seed}: {what}")
    print(f"{words[1]} runs, {done} done, {prescribed} bytes compared, {wrong} runs with a difference")
    sys.exit(1 if wrong else 0)


if __name__ == "__main__":
    main(sys.argv[1:])
