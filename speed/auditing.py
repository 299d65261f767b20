#!/usr/bin/env python3
"""Counts the machine instructions that `v6 audit` takes for a line.

    speed/auditing.py COMMAND [LOG..]
    speed/auditing.py million COMMAND
    speed/auditing.py pipe COMMAND BYTES

COMMAND is a built v6. Each LOG is audited under valgrind's callgrind, and so is an empty file; printed is the difference by the
number of lines. Without a LOG it counts those of random programs of judge/compare/processes.py, four of each kind: ordinary ones, those
that fill the swap area, and those in a small core, where a swapper is at work.

`million` counts logs of a million lines and some more: of the first random programs with execs, with signals and over the lines
of a terminal that go on and on, and of a dialogue with the shell on the disk of examples/shell. `pipe` gives a lawful log of so
many bytes through a pipe, and counts no instructions. Both tell how much memory the auditor's process had at most, before its
log ends, and what it answers.
"""
import collections
import fcntl
import os
import subprocess
import sys
import tempfile
import termios
import time

sys.path.insert(0, os.path.dirname(os.path.dirname(os.path.realpath(__file__))))
from speed.counted import counted
from judge.compare.file_calls import by_command, called, read
from judge.fuzz.cases import TOP, case_of
from judge.compare.processes import Case, ExecCase, FullCase, PipeCase, SignalCase, in_small_core

KINDS = {"plain": Case, "execs": ExecCase, "pipes": PipeCase, "signals": SignalCase, "full": FullCase,
         "small": in_small_core(Case), "small execs": in_small_core(ExecCase)}
SEEDS = range(1000, 1004)
# the statuses of an audit that came to its end
LAWFUL_OR_NOT = (0, 9)
MILLION, MORE = 1_000_000, 1_010_000  # lines that a long log must have, and that are aimed at
TRIED, LEAST = 20_000, 0.2  # slots after which a log is looked at, and lines a slot that it must grow by then
WORDS = ("term", "log", "final")
BEGINS, ENDS = b"boot 1200 0\nsleep 0 -100 runout\ngo 1\n", b"sleep 1 10 keys\nidle\nend\n"
ROUND = b"sleep 1 10 keys\nidle\ntick i\nwake keys\ngo 1\ntrap 1\n"  # what a program's wait for a key comes to
# a dialogue with the shell: what is typed at first, and then over and over
BEFORE = "run 10000\ntype chdir /usr/sys/ken\nrun 10000\ntype mkdir /tmp\nrun 10000\n"
TYPED = ("ls -l /bin", "cat slp.c", "cp slp.c /tmp", "ls -l /tmp", "ls /bin ^ wc", "rm /tmp/slp.c",
         "echo hello >/tmp/greeting; cat </tmp/greeting")

Audited = collections.namedtuple("Audited", "status report memory seconds")


def count(command, log):
    """What the audit of a file takes, and how many lines it has."""
    with open(log, "rb") as file:
        return counted([command, "audit", log], ends=LAWFUL_OR_NOT), file.read().count(b"\n")


def logs_of(command, kind, folder):
    for seed in SEEDS:
        case = kind(seed)
        case.write(folder)
        by_command([command], case, folder)
        yield os.path.join(folder, "v6.log")


def cost(command, logs):
    """What a line of some logs takes, and how many lines they have. Each log is counted before the next is made."""
    nothing, _ = count(command, os.devnull)
    took = lines = 0
    for log in logs:
        more, of = count(command, log)
        took, lines = took + more - nothing, lines + of
    return took / max(lines, 1), lines


def tell(command, name, logs):
    took, lines = cost(command, logs)
    print(f"{took:8.1f}  a line of {name} ({lines} lines)", flush=True)


# through a pipe


def memory_of(number):
    """The most memory that a process has had so far, in kilobytes; 0 where it has ended."""
    with open(f"/proc/{number}/status", encoding="ascii") as file:
        return next((int(line.split()[1]) for line in file if line.startswith("VmHWM")), 0)


def through_pipe(command, pieces):
    """What comes of the audit of these bytes; its memory is that when all is read and the log hasn't ended yet."""
    with subprocess.Popen([command, "audit", "/dev/stdin"], stdin=subprocess.PIPE, stdout=subprocess.PIPE) as auditor:
        try:
            for piece in pieces:
                auditor.stdin.write(piece)
            auditor.stdin.flush()
        except BrokenPipeError:
            sys.exit(f"the log's end isn't read: {auditor.stdout.read().decode()}")
        while int.from_bytes(fcntl.ioctl(auditor.stdin, termios.FIONREAD, bytes(4)), "little"):
            time.sleep(0.01)
        memory = memory_of(auditor.pid)
        auditor.stdin.close()
        report = auditor.stdout.read().decode().rstrip("\n")
        _, status, used = os.wait4(auditor.pid, 0)
        auditor.returncode = os.waitstatus_to_exitcode(status)
    return Audited(auditor.returncode, report, memory, used.ru_utime + used.ru_stime)


def rounds(size):
    """A lawful log of so many bytes at least."""
    yield BEGINS
    many, left = 20_000, -(-(size - len(BEGINS) - len(ENDS)) // len(ROUND))
    for _ in range(left // many):
        yield many * ROUND
    yield left % many * ROUND + ENDS


def tell_pipe(command, size):
    came = through_pipe(command, rounds(size))
    print(f"{came.report}, status {came.status}, {came.memory} KB, {came.seconds:.1f} s of a processor")
    return came.status != 0


# logs of a million lines


def lines_of(command, words, script, folder):
    """How many lines the log of a run has."""
    with open(f"{folder}/script", "w", encoding="ascii") as file:
        file.write(script)
    status, _ = called([command, *words, f"{folder}/script", *(f"{folder}/{name}" for name in WORDS)])
    return 0 if status else read(f"{folder}/log").count(b"\n")


def image_in(folder, image):
    with open(f"{folder}/image", "wb") as file:
        file.write(image)
    return f"{folder}/image"


def cases():
    """Random programs of the kinds: a name, and the command, the image and the core of one after another."""
    for name, kind in (("execs", ExecCase), ("signals", SignalCase)):
        yield name, (("run", case.image, case.core) for case in map(kind, range(1000, 2000)))
    of_lines = (case_of(seed, "lines") for seed in range(1000, 2000))
    yield "lines", ((case.command[0], case.image, case.core) for case in of_lines if case.command[0] == "run8")


def slots_of(command, words, folder):
    """How many slots a run must have for a long log; None where it doesn't go on."""
    some, more = (lines_of(command, words, f"clock 20\nrun {slots}\n", folder) for slots in (TRIED, 2 * TRIED))
    by_slot = (more - some) / TRIED
    return int(MORE / by_slot) if by_slot >= LEAST else None


def long_logs(command, folder):
    """Leaves one log after another of so many lines in a folder: its name, and how many slots the run has."""
    for name, found in cases():
        for word, image, core in found:
            words = [word, image_in(folder, image), f"{core}"]
            slots = slots_of(command, words, folder)
            if slots and lines_of(command, words, f"clock 20\nrun {slots}\n", folder) >= MILLION:
                yield f"{name}, of {slots} slots"
                break
        else:
            sys.exit(f"{name}: no program goes on")
    words = ["run", f"{TOP}/examples/shell/image", "3968"]
    round_of_lines = "".join(f"type {line}\nrun 10000\n" for line in TYPED)
    once, twice = (lines_of(command, words, BEFORE + times * round_of_lines, folder) for times in (1, 2))
    times = -(-MORE // max(twice - once, 1))
    if lines_of(command, words, BEFORE + times * round_of_lines, folder) < MILLION:
        sys.exit("the dialogue with the shell doesn't go on")
    yield f"a dialogue with the shell, {times * len(TYPED)} lines"


def tell_million(command):
    wrong = 0
    with tempfile.TemporaryDirectory() as folder:
        log = f"{folder}/log"
        for name in long_logs(command, folder):
            took, lines = cost(command, [log])
            came = through_pipe(command, [read(log)])
            print(f"{took:8.1f}  a line of {name}: {came.report}, status {came.status}, {came.memory} KB", flush=True)
            wrong += came.report != f"lawful: {lines} lines"
    return bool(wrong)


def main(words):
    many = words[0] if words[:1] in (["million"], ["pipe"]) else None
    words = words[many is not None :]
    if not words or not os.access(words[0], os.X_OK):
        sys.exit(__doc__)
    command = os.path.abspath(words[0])
    if many == "million" and not words[1:]:
        return tell_million(command)
    if many == "pipe" and len(words) == 2 and words[1].isdecimal():
        return tell_pipe(command, int(words[1]))
    if many:
        sys.exit(__doc__)
    for log in words[1:]:
        if not os.access(log, os.R_OK) or os.path.isdir(log):
            sys.exit(f"{log}: no log that can be read")
    for log in words[1:]:
        tell(command, log, [log])
    with tempfile.TemporaryDirectory() as folder:
        for name, kind in KINDS.items() if not words[1:] else ():
            tell(command, name, logs_of(command, kind, folder))
    return 0


if __name__ == "__main__":
    sys.exit(main(sys.argv[1:]))
