#!/usr/bin/env python3
"""Judges what `v6 audit` says of logs about the length from which on a log is too long, without one of 2^40 bytes.

    judge/compare/too_long.py [COMMAND [BITS]]

COMMAND is a built v6 for x86-64 (bin/v6), whose last word is the program. Of a log it reads at most 2^40 + 1 bytes. In a copy
of it 2^BITS + 1 (2^20 + 1; BITS from 14 to 30) stands for that number wherever its machine code loads it; nothing else is
changed. It is refused where the number isn't loaded, or stands elsewhere, or one near it is loaded. The copy audits logs of
about 2^BITS bytes, each from a file and from a pipe, sparse files, and a log whose report fails. Where strace is there, reads
fail too.

What must be answered is the rule of docs/manual/audit.md, which `answer` works over the bytes of a log, and each log has its
status beside it. The program itself audits a sparse file of 2^40 + 5 bytes. Each wrong answer is told, and the exit status is 1
then.
"""
import os
import re
import shlex
import shutil
import subprocess
import sys
import tempfile

sys.path.insert(0, os.path.dirname(os.path.dirname(os.path.dirname(os.path.realpath(__file__)))))
from judge import TOP

LIMIT = 1 << 40  # bytes of the longest log that isn't too long
NEAR, PIECE, MOST_LINE = 4096, 4096, 80  # PIECE is what is read of a file at once
LAWFUL, READ_FAULT, UNLAWFUL, BAD, TOO_LONG = 0, 2, 9, 10, 13
BEGINS = (b"boot 1200 0", b"sleep 0 -100 runout", b"go 1")  # entry 1 runs then, so that `idle` doesn't fit
KEYS, RUNIN, IDLE, END = b"wake keys", b"wake runin", b"idle", b"end"
LINES = {*BEGINS, KEYS, RUNIN, IDLE, END}  # what is a line of a log, of all that stands in these
HEAD = b"".join(line + b"\n" for line in BEGINS)


def loaded(program):
    """The numbers near the limit that a program's machine code loads, with their places: movabs, of which REX.W and the opcode
    stand before the number."""
    for found in re.finditer(rb"[\x48\x49][\xb8-\xbf](?=(.{8}))", program, re.DOTALL):
        number = int.from_bytes(found[1], "little")
        if abs(number - LIMIT) <= NEAR:
            yield found.end(), number


def shortened(program, limit):
    """The bytes of a program in which a log is too long from so many bytes on."""
    number, found = (LIMIT + 1).to_bytes(8, "little"), dict(loaded(program))
    if not found or set(found.values()) != {LIMIT + 1} or program.count(number) != len(found):
        raise ValueError(f"2^40 + 1 stands {program.count(number)} times in the program, and its machine code loads "
                         f"{[f'{one:#x}' for one in found.values()]}")
    return program.replace(number, (limit + 1).to_bytes(8, "little"))


# the rule


def fault_of(lines):
    """The first of these lines that is at fault, from 1 on, and the status; and whether they are at their end."""
    is_over = False
    for number, line in enumerate(lines, 1):
        if line not in LINES:
            return (BAD, number), is_over
        fits = line == BEGINS[number - 1] if number <= len(BEGINS) else line in (KEYS, RUNIN, END) and not is_over
        if not fits:
            return (UNLAWFUL, number), is_over
        is_over = line == END
    return None, is_over


def answer(data, limit):
    """The status and the line of a log, where one is too long from so many bytes on."""
    *ended, last = data[: limit + 1].split(b"\n")
    is_short = all(len(line) <= MOST_LINE for line in (*ended, last))
    if len(data) > limit and fault_of(ended)[0] is None and is_short:
        return TOO_LONG, "log: too long\n"
    lines = data.split(b"\n")
    lines = lines if lines[-1] else lines[:-1]
    fault, is_over = fault_of(lines)
    if fault is None and is_over:
        return LAWFUL, f"lawful: {len(lines)} lines\n"
    status, number = fault or (UNLAWFUL, len(lines) + 1)
    return status, f"log: line {number} is {'no log line' if status == BAD else 'not lawful'}\n"


# the logs


def filled(count):
    """So many bytes of lines that fit: of 10 and of 11 bytes."""
    longer = count % 10
    assert count >= 11 * longer
    return (RUNIN + b"\n") * longer + (KEYS + b"\n") * ((count - 11 * longer) // 10)


def log(count, last=b""):
    """Lines that fit, and this at their end: so many bytes in all."""
    return HEAD + filled(count - len(HEAD) - len(last)) + last


def by_length(limit):
    """Logs without a fault, about the length: what each is, the log, and the status."""
    yield "a byte less, to its end", log(limit - 1, b"end\n"), LAWFUL
    yield "the length, to its end", log(limit, b"end\n"), LAWFUL
    yield "the length, without the last line feed", log(limit, b"end"), LAWFUL
    yield "the length, without an end", log(limit), UNLAWFUL
    yield "the length, in the middle of a line", log(limit, b"wake ke"), BAD
    for more in (1, 2, PIECE, 2 * limit):
        yield f"{more} bytes more, to its end", log(limit + more, b"end\n"), TOO_LONG
    yield "a byte more, without the last line feed", log(limit + 1, b"end"), TOO_LONG
    yield "a byte more, without an end", log(limit + 1), TOO_LONG
    yield "a byte more, in the middle of a line", log(limit + 1, b"wake ke"), TOO_LONG


def with_faults(limit):
    """Logs with a line at fault at the length, and longer ones."""
    behind = filled(5000)
    for line, status in ((IDLE, UNLAWFUL), (b"walk", BAD), (b"", BAD)):
        what = f"a line {line.decode()!r}, at fault"
        yield f"{what}, that ends with the last byte", log(limit, line + b"\n"), status
        yield f"{what}, that ends with it in a longer file", log(limit, line + b"\n") + behind, status
        yield f"{what}, that ends a byte behind", log(limit + 1, line + b"\n"), status
        yield f"{what}, that ends a byte behind in a longer file", log(limit + 1, line + b"\n") + behind, status
        yield f"{what}, that ends two bytes behind", log(limit + 2, line + b"\n"), TOO_LONG
        yield f"{what}, that ends two bytes behind in a longer file", log(limit + 2, line + b"\n") + behind, TOO_LONG
    for line, status in ((IDLE, UNLAWFUL), (b"walk", BAD)):
        yield f"the length, and {line.decode()} without a line feed", log(limit, line), status
        yield f"a byte more, and {line.decode()} without a line feed", log(limit + 1, line), TOO_LONG
    yield "a line behind the end, that ends a byte behind", log(limit + 1, b"end\nwake keys\n"), UNLAWFUL
    yield "a line behind the end, that ends two bytes behind", log(limit + 2, b"end\nwake keys\n"), TOO_LONG
    yield "an unlawful line 5 of a longer file", HEAD + b"wake keys\nidle\n" + filled(2 * limit), UNLAWFUL
    yield "a line 5 that is none, of a longer file", HEAD + b"wake keys\nwalk\n" + filled(2 * limit), BAD
    yield "a fault in the fourth piece of a longer file", HEAD + filled(3 * PIECE) + b"idle\n" + filled(2 * limit), UNLAWFUL


def with_long_lines(limit):
    """Logs with a line of about 80 bytes at the length."""
    for count, status in ((80, TOO_LONG), (81, BAD)):
        yield f"{count} bytes of a line up to the byte behind", log(limit + 1, b"x" * count), status
        cut = log(limit + 1, b"x" * count)
        yield f"{count} bytes of a line up to the byte behind, and more of it", cut + b"x" * 5000, status
        yield f"lines, and zeros of which {count} are read", log(limit + 1 - count) + bytes(limit), status
    yield "the length, with 80 bytes of a line", log(limit, b"x" * 80), BAD
    yield "a line of 80 bytes that ends a byte behind", log(limit + 1, b"x" * 80 + b"\n"), BAD
    yield "a line of 80 bytes that ends two bytes behind", log(limit + 2, b"x" * 80 + b"\n"), TOO_LONG
    yield "a line of 81 bytes that ends two bytes behind", log(limit + 2, b"x" * 81 + b"\n"), BAD
    yield "zeros alone", bytes(2 * limit), BAD


def logs(limit):
    yield from by_length(limit)
    yield from with_faults(limit)
    yield from with_long_lines(limit)


def failing(limit):
    """Logs of which the read of a number fails, and the status: a read fault where that read is made."""
    all_read = limit // PIECE + 1  # the last one is of a byte
    long, whole = log(3 * limit, b"end\n"), log(limit, b"end\n")
    faulty = HEAD + filled(3 * PIECE) + b"idle\n" + filled(3 * limit)
    for number in (1, 2, all_read - 1, all_read):
        yield f"a log too long, of which read {number} fails", long, number, READ_FAULT
    yield "a log too long, of which a read behind the last would fail", long, all_read + 1, TOO_LONG
    yield "a lawful log of the length, of which the last read fails", whole, all_read, READ_FAULT
    yield "a lawful log of the length, of which the read before the last fails", whole, all_read - 1, READ_FAULT
    yield "a fault in the fourth piece, of which the third read fails", faulty, 3, READ_FAULT
    yield "a fault in the fourth piece, of which the fifth read would fail", faulty, 5, UNLAWFUL
    for count in (80, 81):
        cut = log(limit + 1, b"x" * count)
        yield f"{count} bytes of a line up to the byte behind, of which the last read fails", cut, all_read, READ_FAULT


def sparse(limit):
    """Lines, and how long the file is that they begin; it has zeros after them."""
    for count, status in ((40, TOO_LONG), (85, BAD)):
        yield f"a sparse file, of which {count + 1} zeros are read", log(limit - count), 5 * limit, status


# audits


class Judge:
    """Audits by one program, and how many were wrong."""

    def __init__(self, command, limit, folder):
        self.command, self.limit, self.name, self.audits, self.wrong = command, limit, f"{folder}/log", 0, []

    def put(self, data, size=None):
        with open(self.name, "wb") as file:
            file.write(data)
            file.truncate(size)

    def judge(self, what, wanted, before=(), name=None, **more):
        """One audit."""
        done = subprocess.run([*before, *self.command, "audit", name or self.name], check=False,
                              **{"stdout": subprocess.PIPE, "stderr": subprocess.DEVNULL, **more})
        came = done.returncode, done.stdout.decode() if done.stdout is not None else ""
        self.audits += 1
        if came != wanted:
            self.wrong.append(f"{what}: {came}, and {wanted} is right")

    def wanted(self, what, data, status):
        """What must be answered: the rule must agree with the status that stands beside the log."""
        right = answer(data, self.limit)
        assert right[0] == status, (what, right, status)
        return right

    def logs(self):
        for what, data, status in logs(self.limit):
            wanted = self.wanted(what, data, status)
            self.put(data)
            self.judge(what, wanted)
            self.judge(f"{what}, from a pipe", wanted, name="/dev/stdin", input=data)

    def files(self):
        """Sparse files, and a report that fails: the status of a log that is too long stays."""
        for what, data, size, status in sparse(self.limit):
            self.put(data, size)
            self.judge(what, self.wanted(what, data.ljust(size, b"\0"), status))
        self.put(log(3 * self.limit))
        with open("/dev/full", "wb") as full:
            self.judge("a log too long, whose report fails", (TOO_LONG, ""), stdout=full)

    def failing(self):
        for what, data, number, status in failing(self.limit):
            wanted = (READ_FAULT, "read fault: log\n") if status == READ_FAULT else self.wanted(what, data, status)
            self.put(data)
            self.judge(what, wanted, ["strace", "-o", "/dev/null", "-P", self.name, "-e", "trace=read",
                                      "-e", f"inject=read:error=EIO:when={number}"])


def judged(command, bits, folder, is_traced):
    """The judge of a copy of a program, whose audits are done, and of one audit by the program itself."""
    *before, program = command
    judge = Judge(command, 1 << bits, folder)
    judge.put(b"", LIMIT + 5)
    judge.judge("the program itself, a sparse file of 2^40 + 5 bytes", (BAD, "log: line 1 is no log line\n"))
    with open(program, "rb") as file:
        copy = shortened(file.read(), judge.limit)
    judge.command = [*before, f"{folder}/v6"]
    with open(judge.command[-1], "wb") as file:
        file.write(copy)
    os.chmod(judge.command[-1], 0o755)
    judge.logs()
    judge.files()
    if is_traced:
        judge.failing()
    return judge


def main(words):
    if len(words) > 2 or not all(word.isdecimal() and 14 <= int(word) <= 30 for word in words[1:]):
        sys.exit(__doc__)
    is_traced = shutil.which("strace") is not None
    with tempfile.TemporaryDirectory() as folder:
        try:
            command = shlex.split(words[0]) if words else [f"{TOP}/bin/v6"]
            judge = judged(command, int(words[1]) if words[1:] else 20, folder, is_traced)
        except (OSError, ValueError) as error:
            sys.exit(f"too_long.py: {error}")
    print(*judge.wrong, sep="\n", end="\n" * bool(judge.wrong))
    print(f"{judge.audits} audits, {'reads that fail among them' if is_traced else 'without strace'}: {len(judge.wrong)} wrong")
    return bool(judge.wrong)


if __name__ == "__main__":
    sys.exit(main(sys.argv[1:]))
