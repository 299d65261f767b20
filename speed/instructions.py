#!/usr/bin/env python3
"""Counts the machine instructions that one instruction of a hosted program takes, its whole turn included.

    speed/instructions.py COMMAND

It needs valgrind. For each loop below a disk is made from examples/hi/image, whose /etc/init becomes the loop. The program
runs it for a number of slots and for twice that number under callgrind, whose counts are the same at each run; printed is
the difference of the two counts, divided by the number. In a line of the second kind the instruction stands as often as
fits before a branch back, so that the branch hardly counts. The second number of a line is the cost under `clock 1000`,
ticks and a second among it; it is counted for the loops and for the few instructions in CLOCKED.
"""
import os
import sys
import tempfile

sys.path.insert(0, os.path.dirname(os.path.dirname(os.path.realpath(__file__))))
from speed.count import CLOCK, SECOND, assembled, disk_of
from speed.counted import counted, put, run_with

ROOM = 100
SLOTS = 20_000

# programs, as the handbook writes them, and in assembly
LOOPS = [
    ("MOV @#60,R1; ADD R1,@#62; CMP R1,R0; BNE", "\tmov\t$144,r0\n1:\tmov\t*$60,r1\n\tadd\tr1,*$62\n\tcmp\tr1,r0\n\tbne\t1b\n"),
    ("BR .", "\tbr\t.\n"),
    ("JSR PC,@#10; RTS PC; BR", "1:\tjsr\tpc,*$10\n\tbr\t1b\n\t0\n\trts\tpc\n"),
    # the branch leads back to SOB, which falls through once in 65,536 times
    ("SOB R0,.", "1:\tsob\tr0,1b\n\tbr\t1b\n"),
]
ONES = [
    "mov r1,r2", "cmp r1,r2", "add r1,r2", "bic r1,r2", "xor r1,r2", "clr r1", "tst r1", "inc r1", "dec r1", "neg r1", "asl r1",
    "ror r1", "swab r1", "movb r1,r2", "incb r1", "mov $5,r1", "mov *$700,r1", "mov r1,*$700", "mov -2(sp),r1", "tst *$700",
    "inc *$700", "mul $3,r2", "div $3,r2", "ash $3,r1", "ashc $3,r0", "mov (r3),(r4)", "mov *$700,*$702", "mov pc,r1",
    "cmp pc,r1", "bit pc,r1", "bic pc,r1", "bis pc,r1", "sub pc,r1", "add pc,r1", "tst pc", "xor pc,r1", "mov -(sp),(sp)+",
]
CLOCKED = {*(name for name, _ in LOOPS), "MOV R1,R2", "ADD R1,R2", "MOV @#700,R1", "INC @#700", "DIV #3,R2"}

# the words of a run, whose files stand in one folder
RUN = run_with(100)


def written(line):
    """A line as the handbook writes it."""
    return line.upper().replace("*$", "@#").replace("$", "#")


def repeated(line):
    """A loop of as many of them as fit."""
    words = len(assembled(f"\t{line}\n")) // 2
    return "1:\n" + f"\t{line}\n" * ((ROOM - 1) // words) + "\tbr\t1b\n"


def count(program, slots, folder, before="", run=RUN):
    put(folder, f"{before}run {slots}\n")
    return counted([program, *run], folder)


def cost(program, source, slots, before=""):
    with tempfile.TemporaryDirectory() as folder:
        with open(f"{folder}/image", "wb") as file:
            file.write(disk_of(assembled(source), 0o710))
        return (count(program, 2 * slots, folder, before) - count(program, slots, folder, before)) / slots


def show(program, name, source, clocked):
    plain = cost(program, source, SLOTS)
    under = f"{cost(program, source, SECOND, CLOCK):6.1f}" if clocked else " " * 6
    print(f"{plain:6.1f} {under}  {name}", flush=True)


def main():
    if len(sys.argv) != 2 or not os.access(sys.argv[1], os.X_OK):
        sys.exit(__doc__)
    program = os.path.abspath(sys.argv[1])
    for name, source in LOOPS + [(written(line), repeated(line)) for line in ONES]:
        show(program, name, source, name in CLOCKED)


if __name__ == "__main__":
    main()
