"""The tables of speed/count.py: programs in assembly, how they are run, and what is counted."""
import os
import subprocess
import sys
import tempfile

from speed import calls
from speed.count import CLOCK, SECOND, Row, Run, assembled, cost, difference, disk_of, made, with_files

ROUNDS = 2000

# pieces of programs


def loop(body):
    return f"1:\t{body}\n\tbr\t1b\n"


def children(count, does):
    """So many forks; each child does this, and the parent goes on after it."""
    return f"\tmov\t${count:o},r2\n1:\tsys\tfork\n\tbr\t2f\n\tsob\tr2,1b\n\tbr\t3f\n2:{does}3:\n"


GETPID, BRANCHES = loop("sys\tgetpid"), "\tbr\t.\n"
SLEEPS = "\tmov\t$-1,r0\n\tsys\tsleep\n"  # for 65,535 seconds
BEST, WORST = "\tmov\t$-200,r0\n\tsys\tnice\n", "\tmov\t$24,r0\n\tsys\tnice\n"  # with the worst the children run until they sleep
MEMORY = """	mov	$144,r0
1:	mov	*$2f,r1
	add	r1,*$3f
	cmp	r1,r0
	bne	1b
	br	1b
2:	0
3:	0
"""

# many: calls on processes, and a choice among many

# Each nice makes the priority worse than that of the choice before, from -28 to -1; that of a child which has not run is 0.
RISES = """1:	mov	$-200,r1
2:	mov	r1,r0
	sys	nice
	inc	r1
	cmp	r1,$-145
	bne	2b
	br	1b
"""
STAYS = RISES.replace("nice", "getpid")
FORKS = """1:	sys	fork
	br	2f
	sys	wait
	br	1b
2:	sys	exit
"""


def many(program):
    beside = children(48, SLEEPS) + WORST
    for name, source, slots, parts in (
            ("MOV, ADD, CMP, BNE over memory, for one instruction", MEMORY, 4, 4),
            ("the same beside 48 children that sleep", beside + MEMORY, 4, 4),
            ("getpid and a branch", GETPID, 2, 1),
            ("the same beside 48 children that sleep", beside + GETPID, 2, 1),
            ("times and a branch", loop("sys\ttimes; 177000"), 2, 1),
            ("fork, BR, exit, wait, its end, BR, with 37 clicks", FORKS, 6, 1),
            ("the same beside 47 children that sleep", children(47, SLEEPS) + WORST + FORKS, 6, 1),
            ("MOV, getpid, INC, CMP, BNE", STAYS, 5, 1),
            ("MOV, nice with a choice among 1, INC, CMP, BNE", BEST + RISES, 5, 1),
            ("the same among 2", BEST + children(1, BRANCHES) + RISES, 5, 1),
            ("the same among 49", BEST + children(48, BRANCHES) + RISES, 5, 1)):
        yield Row(name, of_many(program, source, slots) / parts)


def of_many(program, source, slots, before=""):
    """What a round of a program costs that takes so many slots."""
    return cost(program, Run(source, ROUNDS * slots, before=before), ROUNDS)


# execs: exec, break and the growth of a stack

EXECS = 500


def executes(before="", arguments=1):
    """An exec of /etc/init itself with some arguments, after some lines."""
    return f"{before}\tsys\texec; 1f; 2f\n\tbr\t.\n1:\t</etc/init\\0>\n2:\t{'1b; ' * arguments}0\n"


def execs(program):
    for name, source, clicks, slots in (
            ("getpid and a branch", GETPID, 0, 2),
            ("exec of /etc/init, 40 clicks, one argument", executes(), 4, 1),
            ("the same with 50 arguments of 10 bytes", executes(arguments=50), 4, 1),
            ("the same of 43 clicks, one argument", executes(), 7, 1),
            ("exec that is refused: no such name", loop("sys\texec; 0; 0"), 0, 2),
            # the image has 37 clicks, 38 and again 37
            ("break by a click more, by one less, and a branch", loop("sys\tbreak; 101\n\tsys\tbreak; 100"), 0, 3),
            ("break where nothing changes, and a branch", loop("sys\tbreak; 100"), 0, 2),
            # the exec gives the stack back
            ("MOV, growth by 20 clicks, a push, exec of 40 clicks", executes("\tmov\t$175400,sp\n\tmov\tr0,-(sp)\n"), 4, 4),
            ("MOV, MOV, a push, exec of 40 clicks", executes("\tmov\t$177000,sp\n\tmov\tr5,-(sp)\n\tmov\tr0,-(sp)\n"), 4, 4)):
        yield Row(name, cost(program, Run(source, EXECS * slots, least=64 * clicks), EXECS))


# events: what comes from outside

EVENTS = 20_000
LINE = "x" * 15
CONSOLE = "\t0; 0; 0; 0\n2:\t</dev/tty8\\0\\0\\0\\0\\0\\0\\0>\n"
# the first slot is the exec
READS = f"""	sys	open; 2f; 2
1:	clr	r0
	sys	read; 3f; 100.
	br	1b
{CONSOLE}	.=.+30
3:	.=.+100.
"""
START = "run 4\n"


def of_events(program, source, before, lines, number):
    return cost(program, Run(source, lines=lines, before=before, core=1200, least=0o710), number)


def events(program):
    run = f"run {EVENTS}\n"
    for name, source, before, lines, number in (
            ("a slot in which nobody runs", READS, START, run, EVENTS),
            ("a tick with nobody running, by `clock 1` and its slot", READS, START + "clock 1\n", run, EVENTS),
            ("a branch", BRANCHES, "run 2\n", run, EVENTS),
            ("a branch and a tick, by `clock 1`", BRANCHES, "run 2\nclock 1\n", run, EVENTS),
            ("a line `tick`, read and taken", READS, START, "tick\n" * EVENTS, EVENTS),
            ("a line `byte 170`, read, and its key typed and shown", READS, START, "byte 170\n" * EVENTS, EVENTS),
            (f"a line of {len(LINE)} keys, typed, echoed and read", READS, START, f"type {LINE}\nrun 4\n" * 2000, 2000)):
        yield Row(name, of_events(program, source, before, lines, number))


# shared: an exec of a program whose text is shared already

# /etc/init and its child execute /prog. The child sleeps there, so that the text stays in core; its parent executes /prog again and again.
BEGINS = """	sys	fork
	br	1f
1:	sys	exec; 2f; 3f
2:	</prog\\0\\0\\0>
3:	2b; 0
"""
SHARED = """	sys	getpid
	cmp	r0,$2
	beq	1f
	sys	exec; 2f; 3f
	br	.
1:	mov	$-1,r0
	sys	sleep
	br	1b
2:	</prog\\0\\0\\0>
3:	2b; 0
"""


def shared(program):
    for clicks in (1, 100):
        def disk(program, run, folder, clicks=clicks):
            text = assembled(SHARED).ljust(64 * clicks, b"\0")
            with_files(program, folder, {"/etc/init": (0o407, assembled(BEGINS), b""), "/prog": (0o410, text, b"\0\0")})

        took, shares = difference(program, Run(BEGINS, EXECS * 4), "share 1 ", disk)
        yield Row(f"getpid, CMP, BEQ, exec of 37 clicks beside a shared text of {clicks} ({shares} shared)", took / EXECS)


# signals, and pipes; each round leaves a line in the log

SLOTS = 6000
CAUGHT = """	sys	signal; 5; 2f
1:	bpt
	br	1b
2:	rti
"""
KILLS = loop("clr\tr0\n\tsys\tkill; 2")  # of all with the same terminal
TALK = """	sys	break; 20000
	sys	pipe
	sys	fork
	br	2f
1:	mov	$1,r0
	sys	write; 10000; 512.
	br	1b
2:	mov	$0,r0
	sys	read; 10000; 512.
	br	2b
"""


def signals(program):
    for name, source, mark, parts in (
            ("getpid and a branch", GETPID, "trap 1$", 1),
            ("BPT caught, RTI and a branch", CAUGHT, "signal 1 5$", 1),
            ("CLR, kill of 48 that have ended, and a branch", children(48, "\tsys\texit\n") + WORST + KILLS, "signal 49 2$", 1),
            # a round moves 4,096 bytes, eight times 512
            ("512 bytes through a pipe between two processes", TALK, "wake read", 8)):
        took, rounds = difference(program, Run(source, SLOTS), mark, made)
        if rounds < SLOTS // 100:
            sys.exit(f"{name}: {rounds} rounds alone")
        yield Row(name, took / rounds / parts)


# swapping

# In a core of 64 clicks one image of 37 has room, and the others are out. Each three seconds the one in core changes places with the
# one that has been out for longest; in each of the other seconds the swapper looks and finds nothing to do.
CROWD = {1: "\tsys\tfork\n\tbr\t.\n" + BRANCHES, 48: "\tsys\tfork\n\tbr\t.\n" * 48 + BRANCHES}
CHANGE, CHANGES = ("tick\n" * 60 + "run 3\n") * 3, 40


def swapping(program):
    def of(source):
        return difference(program, Run(source, lines=CHANGE * CHANGES, before="run 200\n", core=64, least=0o710), "in ")

    alone = of(BRANCHES)[0]  # whose ticks are as many
    for others, source in CROWD.items():
        took, changes = of(source)
        yield Row(f"a change of places, with its three passes, among {others + 1} ({changes} counted)", (took - alone) / changes)


# terminal: a byte, from the process to the file

WRITES, PACED_SLOTS = 5_000, 21_000
SLOTS_BEFORE, SLOTS_OF_WRITE = 2, 3
PACED = "run 3\npace 1\n"
FEW, FEW_SLOTS, FEW_ROUNDS = (1, 29), 54, 500


def writes(byte, call="write", size="128.", mode=1):
    """Writes 128 bytes over and over; or reads one, which waits for good."""
    data = ",".join([f"{byte:o}"] * 128)
    return f"\tsys\topen; 2f; {mode}\n1:\tsys\t{call}; 3f; {size}\n\tclr\tr0\n\tbr\t1b\n{CONSOLE}3:\t.byte {data}\n"


def writes_few(size):
    """Writes fewer bytes than those at which somebody is woken, and counts down from 25, over and over."""
    data = ",".join(["101"] * 128)
    return f"""	sys	open; 2f; 1
1:	sys	write; 3f; {size}.
	clr	r0
	mov	$25.,r2
4:	dec	r2
	bne	4b
	br	1b
2:	</dev/tty8\\0\\0\\0\\0\\0\\0\\0>
3:	.byte {data}
"""


def of_terminal(program, source, before, slots, parts, line=0, command="run"):
    return cost(program, Run(source, slots, before=before, core=100, command=command, least=0o710, line=line), parts)


def terminal(program):
    """The first less the second is what showing costs. Under `pace 1` a byte goes out after each slot. A process that writes few bytes, and
    computes until they are out, isn't woken for them: printed is what each byte more costs there. One that writes many sleeps in its
    write but for one slot in 21, when it is woken and goes on: printed is such a slot, less one in which nobody runs and nothing
    waits, which is a byte with its part of a wake, of a choice, and of a write that goes on. On line 7 each such slot asks eight lines."""
    def shown(byte, line=0, command="run"):
        return of_terminal(program, writes(byte), f"run {SLOTS_BEFORE}\n", SLOTS_OF_WRITE * WRITES, 128 * WRITES, line, command)

    def few(line, command):
        rounds = [of_terminal(program, writes_few(size), PACED, FEW_SLOTS * FEW_ROUNDS, FEW_ROUNDS, line, command) for size in FEW]
        return (rounds[1] - rounds[0]) / (FEW[1] - FEW[0])

    yield Row("a byte that is shown", shown(0o101), 80)
    yield Row("a byte that isn't", shown(4))
    yield Row("a byte that is shown on line 0, under `run8`", shown(0o101, 0, "run8"), 80)
    yield Row("a byte that is shown on line 7", shown(0o101, 7, "run8"), 80)
    yield Row("a byte that goes out under `pace 1`", few(0, "run"), 200)
    yield Row("the same on line 7", few(7, "run8"))
    slots = [of_terminal(program, source, PACED, PACED_SLOTS, PACED_SLOTS) for source in (writes(0o101), writes(0o101, "read", "1", 0))]
    yield Row("a byte that goes out with its part of a wake", slots[0] - slots[1])


# waits for the disk: what they cost those that wait, and those that don't

OTHERS, LOOP_SLOTS = 48, 20_000
OPENED = "\tbr\t1f\n0:\t</etc/init\\0>\n1:\tsys\topen; 0b; 0\n"
READ_BYTE = "\tclr\tr0\n\tsys\tread; 2; 1\n"  # to where the name stands
SLEEPERS = children(OTHERS, SLEEPS) + WORST
READERS = OPENED + children(OTHERS, READ_BYTE + BRANCHES) + WORST
SEEKS = OPENED + loop(f"clr\tr0\n\tsys\tseek; 0; 0\n{READ_BYTE.rstrip()}")
LONG = "run 1\ndisk 1000000\n"  # the exec of /etc/init is before the line, and each wait is longer than the run


def judge(program, source, before, channel):
    """Ends the count where not just so many sleep for such a channel at the end of a run."""
    with tempfile.TemporaryDirectory() as folder:
        image, script, term, log, final = (os.path.join(folder, name) for name in ("image", "script", "term", "log", "final"))
        with open(image, "wb") as file:
            file.write(disk_of(assembled(source)))
        with open(script, "w", encoding="ascii") as file:
            file.write(f"{before}run {2 * SECOND}\n")
        subprocess.run([program, "run", image, "3968", script, term, log, final], check=True)
        with open(log, encoding="ascii") as file:
            lines = [line for line in file if channel in line]
    if [line.split()[0] for line in lines] != ["sleep"] * OTHERS:
        sys.exit(f"{len(lines)} lines of {channel}, and not {OTHERS} that sleep")


def loops(program):
    def row(name, first, before):
        costs = [cost(program, Run(first + MEMORY, slots, before=before + clock), slots) for slots, clock in ((LOOP_SLOTS, ""), (SECOND, CLOCK))]
        return Row(name, costs[0], 56, costs[1], 58)

    judge(program, SLEEPERS + MEMORY, "", " tout")
    judge(program, READERS + MEMORY, LONG, " disk.")
    for name, line in (("no line `disk`", ""), ("`disk 0`", "disk 0\n"), ("`disk 3`", "disk 3\n"), ("`pace 1`", "pace 1\n")):
        yield row(f"the loop over memory, {name}", "", line)
        yield row(f"the same beside {OTHERS} that sleep", SLEEPERS, line)
    yield row(f"the loop beside {OTHERS} that wait for the disk, `disk 1000000`", READERS, LONG)


def waits(program):
    yield from loops(program)
    idle = [of_events(program, READS, START + clock, f"run {slots}\n", slots) for slots, clock in ((LOOP_SLOTS, ""), (SECOND, CLOCK))]
    yield Row("a slot in which nobody runs", idle[0], 18, idle[1])
    # five slots; with a wait three in which nobody runs, and one in which the call is left
    read, waited = (of_many(program, SEEKS, slots, line) for slots, line in ((5, ""), (9, "disk 3\n")))
    yield Row("a wait of three slots in which nobody runs: a round with it, less one without", waited - read)
    yield Row("getpid, and a branch", of_many(program, GETPID, 2), 585)
    for name, most in (("read of 1 byte", 905), ("open of /etc/init", 3170)):
        yield Row(name, calls.cost(program, dict(calls.CALLS)[name]), most)
    tick = of_events(program, BRANCHES, "run 2\nclock 1\n", f"run {LOOP_SLOTS}\n", LOOP_SLOTS)
    yield Row("a tick under `clock 1`, with its branch", tick, 560)


TABLES = {table.__name__: table for table in (execs, events, many, shared, signals, swapping, terminal, waits)}
