"""Searches that look at each slot, and the stepper by which they do, beside what `v6 memory` tells. The slots of the programs here are
counted by hand."""
import contextlib
import os
import random
import signal
import unittest
import unittest.mock

from tests.common import TOP, V6, BeginsProcesses, read, tool, v6, words, write

from v6.debug import answers
from v6.debug import search as looksearch
from v6.debug import stepper
from v6.debug import walk as walk_module
from v6.debug.search import Search
from v6.debug.stepper import Stepper
from v6.debug.walk import Sought, Walk
from v6.host.parallel import in_order
from v6.run import history
from v6.run.history import History
from v6.run.moments import MomentError, Run

from judge.random.instructions import InstructionCase

look, as_main, disk_main = tool("look"), tool("as").main, tool("disk").main
# Each eighth time round calls a routine: 5 instructions each time, and 3 more then. The word `seen` becomes k in slot 42 + 43(k - 1).
COUNTS = b"""
	mov	$20000.,r4
1:	inc	count
	bit	$7,count
	bne	2f
	jsr	pc,eighth
2:	dec	r4
	bne	1b
	sys	getpid
	mov	r0,who
	br	.
eighth:	inc	seen
	rts	pc
	.data
count:	0
seen:	0
who:	0
"""


# Loops that make calls: of six instructions, of two, and of three after two that come first.
CALLS = b"""
	mov	$200.,r1
1:	sys	getpid
	sob	r1,1b
	sys	time
	mov	$200.,r1
2:	sys	getuid
	sob	r1,2b
	br	.
"""
WHO = b"1:\tsys\tgetpid\n\tsys\tgetuid\n\tsys\tgetgid\n\tmov\t$9.,r0\n\tsys\tclose\n\tbr\t1b\n"
TIME = b"1:\tsys\ttime\n\tbr\t1b\n"
LOOP = b"""
	sys	%s; name; 1
	mov	r0,r4
1:	mov	r4,r0
	sys	%s
	br	1b
name:	<%s\\0>
	.even
text:	<abcd\\n>
	.even
call:	sys	write; text; 5
"""
TERMINAL, FILE = LOOP % (b"open", b"write; text; 5", b"/dev/tty8"), LOOP % (b"creat", b"write; text; 5", b"/f")
INDIRECT, SEEKS = LOOP % (b"creat", b"indir; call", b"/f"), LOOP % (b"creat", b"seek; 7; 0", b"/f")
FILLS = b"""
	sys	creat; name; 666
	mov	r0,r4
1:	mov	r4,r0
	sys	write; text; 512.
	bes	full
	br	1b
full:	inc	text
	br	.
name:	</f\\0>
	.bss
text:	.=.+512.
"""


class Searches(BeginsProcesses):
    def disk(self, source):
        return self.disk_of(source, "-s")

    def slots(self, image, script, *commands):
        """Where these commands come to, one after the other."""
        words_ = [word for command in commands for word in ("-c", command)]
        status, out, error = self.call(look.main, "--v6", V6, image, "1200", script, *words_)
        self.assertEqual((status, error), (0, ""))
        return [int(line.split()[1]) for line in out.splitlines() if line.startswith("slot ")]

    def test_each_slot(self):
        """What comes and goes in one slot of many is found, forwards and backwards."""
        image, script = self.disk(self.put("counts.s", COUNTS)), self.put("script", b"clock 100\nrun 120000\n")
        self.assertEqual(self.slots(image, script, "slot 1", "until pc eighth", "until word seen", "until word seen 7", "until word seen 2000",
                                    "until word who", "slot 1000", "since pc eighth", "slot 1000", "since word seen",
                                    "slot 110000", "since word seen 3"),
                         [1, 41, 42, 300, 85999, 107504, 1000, 987, 1000, 988, 110000, 128])

    def test_in_parts(self):
        """Parts of a run that processes of their own go through at the same time, and what they keep for the next search."""
        image, script = self.disk(self.put("counts.s", COUNTS)), self.put("script", b"run 6000\n")
        commands = "slot 5000", "since word seen 3", "slot 5000", "since pc eighth", "since pc eighth", "slot 200", "since word seen 3", "slot 128"
        wanted = [5000, 128, 5000, 4986, 4943, 200, 128, 128]
        for kept in (walk_module.MOST_HITS, 2):
            with unittest.mock.patch.multiple(looksearch, NEAREST=10, LEAST=300, LONGEST=700), \
                    unittest.mock.patch.multiple(walk_module, MOST_HITS=kept), unittest.mock.patch.object(history, "WORKERS", 3):
                self.assertEqual(self.slots(image, script, *commands), wanted)
                found = self.call(look.main, "--v6", V6, image, "1200", script, "-c", "slot 5000", "-c", "since word who")
                self.assertEqual((found[0], found[2]), (1, "look.py: word who: not found before slot 5000\n"))
        self.none_left()

    def test_what_was_gone_through(self):
        """It isn't gone through again: each of these asks for what the first has found."""
        image = self.disk(self.put("counts.s", COUNTS))
        known, sought = History(Run(V6, image, 1200, b"run 6000\n", self.folder)), Sought(1, [(0o40, 0o40)])
        self.assertEqual(Search(known, known.moment(900), False).sought(sought), 858)
        with unittest.mock.patch.object(looksearch, "last", side_effect=AssertionError):
            found = [Search(known, known.moment(slots), False).sought(Sought(1, [(0o40, 0o40)])) for slots in (900, 858, 500, 42)]
        self.assertEqual(found, [858, 815, 471, 41])

    def test_a_process_that_fails(self):
        """What goes wrong in one of them is told here, and the others end."""
        def does(number):
            if number == 2:
                raise MomentError("the third")
            return number

        taken = []
        with self.assertRaisesRegex(MomentError, "the third"):
            for one in in_order(does, 5, 2, lambda number: lambda: None, MomentError):
                taken.append(one)
        self.assertEqual(taken, [0, 1])
        with self.assertRaisesRegex(RuntimeError, "ZeroDivisionError"):
            list(in_order(lambda number: 1 // number, 2, 2, lambda number: lambda: None, MomentError))
        with self.assertRaisesRegex(RuntimeError, "has ended"):
            list(in_order(lambda number: os._exit(1), 2, 2, lambda number: lambda: None, MomentError))
        self.none_left()

    def test_a_process_that_is_ended_at_once(self):
        """One that is told to end before it knows how goes no further, whatever an interrupt does where it was begun."""
        def forked():
            child = fork()
            if not child:
                os.kill(os.getpid(), signal.SIGTERM)
            return child

        def interrupted(*_):
            raise KeyboardInterrupt

        def stop():
            raise SystemExit

        fork, before = os.fork, signal.signal(signal.SIGTERM, interrupted)
        try:
            with unittest.mock.patch.object(os, "fork", forked), self.assertRaisesRegex(RuntimeError, "has ended"):
                list(in_order(lambda number: number, 5, 2, lambda number: stop, MomentError))
            with unittest.mock.patch.object(os, "fork", forked):  # these end after their work, and nobody reads what they find
                wide = contextlib.closing(in_order(lambda number: bytes(200_000), 50, 2, lambda number: lambda: None, MomentError))
                with wide as found:
                    self.assertEqual(next(found), bytes(200_000))
        finally:
            signal.signal(signal.SIGTERM, before)
        self.none_left()

    def test_calls_among_many(self):
        """The calls number k are getpid in slot 2k + 1 and, after `time` in slot 403, getuid in slot 2k + 403, each for 200 numbers."""
        image, script = self.disk(self.put("calls.s", CALLS)), self.put("script", b"run 1000\n")
        commands = ("slot 1", "until call time", "slot 900", "since call time", "slot 900", "since call exec", "slot 100", "since call getpid", "slot 9",
                    "until call getuid", "slot 900", "since call", "slot 900", "since call getpid of 1")
        for nearest, least, longest in ((looksearch.NEAREST, looksearch.LEAST, looksearch.LONGEST), (10, 100, 200)):
            parts = unittest.mock.patch.multiple(looksearch, NEAREST=nearest, LEAST=least, LONGEST=longest)
            with parts, unittest.mock.patch.object(history, "WORKERS", 3):
                self.assertEqual(self.slots(image, script, *commands), [1, 402, 900, 402, 900, 0, 100, 98, 9, 404, 900, 802, 900, 400])
                for call, whose in (("call exit", ""), ("call time", " of 2")):
                    found = self.call(look.main, "--v6", V6, image, "1200", script, "-c", "slot 900", "-c", f"since {call}{whose}")
                    self.assertEqual((found[0], found[2]), (1, f"look.py: {call}: not found before slot 900\n"))

    def test_breaks_and_watches(self):
        """`eighth` is at 040; PC comes there in slot 41 and each 43 later, and after its first instruction in the next."""
        image, script = self.disk(self.put("counts.s", COUNTS)), self.put("script", b"run 2000\n")
        commands = ("break eighth", "slot 1", "break eighth+4", "until break", "until break", "until break", "since break",
                    "unbreak eighth+4", "slot 84", "since break", "unbreak", "watch seen", "until watch", "slot 1000", "since watch",
                    "slot 1", "watch count", "until watch", "until watch")
        self.assertEqual(self.slots(image, script, *commands), [1, 41, 42, 84, 42, 84, 41, 42, 1000, 988, 1, 3, 8])
        commands = ("break eighth", "slot 1", "break 044", "until break", "unbreak 040", "until break of 2", "unbreak 040",
                    "until watch")
        status, out, error = self.call(look.main, "--v6", V6, image, "1200", script, *[word for one in commands for word in ("-c", one)])
        self.assertEqual((status, out.splitlines()[0]), (1, "  break 000040 of process 1"))
        breaks = ["  break 000040 of process 1: eighth", "  break 000044 of process 1: eighth+4"]
        self.assertEqual([line for line in out.splitlines()[1:] if "break" in line], [*breaks, breaks[0], breaks[1]])
        self.assertEqual(error, "look.py: no break of process 2 is set\nlook.py: 040: no break of process 1 is there\n"
                                "look.py: no word is watched\n")

    def shown(self, image, script, *commands):
        """The lines that commands show but for those that tell a moment and lines of the log, and what is said."""
        status, out, error = self.call(look.main, "--v6", V6, image, "1200", script, *[word for one in commands for word in ("-c", one)])
        return [line for line in out.splitlines() if not line.startswith(("slot", "    "))], error

    def test_what_stored_a_word(self):
        """The instruction is told with its name, also backwards, or a call that had begun before. `seen` is stored at 040, and `count`
        at 04; process 1 waits in its read with PC after it, at 030."""
        image, script = self.disk(self.put("counts.s", COUNTS)), self.put("script", b"run 2000\n")
        lines, error = self.shown(image, script, "slot 1", "until word seen", "slot 1000", "since word seen", "slot 1", "watch count",
                                  "watch who", "until watch")
        self.assertEqual([line for line in lines if "from" in line], 2 * ["  from pc 000040: eighth"] + ["  from pc 000004"])
        image, script = self.disk(os.path.join(TOP, "docs", "lions", "src", "pair.s")), self.put("script", b"run 60\ntype one\nrun 60\n")
        self.assertEqual(self.shown(image, script, "until word which+2 of 1", "since word which+2 of 1"),
                         (["  from pc 000030, in its call read"], "look.py: word which+2: not found before slot 61\n"))
        lines, _ = self.shown(image, script, "slot 20", "watch which+2 of 2", "watch which+2 of 1", "watch which+4 of 1", "until watch")
        self.assertEqual([line for line in lines if "from" in line], ["  from pc 000030, in its call read"])  # of process 1, once

    def test_a_process_that_comes_later(self):
        """A search and a break look on for it, and the moment stays where it never comes."""
        image = self.disk(os.path.join(TOP, "docs", "lions", "src", "pair.s"))
        script = self.put("script", b"run 60\ntype one\nrun 60\ntype two\nrun 60\n")
        self.assertEqual(self.slots(image, script, "until pc 040 of 2", "slot 0", "break 040 of 2", "slot", "until break"), [125, 0, 0, 125])
        self.assertEqual(self.shown(image, script, "until pc 040 of 3", "break 040 of 3"),
                         ([], 2 * "look.py: process 3 isn't there in slot 0, and never in this run\n"))

    def test_where_another_runs_then(self):
        """Process 1 comes to `after` by its read, which waits, so that process 2 runs: the place that is told is that of process 1."""
        source = read(os.path.join(TOP, "docs", "lions", "src", "pair.s")).replace(b"\tinc\tr0", b"after:\tinc\tr0")
        image, script = self.disk(self.put("pair.s", source)), self.put("script", b"run 60\n")
        self.assertEqual(self.shown(image, script, "slot 2", "until pc after"), (["  pc 000030: after"], ""))

    def test_a_name_of_another_program(self):
        """It is said which programs of the disk have it, where they are few."""
        image, script = self.disk(self.put("counts.s", COUNTS)), self.put("script", b"run 20\n")
        self.assertEqual(self.call(as_main, "-s", "-o", self.path("it"), self.put("it.s", b"other:\tsys\texit\n")), (0, "", ""))
        for number, have in enumerate(("", "; /1 has, see `of N`", "; /1 and /2 have, see `of N`", "; /1 and /2 and /3 have, see `of N`", "")):
            if number:
                self.assertEqual(self.call(disk_main, "--v6", V6, "put", image, self.path("it"), f"/{number}"), (0, "", ""))
            self.assertEqual(self.shown(image, script, "slot 1", "until pc other"), ([], f"look.py: other: /etc/init has no such name{have}\n"))

    def test_what_is_not_found(self):
        image, script = self.disk(self.put("counts.s", COUNTS)), self.put("script", b"run 2000\n")
        words_ = "--v6", V6, image, "1200", script, "-c", "slot 1", "-c", "until word seen 60", "-c", "slot 300", "-c", "since word who"
        self.assertEqual(self.call(look.main, *words_)[::2], (1, "look.py: word seen 60: not found after slot 1\n"
                                                                 "look.py: word who: not found before slot 300\n"))

    def test_two_processes(self):
        """Each moment of the two readers is asked for one by one, and the same is found."""
        image = self.disk(os.path.join(TOP, "docs", "lions", "src", "pair.s"))
        known = History(Run(V6, image, 1200, b"run 12\ntype one\nrun 14\ntick\ntype two\nrun 14\n", self.folder))
        seen = {number: [self.pc(known.moment(slots), number) for slots in range(41)] for number in (1, 2)}
        for number, low, high in ((1, 0o20, 0o20), (1, 0o40, 0o46), (2, 0o20, 0o32), (2, 0o36, 0o50)):
            is_in = [pc is not None and low <= pc <= high for pc in seen[number]]
            wanted = [slots for slots in range(1, 41) if is_in[slots] and not is_in[slots - 1]]
            self.assertTrue(wanted)
            for few, near in ((walk_module.FEW, walk_module.NEAR), (-1, walk_module.NEAR), (100, 1)):  # by the log where others do much
                with unittest.mock.patch.multiple(walk_module, FEW=few, NEAR=near):
                    self.assertEqual(list(Walk(known, 0, Sought(number, [(low, high)])).hits(40)), wanted, (number, low, few))
        at = {1: 0o40, 2: 0o36}  # breaks of both
        wanted = [slots for slots in range(1, 41) if any(seen[one][slots] == at[one] != seen[one][slots - 1] for one in at)]
        both = [Sought(number, [(place, place)]) for number, place in at.items()]
        for forwards, nearest in ((True, wanted[0]), (False, wanted[-1])):
            moment = known.moment(0 if forwards else 40)
            self.assertEqual(Search(known, moment, forwards).sought(*both), nearest)

    def pc(self, moment, number):
        process = moment.process(number)
        return process.pc if process and process.parts else None

    def test_random_instructions(self):
        """Programs of random instructions, with faults that are caught: registers, codes and memory at moments of each run."""
        for seed in (3, 8):
            case = InstructionCase(seed)
            image = self.path("random")
            with open(image, "wb") as out:
                out.write(case.image)
            known = History(Run(V6, image, case.core, b"run 400\n", self.folder))
            walk, compared = Walk(known, 0), 0
            while walk.at < 400:
                walk.go(min(400, walk.at + 1 + random.Random(f"{seed} {walk.at}").randrange(6)))
                slot = walk.table.running
                if slot and walk.at % 5 == 0:
                    compared += 1
                    self.same(walk.stepper(slot), known.moment(walk.at).process(walk.table.rows[slot].number), (seed, walk.at))
            self.assertGreater(compared, 15)

    def same(self, one, process, where):
        self.assertEqual((one.registers[:8], one.code()), (process.registers, process.u[16] & 15), where)
        self.assertEqual(one.changes(process), {}, where)

    def gone_through(self, source, script, slots, is_due=walk_module.is_due):
        """How many runs of memory it takes to go through a run of a program, and how many answers of each call were known."""
        walk = Walk(History(Run(V6, self.disk(self.put("calls.s", source)), 1200, script, self.folder)), 2, Sought(1, words={0: None}))
        with unittest.mock.patch.object(Run, "memory", autospec=True, side_effect=Run.memory) as asked, \
                unittest.mock.patch.object(walk_module, "is_due", is_due):
            self.assertEqual(list(walk.hits(slots)), [])
            walk.check()
        return asked.call_count, dict(walk.answered)

    def test_answers_that_are_known(self):
        """They are asked for now and then alone; all are right, as they are compared where each of them is asked for. The first four writes
        tell that a file is one that can be written, the first seek that it is no pipe, and the first time when the run began."""
        for source, script, slots, known in ((WHO, b"run 400\n", 400, {"getuid": 67, "getgid": 67, "getpid": 66, "close": 66}),
                                             (TIME, b"clock 5\nrun 700\n", 700, {"time": 348}), (SEEKS, b"run 400\n", 400, {"seek": 131}),
                                             *((writes, b"run 400\n", 400, {"write": 128}) for writes in (TERMINAL, FILE, INDIRECT))):
            asked, found = self.gone_through(source, script, slots)
            self.assertEqual(found, known)
            self.assertLess(asked, 50)
            every, found = self.gone_through(source, script, slots, is_due=lambda count: True)
            self.assertEqual(found, known)
            self.assertGreater(every, sum(known.values()))

    def test_parts_that_follow(self):
        """Those that one process goes through ask for known answers as often as one long part: here of each call for the 64th alone, beside
        where the part begins and ends."""
        known, asked = History(Run(V6, self.disk(self.put("who.s", WHO)), 1200, b"run 400\n", self.folder)), []
        for low, high in ((2, 200), (200, 400)):
            with unittest.mock.patch.object(Run, "memory", autospec=True, side_effect=Run.memory) as memory:
                self.assertEqual(walk_module.last(known, Sought(1, words={0: None}), low, high)[1], [])
            asked.append(memory.call_count)
        self.assertGreater(asked[0], 20)
        self.assertLess(asked[1], 8)

    def test_a_known_answer_that_is_another(self):
        """It is told where it is compared: the first time, or after the last one that was taken."""
        for due in (walk_module.is_due, lambda count: False):
            with unittest.mock.patch.dict(answers.KNOWN, getuid=lambda one, process, call: (7, process.registers[1], 0)):
                with self.assertRaisesRegex(MomentError, "followed from slot 2 on differs from what the program tells: process 1 has other registers"):
                    self.gone_through(WHO, b"run 400\n", 3, is_due=due)

    def test_a_disk_that_fills(self):
        """A write that may find no room is asked for. Each write of the file takes a block, and the ninth one more; the last is refused."""
        program, folder = self.path("program"), self.path("from")
        os.makedirs(folder + "/etc")
        self.assertEqual(self.call(as_main, "-s", "-o", program, self.put("fills.s", FILLS)), (0, "", ""))
        write(folder + "/etc/init", read(program))
        os.chmod(folder + "/etc/init", 0o755)
        image, script = self.path("image"), self.put("script", b"run 1000\n")
        for blocks in (60, 160):
            self.assertEqual(self.call(disk_main, "--v6", V6, "new", "--replace", image, folder, "--blocks", str(blocks), "--inodes", "16"), (0, "", ""))
            count = int(v6("check", image)[1].split()[3]) - 1
            self.assertEqual(self.slots(image, script, "slot 1", "until pc full", "slot 999", "since pc full"), [1, 6 + 4 * count, 999, 6 + 4 * count])

    def test_a_difference(self):
        """Where a stepper does an instruction in another way than the program, that is said at the next call."""
        image, script = self.disk(self.put("p.s", b"\tsys\tgetpid\n\tinc\tr3\n\tsys\tgetpid\n\tbr\t.\n")), self.put("script", b"run 20\n")
        self.assertEqual(self.slots(image, script, "slot 1", "until pc 6"), [1, 4])
        wrong = {0o5203: lambda r, memory, kept, p: r.__setitem__(7, p + 2) or 1}  # inc r3 that does nothing
        with unittest.mock.patch.dict(stepper.SINGLES, wrong):
            self.assertEqual(self.call(look.main, "--v6", V6, image, "1200", script, "-c", "until pc 6")[::2], (1,
                             "look.py: slot 4: what was followed from slot 0 on differs from what the program tells: process 1 has other "
                             "registers or words\n"))


class Rows(unittest.TestCase):
    """Instructions in a row do what each of them does alone, and calls that a process stands at."""

    def stepper(self, text, codes=0, ranges=()):
        process = unittest.mock.Mock(registers=[0, 1, 2, 3, 4, 5, 64, 0], u=bytes(16) + bytes([codes]), text=0, pending=0,
                                     data=words(text).ljust(128, b"\0"), parts=[(0, 128, 0)])
        return Stepper(process, ranges)

    def test_bytes(self):
        """From odd addresses too, up to where nothing is, and from the last address to the first."""
        process = unittest.mock.Mock(registers=[0] * 8, u=bytes(17), text=0, pending=0, data=b"ab\0dwxyz", parts=[(0, 4, 0), (65532, 4, 4)])
        one = Stepper(process)
        found = [one.bytes(at, most) for at, most in ((0, 4), (1, 2), (3, 9), (4, 2), (65533, 5), (65535, 1), (65536, 2), (0, 0))]
        self.assertEqual(found, [b"ab\0d", b"b\0", b"d", b"", b"xyzab", b"z", b"ab", b""])
        self.assertEqual((one.string(65534), one.string(3)), (b"yzab", b"d"))

    def test_calls(self):
        """Also one that is indirect; not what is no call, has words that aren't there, or is indirect twice."""
        for text, wanted in (("104404 000100 000005", ("write", [64, 5], 6)), ("104400 000004 104404 000100 000005", ("write", [64, 5], 4)),
                             ("104424", ("getpid", [], 2)), ("104400 000000", None), ("010001", None), ("104471", None), ("104400 000003", None),
                             ("104400 000002", None), ("104400 000176 " + "000000 " * 61 + "104404", None)):
            self.assertEqual(answers.made(self.stepper(text)), wanted, text)

    def test_many_ranges(self):
        """Each of them is come to, of however many."""
        one = self.stepper("005201 " * 12, ranges=[(at, at) for at in range(2, 24, 2)])
        self.assertEqual([(one.run(100), one.hit, one.pc) for _ in range(11)], [(1, "pc", at) for at in range(2, 24, 2)])

    def test_rows(self):
        text = "005201 060102 010203 006303 005504 020304 100401 005205 077011 000240 000777"
        for codes in range(16):
            one, other = self.stepper(text, codes), self.stepper(text, codes)
            other.make(0)
            one.registers[0] = other.registers[0] = 300
            done = other.run(2000)
            with unittest.mock.patch.multiple(stepper, HOT=-1, ROWS={}):
                self.assertEqual(one.run(2000), done)
            self.assertEqual((one.registers[:8], one.code()), (other.registers[:8], other.code()))
            self.assertIn(0, other.rows)
            self.assertNotIn(0, one.rows)

    def test_a_program_that_changes_itself(self):
        """inc of a word that was executed: mov r1,r2 becomes mov r1,r3."""
        one = self.stepper("010102 005237 000000 000774")
        one.make(0)
        self.assertEqual(one.run(4), 4)
        self.assertEqual((one.registers[2], one.registers[3], one.words[0]), (1, 1, 0o010103))
