"""trace.py: the moments of a run, calls in memory, and what is told of them. Slots and registers are by hand, from the programs."""
import os
import re
import unittest
import unittest.mock

from tests.common import TOP, V6, Case, read, tool, v6, with_init, words, write

from v6.debug import tracer
from v6.debug.calls import FORMS, Call, answer, call_at
from v6.disk.volume import gathered
from v6.host import files
from v6.log.processes import Place, Row, Text
from v6.pdp11.names import ARGUMENTS, CALLS
from v6.run.moments import Memory, MomentError, Run, Script

trace, as_main, disk_main = tool("trace"), tool("as").main, tool("disk").main
HI = os.path.join(TOP, "examples", "hi")
SOURCES = os.path.join(TOP, "docs", "lions", "src")
TYPED = b"run 60\ntype one\nrun 60\ntype two\nrun 60\n"
# Each process opens, forks or not, and goes round: clr, read, inc, mov, clr, write, br. The parent has a movb before, the child a br.
TOLD = """\
  1 [1] exec("/etc/init", ["/etc/init"]) = done
  2 [1 /etc/init] open("/dev/tty8", 2) = 0
  3 [1 /etc/init] fork() = 2
  6 [1 /etc/init] read(0, 063, 100) waits for keys
  9 [2 /etc/init] read(0, 063, 100) waits for keys
 61 [1 /etc/init] read(0, 063, 100) = 4 "one\\n", after 55 slots for keys
 62 [2 /etc/init] read(0, 063, 100) waits for keys again
 66 [1 /etc/init] write(0, "Pone\\n", 5) = 5
 69 [1 /etc/init] read(0, 063, 100) waits for keys
121 [2 /etc/init] read(0, 063, 100) = 4 "two\\n", after 112 slots, 2 times for keys
122 [1 /etc/init] read(0, 063, 100) waits for keys again
126 [2 /etc/init] write(0, "Ctwo\\n", 5) = 5
129 [2 /etc/init] read(0, 063, 100) waits for keys
"""
# Of the memory of examples/hi after each of its first slots the registers R0 and PC, the clicks of the stack, and the codes.
HELD = {0: (0, 0, 0, 0), 1: (0, 0, 20, 0), 2: (0, 6, 20, 0), 3: (3, 12, 20, 0), 4: (0, 16, 20, 4)}
# A program whose memory after so many slots is what stands in a file.
STANDS = """[ "$2" = memory ] || exec "$@"
cp "{}/memory.$(awk '$1 == "run" {{ slots += $2 }} END {{ print slots + 0 }}' "$5")" "$6"
"""
OLD = b'[ "$2" != memory ] || exit 1\nexec "$@"\n'
ICODE = words("104413 000014 000010 000777 000014 000000 062457 061564 064457 064556 000164")
PROGRAM = words("104405 000022 000001 104404 000034 000003 012700 000000 104401") + b"/dev/tty8\0hi\n\0"
WAITS = b"""
	sys	open; tty; 2
	sys	signal; 2; ROUTINE
2:	sys	getpid
	br	2b
1:	sys	getuid
	br	2b
tty:	</dev/tty8\0>
"""
HAS_MEMORY = v6("memory", os.devnull, "63", os.devnull, os.devnull)[0] != 1


class Cuts(unittest.TestCase):
    def test_cut(self):
        script = Script(b"clock 5\nrun 10\n; a word\nrun 0\ntype a\nrun 3\ntick")
        self.assertEqual(script.slots, 13)
        for slots, more, wanted in ((0, False, b""), (0, True, b"clock 5\n"), (4, False, b"clock 5\nrun 4\n"),
                                    (4, True, b"clock 5\nrun 4\n"), (10, False, b"clock 5\nrun 10\n"),
                                    (10, True, b"clock 5\nrun 10\n; a word\nrun 0\ntype a\n"),
                                    (11, False, b"clock 5\nrun 10\n; a word\nrun 0\ntype a\nrun 1\n"),
                                    (13, True, b"clock 5\nrun 10\n; a word\nrun 0\ntype a\nrun 3\ntick\n")):
            self.assertEqual(script.cut(slots, more), wanted, (slots, more))


class Folders(Case):
    def test_a_short_image(self):
        """Whole blocks up to the last that isn't zeros; one that is too long stays so."""
        for data, size in ((b"", 0), (bytes(2000), 0), (b"a" + bytes(2000), 512), (bytes(511) + b"a" + bytes(512), 512), (bytes(512) + b"a" + bytes(900), 1024),
                           (b"a" + bytes(99), 100), (b"a" + bytes(files.DISK - 1), 512), (b"a" + bytes(files.DISK), files.DISK + 1)):
            self.assertEqual(files.short(data), data[:size])

    def test_a_gathered_disk(self):
        """It has the same files and as much room, and is shorter; a run of it is the same: the log, what is shown, memory, and the files that
        are left."""
        shell = os.path.join(TOP, "examples", "shell")
        disk = self.put("disk", with_init(read(os.path.join(SOURCES, "twenty.s")), None))
        for number, (image, script) in enumerate(((os.path.join(shell, "image"), os.path.join(shell, "script")), (disk, self.put("script", b"run 400\n")))):
            other, seen = self.put("other", files.short(gathered(read(image)))), []
            self.assertLess(len(read(other)), len(files.short(read(image))) + 1)
            self.assertEqual(v6("check", other), v6("check", image))
            for name in (image, other):
                term, log, final, memory = (self.path(one) for one in ("term", "log", "final", "memory"))
                self.assertEqual(v6("run", name, "1200", script, term, log, final), (0, ""))
                self.assertEqual(v6("memory", name, "1200", script, memory), (0, ""))
                self.assertEqual(self.call(disk_main, "--v6", V6, "get", final, "/", self.path(f"out{number}{len(seen)}"), "--table",
                                           self.path("table"))[0], 0)
                out = self.path(f"out{number}{len(seen)}")
                held = {os.path.relpath(os.path.join(place, one), out): read(os.path.join(place, one)) for place, _, names in os.walk(out) for one in names}
                seen.append((read(term), read(log), read(memory), held, read(self.path("table")), v6("check", final)))
            self.assertEqual(*seen)
        self.assertLess(len(read(other)), 200 * 512)  # of 4,000 blocks, of which few are used

    def test_a_folder_in_memory(self):
        """It is there where the host has room, and nobody wants another place."""
        os.mkdir(self.path("memory"))
        for words_, room, wanted in (({}, 0, True), ({}, 2**62, False), ({"TMPDIR": self.folder}, 0, False)):
            with unittest.mock.patch.dict(os.environ), unittest.mock.patch.multiple(files, IN_MEMORY=self.path("memory"), ROOM=room):
                os.environ.pop("TMPDIR", None)
                os.environ.update(words_)
                with files.folder_of_runs() as name:
                    self.assertEqual(os.path.dirname(name) == self.path("memory"), wanted)
        with unittest.mock.patch.dict(os.environ), unittest.mock.patch.object(files, "IN_MEMORY", self.path("none")):
            os.environ.pop("TMPDIR", None)
            with files.folder_of_runs() as name:
                self.assertTrue(os.path.isdir(name))


class Words(unittest.TestCase):
    def test_forms(self):
        """Each call has a form, with as many words as it has arguments."""
        self.assertEqual(set(FORMS), set(CALLS) - {"indir"})
        for name, form in FORMS.items():
            self.assertEqual(len(form.partition(":")[2]), ARGUMENTS.get(name, 0), name)

    def process(self, data, stack=b"", registers=(0,) * 8, codes=0, pending=0, text=None):
        """A process at click 3 of a core of 64, with whole clicks of data and of stack."""
        clicks = len(text or b"") // 64, len(data) // 64, len(stack) // 64
        u = b"".join(one.to_bytes(2, "little") for one in (*registers, 0o170000 | codes, 0, 0, 0, *clicks)) + bytes([pending])
        core = bytearray(64 * 64 + 446464)
        image = u.ljust(1024, b"\0") + data + stack
        core[128 : 128 + len(image)] = image
        if text:
            core[64 * 40 : 64 * 40 + len(text)] = text
        row = Row(1, 0, 16, Place("at", 3), text=0 if text else None)
        return Memory(bytes(core), 64).process(row, Text(clicks[0], 4000, 1, 1, 41) if text else None)

    def test_addresses(self):
        """Of docs/manual/core.md: with 2 clicks of data and 20 of stack the address 64256 is byte 128 after the u area."""
        one = self.process(bytes(range(128)), bytes([7]) + bytes(1279))
        self.assertEqual([one.byte(at) for at in (0, 127, 128, 64255, 64256, 65535, 65536)], [0, 127, None, None, 7, 0, 0])
        self.assertEqual((one.word(2), one.word(3), one.word(126), one.word(128)), (0o1402, None, 127 << 8 | 126, None))
        two = self.process(bytes([9] * 64), text=bytes([5] * 128))
        self.assertEqual([two.byte(at) for at in (0, 127, 128, 8191, 8192, 8255, 8256)], [5, 5, None, None, 9, 9, None])

    def test_out_of_core(self):
        core = bytearray(64 * 64 + 446464)
        core[64 * 64 + 5 * 512 : 64 * 64 + 5 * 512 + 2] = b"\x34\x12"
        one = Memory(bytes(core), 64).process(Row(1, 0, 16, Place("swap", 4005)))
        self.assertEqual(one.registers[0], 0x1234)

    def call(self, text, r0=0, at=0, r1=0):
        """The call at an address of data of these words, with a name at 20 and another at 26."""
        data = words(text).ljust(20, b"\0") + b"/a\tb\0\0c\"\0"
        call = call_at(self.process(data.ljust(64, b"\0"), registers=(r0, r1, 0, 0, 0, 0, 0, at)))
        return call and call.told()

    def test_calls(self):
        for text, r0, wanted in (("104405 000024 000002", 0, 'open("/a\\tb", 2)'), ("104404 000024 000004", 1, 'write(1, "/a\\tb", 4)'),
                                 ("104403 000024 000004", 5, "read(5, 024, 4)"), ("104411 000024 000032", 0, 'link("/a\\tb", "c\\"")'),
                                 ("104423 177777 000001", 3, "seek(3, -1, 1)"), ("104410 000032 000644", 0, 'creat("c\\"", 0644)'),
                                 ("104442", 0o177773, "nice(-5)"), ("104421 010000", 0, "break(010000)"), ("104401", 768, "exit(768)"),
                                 ("104400 000006 000000 104406", 4, "close(4)"), ("104471", 0, "call 57()"), ("010001", 0, None)):
            self.assertEqual(self.call(text, r0), wanted, text)
        self.assertEqual(self.call("000000 000000 000000 000000 104413 000024 000016 000024 000032 000000", at=8),
                         'exec("/a\\tb", ["/a\\tb", "c\\""])')
        self.assertEqual(self.call("104431", r0=1, r1=2), "stime(65538)")

    def test_answers(self):
        for name, r0, r1, wanted in (("open", 3, 0, "3"), ("close", 3, 0, "done"), ("wait", 2, 0o1400, "2, status 01400"),
                                     ("time", 1, 2, "65538"), ("getuid", 0o1002, 0, "2, effective 2"), ("csw", 8, 0, "010")):
            self.assertEqual(answer(Call(name, []), self.process(bytes(64), registers=(r0, r1, 0, 0, 0, 0, 0, 0))), wanted)
        one = self.process(b"ab\n".ljust(64, b"x"), registers=(40, 0, 0, 0, 0, 0, 0, 0))
        self.assertEqual(answer(Call("read", [], buffer=0), one), '40 "ab\\n' + "x" * 29 + '"..')
        for error, wanted in ((2, "ENOENT"), (26, "ETXTBSY"), (50, "error 50")):
            one = self.process(bytes(64), registers=(error, 0, 0, 0, 0, 0, 0, 0), codes=1)
            self.assertEqual(answer(Call("open", []), one), wanted)


class Traces(Case):
    def trace(self, *words_):
        return self.call(trace.main, *words_)

    def disk(self, source):
        """A disk whose first program is one of docs/lions."""
        return self.disk_of(os.path.join(SOURCES, source))

    def pair(self):
        return self.disk("pair.s"), self.put("typed", TYPED)

    def test_slots(self):
        """When each line of the log came, by the slots of the program."""
        image, script = self.pair()
        run = Run(V6, image, 1200, read(script), self.folder)
        turns = [number for number, line in enumerate(run.lines) if line.split()[0] in ("trap", "sleep") and line.split()[1] != "0"]
        slots = run.slots_of(turns)
        self.assertEqual([slots[line] for line in turns], [int(line.split()[0]) for line in TOLD.splitlines()])
        self.assertEqual(run.slots_of([0, 2]), {0: 0, 2: 0})

    def test_a_run_of_another_disk(self):
        """Where the disk becomes another one, the run is of the disk that it began with; of one that has become another meanwhile it's said."""
        image, script = self.pair()
        run = Run(V6, image, 1200, read(script), self.folder)
        write(image, read(os.path.join(HI, "image")))
        self.assertEqual(run.count(70), 26)  # docs/lions/slp.md: up to the choice after the read that waits in slot 69
        write(run.disks[0], read(image))
        with self.assertRaisesRegex(MomentError, "the run isn't the same each time; has the disk changed?"):
            run.count(71)

    def stands(self):
        for slots, (r0, pc, stack, codes) in HELD.items():
            u = bytearray(1024)
            u[0:2], u[14:16], u[16:18] = (one.to_bytes(2, "little") for one in (r0, pc, 0o170000 | codes))
            u[26], u[28] = 1, stack
            self.put(f"memory.{slots}", bytes(u + (PROGRAM if slots else ICODE).ljust(64, b"\0")).ljust(64 * 1200 + 446464, b"\0"))
        return self.put("stands.sh", STANDS.format(self.folder).encode())

    def test_by_hand(self):
        """What is told where the memory of each moment is given by hand."""
        stands = f"sh {self.stands()} {V6}"
        words_ = "--v6", stands, os.path.join(HI, "image"), "1200", os.path.join(HI, "script")
        told = (' 1 [1] exec("/etc/init", ["/etc/init"]) = done\n 2 [1 /etc/init] open("/dev/tty8", 1) = 0\n'
                ' 3 [1 /etc/init] write(0, "hi\\n", 3) = 3\n 5 [1 /etc/init] exit(0)\n')
        self.assertEqual(self.trace(*words_), (0, told, ""))
        with unittest.mock.patch.object(tracer, "AT_ONCE", 1):
            self.assertEqual(self.trace("--from", "8", "--to", "9", *words_), (0, "".join(told.splitlines(True)[1:3]), ""))
        self.assertEqual(self.trace("--process", "2", *words_), (1, "", "trace.py: process 2 makes no call there\n"))

    def test_page(self):
        """The page shows what is told of the two readers."""
        page = read(os.path.join(TOP, "docs", "tools", "trace.md")).decode()
        self.assertIn("\n\n" + TOLD + "```\n", page)

    @unittest.skipUnless(HAS_MEMORY, "v6 has no command memory yet")
    def test_two_readers(self):
        image, script = self.pair()
        self.assertEqual(self.trace("--v6", V6, image, "1200", script), (0, TOLD, ""))
        some = "--v6", V6, "--from", "18", "--to", "22", image, "1200", script
        self.assertEqual(self.trace(*some)[1].splitlines(), TOLD.splitlines()[5:7])
        with unittest.mock.patch.object(tracer, "SLOTS_A_TURN", 0):  # as in a long run with few calls
            self.assertEqual(self.trace("--v6", V6, image, "1200", script), (0, TOLD, ""))
            # from the middle on, it isn't known when a call that waits already began
            told = [" 61 [1 /etc/init] read(0, 063, 100) = 4 \"one\\n\"", " 62 [2 /etc/init] read(0, 063, 100) waits for keys"]
            self.assertEqual(self.trace(*some)[1].splitlines(), told)
        told = [line for line in TOLD.splitlines() if "[2 " in line]
        self.assertEqual(self.trace("--v6", V6, "--process", "2", image, "1200", script)[1].splitlines(), told)

    @unittest.skipUnless(HAS_MEMORY, "v6 has no command memory yet")
    def test_an_image_that_grows(self):
        """The child exits with its R0, which is the number of its parent, and the parent with that of its child."""
        status, out, error = self.trace("--v6", V6, self.disk("grow.s"), "1200", self.put("script", b"run 60\n"))
        self.assertEqual((status, error), (0, ""))
        self.assertEqual([line.replace(" /etc/init]", "]").split(None, 2) for line in out.splitlines()[1:]], [
            ["2", "[1]", "fork() = 2"], ["3", "[1]", "break(010000) = done"], ["4", "[1]", "break(02000) = done"],
            ["5", "[1]", "wait() waits for a child"], ["7", "[2]", "exit(1)"],
            ["8", "[1]", "wait() = 2, status 0400, after 3 slots for a child"], ["9", "[1]", "break(04000) = done"],
            ["11", "[1]", "a larger stack: the image has 90 clicks"], ["13", "[1]", "break(010000) = done"], ["14", "[1]", "exit(2)"]])

    @unittest.skipUnless(HAS_MEMORY, "v6 has no command memory yet")
    def test_signals(self):
        """A fault whose routine goes on, a call after it, and a fault by which the process ends."""
        source = self.put("signals.s", b"\tsys\tsignal; 5; 1f\n\t3\n\tsys\tgetpid\n\ttst\t1\n1:\t2\n")
        status, out, error = self.trace("--v6", V6, self.disk(source), "1200", self.put("script", b"run 20\n"))
        self.assertEqual((status, error), (0, ""))
        self.assertEqual([line.replace(" /etc/init]", "]").split(None, 2) for line in out.splitlines()[1:]], [
            ["2", "[1]", "signal(5, 016) = 0"], ["3", "[1]", "a fault, which is signal 5"], ["5", "[1]", "getpid() = 1"],
            ["6", "[1]", "ends by signal 10"]])

    @unittest.skipUnless(HAS_MEMORY, "v6 has no command memory yet")
    def test_waits_that_a_slot_ends(self):
        """For the disk: an exec in slot 1, up to the end of slot 4. For room on the terminal: 51 bytes wait in slot 3, and 30 are left after
        slot 23."""
        script = self.put("script", b"disk 3\nrun 20\n")
        self.assertEqual(self.trace("--v6", V6, os.path.join(HI, "image"), "1200", script), (0, """\
 1 [1] exec("/etc/init", ["/etc/init"]) waits for the disk
 5 [1] exec("/etc/init", ["/etc/init"]) = done, after 4 slots for the disk
 6 [1] open("/dev/tty8", 1) = 0
 7 [1] write(0, "hi\\n", 3) = 3
 9 [1] exit(0)
""", ""))
        source = self.put("sixty.s", b"\tsys\topen; 1f; 1\n\tsys\twrite; 2f; 74\n\tmov\t$0,r0\n\tsys\texit\n1:\t</dev/tty8\\0>\n2:\t<"
                          + b"x" * 60 + b">\n")
        status, out, error = self.trace("--v6", V6, self.disk(source), "1200", self.put("script", b"pace 1\nrun 30\n"))
        self.assertEqual((status, error), (0, ""))
        write = f'write(0, "{"x" * 32}".., 60)'
        self.assertEqual([line.replace(" /etc/init]", "]").split(None, 2) for line in out.splitlines()[1:]], [
            ["2", "[1]", 'open("/dev/tty8", 1) = 0'], ["3", "[1]", f"{write} waits for room to write on the terminal"],
            ["24", "[1]", f"{write} = 60, after 21 slots for room to write on the terminal"], ["26", "[1]", "exit(0)"]])

    @unittest.skipUnless(HAS_MEMORY, "v6 has no command memory yet")
    def test_a_bad_call(self):
        """No call has the number 63, and the words of times stand at an even address: both are signal 12, which is caught once."""
        source = self.put("bad.s", b"\tsys\tsignal; 14; 1f\n\t104477\n1:\tsys\tgetpid\n\tsys\ttimes; 1\n")
        status, out, error = self.trace("--v6", V6, self.disk(source), "1200", self.put("script", b"run 20\n"))
        self.assertEqual((status, error), (0, ""))
        self.assertEqual([line.replace(" /etc/init]", "]").split(None, 2) for line in out.splitlines()[1:]], [
            ["2", "[1]", "signal(12, 010) = 0"], ["3", "[1]", "call 63() = signal 12"], ["4", "[1]", "getpid() = 1"],
            ["5", "[1]", "times(01), and ends by signal 12"]])

    @unittest.skipUnless(HAS_MEMORY, "v6 has no command memory yet")
    def test_an_answer_that_goes_round(self):
        """The first two bytes of a program, 0407, go to the last address and to 0, where a call stands that is done already."""
        source = self.put("round.s", b"\tsys\topen; 1f; 0\n\tsys\tread; 177777; 2\n\tsys\tgetpid\n\tbr\t.\n1:\t</etc/init\\0>\n")
        status, out, error = self.trace("--v6", V6, self.disk(source), "1200", self.put("script", b"run 8\n"))
        self.assertEqual((status, error), (0, ""))
        self.assertEqual([line.replace(" /etc/init]", "]").split(None, 2) for line in out.splitlines()[1:]], [
            ["2", "[1]", 'open("/etc/init", 0) = 0'], ["3", "[1]", 'read(0, 0177777, 2) = 2 "\\007\\001"'], ["4", "[1]", "getpid() = 1"]])

    @unittest.skipUnless(HAS_MEMORY, "v6 has no command memory yet")
    def test_a_signal_that_waits(self):
        """One that is ignored goes on waiting: each call is asked for once, as before. A routine begins at the end of a call."""
        script = self.put("script", b"run 8\nbyte 177\nrun 6\n")
        for does, calls in ((b"1", {4: "getpid", 6: "getpid", 8: "getpid", 10: "getpid", 12: "getpid", 14: "getpid"}),
                            (b"1f", {4: "getpid", 6: "getpid", 8: "getpid", 10: "getpid", 11: "getuid", 13: "getpid"})):
            image, memory = self.disk(self.put("waits.s", WAITS.replace(b"ROUTINE", does))), Run.memory
            with unittest.mock.patch.object(Run, "memory", autospec=True, side_effect=memory) as asked:
                status, out, error = self.trace("--v6", V6, image, "1200", script)
            self.assertEqual((status, error), (0, ""))
            told = [line.split() for line in out.splitlines()]
            self.assertEqual({int(slot): call.partition("(")[0] for slot, _, _, call, *_ in told[3:]}, calls)
            self.assertLessEqual(asked.call_count, len(told) + 4)  # and the start, each end of a program, the key, and the routine

    @unittest.skipUnless(HAS_MEMORY, "v6 has no command memory yet")
    def test_a_shell(self):
        """An exec that is refused and one that isn't, files, a wait, and what isn't there."""
        script = self.put("typed", b"run 10000\ntype cat nosuch /usr/sys/ken/slp.c\nrun 10000\n")
        status, out, error = self.trace("--v6", V6, "--process", "2", os.path.join(TOP, "examples", "shell", "image"), "1200", script)
        self.assertEqual((status, error), (0, ""))
        told = [re.sub(", 0[0-7]+, ", ", A, ", line.strip().partition("] ")[2]) for line in out.splitlines()]
        slp = '"\\t/*\\n\\t * You are not expected to "..'
        self.assertEqual(told, ["signal(2, 0) = 01", "signal(3, 0) = 01",
                                'exec("cat", ["cat", "nosuch", "/usr/sys/ken/slp.c"]) = ENOENT',
                                'exec("/bin/cat", ["cat", "nosuch", "/usr/sys/ken/slp.c"]) = done', 'open("nosuch", 0) = ENOENT',
                                'open("/usr/sys/ken/slp.c", 0) = 3', f"read(3, A, 512) = 54 {slp}", f"write(1, {slp}, 54) = 54",
                                "read(3, A, 512) = 0", "close(3) = done", "exit(0)"])
        self.assertEqual({line.partition("[")[2].partition("]")[0] for line in out.splitlines()}, {"2 /etc/init", "2 /bin/cat"})

    @unittest.skipUnless(HAS_MEMORY, "v6 has no command memory yet")
    def test_a_shared_text(self):
        """The first of two execs makes the text, the other one takes it, and the code is there for both."""
        image = self.disk("crew.s")
        self.assertEqual(self.call(as_main, "-n", "-o", self.path("line"), os.path.join(SOURCES, "line.s"))[0], 0)
        self.assertEqual(self.call(disk_main, "--v6", V6, "put", image, self.path("line"), "/line")[0], 0)
        status, out, error = self.trace("--v6", V6, image, "1200", self.put("script", b"run 40\ntype go\n"))
        self.assertEqual((status, error), (0, ""))
        execs = [line.partition("exec")[2] for line in out.splitlines() if "exec" in line]
        does = "makes text 0 of 16 clicks", "takes text 0"
        self.assertEqual(execs[1:], [f'("/line", ["/line"]) = done, {one}' for one in does])
        opens = {line.partition("[")[2] for line in out.splitlines() if "/line] open" in line}
        self.assertEqual(opens, {f'{number} /line] open("/dev/tty8", 0) = 0' for number in (2, 3)})

    def test_what_is_refused(self):
        image, bad = os.path.join(HI, "image"), self.put("bad", b"run 5\nwalk\n")
        self.assertEqual(self.trace("--v6", V6, image, "1200", bad), (1, "", f"trace.py: {bad}: line 2: 'walk': no line of a script\n"))
        self.assertEqual(self.trace("--v6", V6, bad, "1200", os.path.join(HI, "script")), (1, "", f"trace.py: {bad}: bad super-block\n"))
        self.assertEqual(self.trace("--v6", V6, image, "63", os.path.join(HI, "script")), (1, "", "trace.py: core size: 63 clicks, and 64 to 3968 are wanted\n"))
        none = self.path("none")
        self.assertEqual(self.trace(none, "1200", none), (1, "", f"trace.py: {none}: No such file or directory\n"))
        # a program without the command, as one of an earlier day
        old = f"sh {self.put('old.sh', OLD)} {V6}"
        said = f"trace.py: {old} has no command `memory`, which tells what core and the swap area hold\n"
        self.assertEqual(self.trace("--v6", old, image, "1200", os.path.join(HI, "script")), (1, "", said))
