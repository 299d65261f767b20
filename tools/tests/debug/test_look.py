"""look.py: what it shows of moments whose log and memory are given by hand, where its searches come to, and what is refused."""
import io
import os
import re
import struct
import tempfile
import unittest
import unittest.mock

from tests.common import TOP, V6, Case, read, status_of, tool, v6, words, write

from v6.debug.commands import LookError, Looker
from v6.debug.symbols import Program, Programs
from v6.debug.views import Views
from v6.disk.volume import ROOT, Volume
from v6.log.processes import LogFault, Table
from v6.run.history import History
from v6.run.moments import Memory, MomentError, Run, Script

look, as_main, disk_main = tool("look"), tool("as").main, tool("disk").main
HI = os.path.join(TOP, "examples", "hi")
PAGE = os.path.join(TOP, "docs", "tools", "look.md")
HAS_MEMORY = v6("memory", os.devnull, "63", os.devnull, os.devnull)[0] != 1
OLD = b'[ "$2" != memory ] || exit 1\nexec "$@"\n'
CORE = 64
# a program whose memory is all zeros
ZEROS = b'[ "$2" = memory ] || exec "$@"\nhead -c $((64 * $4 + 446464)) /dev/zero >"$6"\n'
# start: jsr pc,sub; sys exit; nop; sub: mov r0,-(sp); clr r0; rts pc
TEXT = words("004767 000004 104401 000240 010046 005000 000207")
START = ((0, "boot 64 0"), (0, "sleep 0 -100 runout"), (0, "go 1"), (1, "bare 1"), (1, "image 1 37 at 1"), (1, "trap 1"), (1, "go 1"))
# The stack of /bin/x below its u area: R0, the return address, argc, the address of the argument, -1, the argument.
TOP_WORDS = "000005 000004 000001 177770 177777 061057 067151 074057 000000"


def program(names=True, magic=0o407):
    table = struct.pack("<8s2H", b"start", 0o42, 0) + struct.pack("<8s2H", b"sub", 2, 8) if names else b""
    return struct.pack("<8H", magic, len(TEXT), 0, 0, len(table), 0, 0, 1) + TEXT + table


def image(registers, codes=0, text=TEXT, stack=b"", more=()):
    """The bytes of an image of one click of data and twenty of stack; `more` are bytes of the u area by their places."""
    u = bytearray(1024)
    struct.pack_into("<9H", u, 0, *registers, 0o170000 | codes)
    struct.pack_into("<4H", u, 22, 1, 0, 1, 20)
    for at, data in more:
        u[at : at + len(data)] = data
    return bytes(u) + text.ljust(64, b"\0") + stack.rjust(1280, b"\0")


def placed(*images):
    """Core and the swap area, with images at clicks of core, or from 4000 on at blocks of the swap area."""
    data = bytearray(64 * CORE + 446464)
    for place, one in images:
        at = 64 * (place - 1) if place < 4000 else 64 * CORE + 512 * (place - 4000)
        data[at : at + len(one)] = one
    return bytes(data)


class ByHand(Run):
    """A run that is given by hand: its lines with the slots in which they come, and what its memory is after a slot. From a slot
    on it may come to a panic."""

    def __init__(self, slots, lines, memory, stops=None):
        self.told, self.held, self.stops, self.looks = lines, memory, stops, 0
        super().__init__("by hand", "disk", CORE, b"run %d\n" % slots, None)

    def played(self, script):
        slots = Script(script).slots
        status = 7 if self.stops is not None and slots >= self.stops else 0
        return [line for slot, line in self.told if slot <= slots], status, "panic: out of swap space"

    def memory(self, slots, more=False):
        self.looks += 1
        return Memory(self.held(slots), CORE)


def looker_of(run, files=(("/etc/init", program()),), own=()):
    volume = Volume.empty(200, 16, 0)
    folder = volume.make_directory(ROOT, b"etc", 0o755, 0)
    for name, data in files:
        volume.write_file(volume.make(folder, os.path.basename(name).encode(), 0o100755, 0), data, 0)
    return Looker(History(run), Views(Programs(volume.image(), own), {}))


class Shown(unittest.TestCase):
    maxDiff = None

    def looker(self, **options):
        held = placed((1, image((0, 0, 0, 0, 0, 0, 0o177756, 0o14), 4, stack=words(TOP_WORDS),
                                more=((48, struct.pack("<2H", 7, 2)), (68, struct.pack("<2H", 1, 0o100)), (104, b"\1\0\3")))))
        looker = looker_of(ByHand(9, START, lambda slots: held), **options)
        looker.lines_of("slot 5")
        return looker

    def test_a_process(self):
        shown = self.looker().lines_of("process 1")
        self.assertEqual(shown[:9], [
            "process 1 in entry 1, a child of process 0", "state      R: runs", "image      37 clicks, in core from click 1 on; no text",
            "program    /etc/init", 'arguments  "/bin/x"',
            "registers  r0 000000  r1 000000  r2 000000  r3 000000  r4 000000  r5 000000",
            "           sp 177756  pc 000014  codes -z--", "code", "  000000 start          004767 000004         jsr     pc,sub"])
        self.assertEqual(shown[9:15], [
            "  000004 start+4        104401                sys     exit", "  000006 start+6        000240                nop",
            "  000010 sub            010046                mov     r0,-(sp)", "  000012 sub+2          005000                clr     r0",
            "> 000014 sub+4          000207                rts     pc", "  000016                000000                0"])
        stack = shown.index("stack")
        self.assertEqual(shown[stack:], [
            "stack", "  177756 000005", "  177760 000004  return to start+4, from jsr pc,sub", "  177762 000001", "  177764 177770",
            "  177766 177777", "  177770 061057", "  177772 067151", "  177774 074057", "  177776 000000", "u area",
            "  user 0, group 0; real user 0, real group 0", "  directory: inode 1", "  clicks: text 0, data 1, stack 20",
            "  pending call: none", "  ticks: 7 in the program, 2 in the kernel; of its children 0 and 0", "  exit status: 0",
            "  signals: 2 ignored, 3 to 0100", "  file 0: open file 0", "  file 2: open file 2"])

    def test_names_of_c(self):
        """Labels of the compiler hide no function, and a function that other files don't know has its name; targets are named. An
        instruction at the end of the window is whole."""
        table = b"".join(struct.pack("<8s2H", *one) for one in ((b"_main", 0o42, 0), (b"_sub~1", 2, 8), (b"L12~1", 2, 4), (b"L_3~1", 2, 12)))
        it = struct.pack("<8H", 0o407, len(TEXT), 0, 0, len(table), 0, 0, 1) + TEXT + table
        looker = self.looker(files=(("/etc/init", it),))
        shown = looker.lines_of("process 1")
        self.assertIn("  000000 _main          004767 000004         jsr     pc,_sub", shown)
        self.assertIn("> 000014 _sub+4         000207                rts     pc", shown)
        self.assertIn("  177760 000004  return to _main+4, from jsr pc,_sub", shown)
        self.assertEqual(looker.lines_of("code sub 1"), ["  000010 _sub           010046                mov     r0,-(sp)"])
        self.assertEqual(looker.lines_of("code main 1"), ["  000000 _main          004767 000004         jsr     pc,_sub"])

    def test_lines_of_the_source(self):
        """They are told with the code, with PC and with return addresses, and are places."""
        with tempfile.TemporaryDirectory() as folder:
            source, named = os.path.join(folder, "it.s"), os.path.join(folder, "it")
            write(source, b"start:\tjsr\tpc,subr\n\tsys\texit; nop\nsubr:\n\tmov\tr0,-(sp); clr\tr0\n\trts\tpc\n")
            self.assertEqual(status_of(tool("as").main, ["-g", "-o", named, source]), 0)
            looker = self.looker(files=(("/etc/init", read(named)),))
            shown = looker.lines_of("process 1")
            self.assertIn(f"source     {source}:5  rts\tpc", shown)
            self.assertIn("  177760 000004  return to start+4 (" + source + ":2), from jsr pc,subr", shown)
            at = shown.index("code")
            self.assertEqual(shown[at + 1 : at + 4], [f"  {source}:1  start:\tjsr\tpc,subr",
                "  000000 start          004767 000004         jsr     pc,subr", f"  {source}:2  sys\texit; nop"])
            for place, address in (("it.s:1", 0), ("it.s:2", 4), ("it.s:3", 8), (source + ":5", 12)):
                self.assertEqual(looker.lines_of(f"words {place} 1")[0][:6], f"{address:06o}")
            with self.assertRaisesRegex(LookError, "it.s:6: /etc/init has no such name"):
                looker.lines_of("words it.s:6")

    def test_code_behind_other_words(self):
        """Words before PC that are no instructions aren't shown: here 0, which is none of a program."""
        text = words("004767 000004 104401 000000 010046 005000 000207")
        held = placed((1, image((0,) * 7 + (0o14,), text=text)))
        looker = looker_of(ByHand(9, START, lambda slots: held))
        looker.lines_of("slot 5")
        self.assertEqual(looker.lines_of("code")[0], "  000010 sub            010046                mov     r0,-(sp)")

    def test_arguments(self):
        """An argument of the bytes 0377 0377 is no end of the list of arguments. Where a program has written over the list, its texts
        are after the -1; where they aren't all text, there are none."""
        for top, wanted in (("000106 000106 177777 071554 000000", 'arguments  "ls"'),
                            ("000002 177760 177762 177777 000141 000142", 'arguments  "a" "b"'),
                            ("000002 177774 177776 177777 000141 000142", 'arguments  "a" "b"'),
                            ("000002 177766 177772 177777 061057 000170 177777 000000 000000", 'arguments  "/bx" "\\377\\377"'),
                            ("000003 177766 177772 177777 061057 000170 177777 000000 000000", "arguments  none at the top of the stack")):
            held = placed((1, image((0,) * 8, stack=words(top))))
            looker = looker_of(ByHand(9, START, lambda slots, held=held: held))
            looker.lines_of("slot 5")
            self.assertIn(wanted, looker.lines_of("process"))

    def test_names(self):
        """Without names in the program's file, or with a program whose words are others, there are addresses alone."""
        looker = self.looker(files=(("/etc/init", program(names=False)),))
        self.assertIn("  000010 010046                mov     r0,-(sp)", looker.lines_of("process"))
        looker = self.looker(files=(("/etc/other", program().replace(TEXT, bytes(14))),))
        self.assertIn("program    no file of the disk has its words", looker.lines_of("process"))
        with self.assertRaisesRegex(LookError, "sub: process 1 has no program with names"):
            looker.lines_of("code sub")
        looker = self.looker()
        self.assertEqual(looker.lines_of("words sub 2"), ["000010 sub            010046 005000" + 44 * " " + "&..."])
        self.assertEqual(len(looker.lines_of("words 65520 100")), 1)  # up to the last address
        self.assertEqual(looker.lines_of("words sp+2 1")[0][:28], "177760                000004")
        for place in ("sp-2", "sp-02", "177776(sp)", "sp+0177776", "0177754"):
            self.assertEqual(looker.lines_of(f"words {place} 2")[0].split()[:3], ["177754", "000000", "000005"], place)
        self.assertEqual(looker.lines_of("words sub-010 1")[0].split()[:2], ["000000", "start"])
        self.assertEqual(looker.lines_of("words 072 4")[0].split(), ["000072", "000000", "000000", "000000", "--", "......"])

    def test_names_of_the_host(self):
        """A file of the host has names for a process whose words are its own, and is told not to fit another."""
        with tempfile.TemporaryDirectory() as folder:
            named, other = os.path.join(folder, "named"), os.path.join(folder, "other")
            write(named, program())
            write(other, program().replace(TEXT, bytes(14)))
            looker = self.looker(files=(("/etc/init", program(names=False)),), own=(other, named))
            shown = looker.lines_of("process")
        self.assertIn(f"names      {other} doesn't fit: its words are others", shown)
        self.assertIn(f"program    {named}", shown)
        self.assertIn("  000010 sub            010046                mov     r0,-(sp)", shown)

    def test_symbols(self):
        """Data begin in a segment of their own after a shared text, and names of either part have that part's addresses alone."""
        table = b"".join(struct.pack("<8s2H", *one) for one in ((b"_main", 0o42, 2), (b"_buf", 3, 8194), (b"size", 1, 6)))
        shared = Program("/bin/it", struct.pack("<8H", 0o410, 6, 4, 2, len(table), 0, 0, 1) + bytes(10) + table)
        found = [shared.name_at(at) for at in (0, 2, 5, 6, 8191, 8192, 8194, 8197, 8198)]
        self.assertEqual(found, [None, "_main", "_main+3", None, None, None, "_buf", "_buf+3", None])
        self.assertEqual([shared.address_of(name) for name in ("main", "_buf", "size")], [2, 8194, None])

    def test_map(self):
        looker = self.looker()
        self.assertEqual(looker.lines_of("core"), ["    1 to    37    37  process 1 (/etc/init)", "   38 to    64    27  free",
                                                   "27 of 64 clicks are free"])
        self.assertEqual(looker.lines_of("swap"), [" 4000 to  4871   872  free", "872 of 872 blocks are free"])
        self.assertEqual(looker.lines_of("texts"), ["there are no shared texts"])

    def test_texts(self):
        """A text of 9 clicks takes two blocks, and its one loaded user has it in core."""
        lines = (*START[:4], (1, "text 1 0 9 swap 4000"), (1, "image 1 37 swap 4002"), (1, "trap 1"), (2, "go 0"), (2, "in 1 1"))
        looker = looker_of(ByHand(9, lines, lambda slots: placed()))
        looker.lines_of("slot 3")
        self.assertEqual(looker.lines_of("texts")[1].split(), ["0", "9", "4000", "to", "4001", "1", "1", "at", "1"])
        self.assertEqual([line.split()[:3] for line in looker.lines_of("core")[:2]], [["1", "to", "9"], ["10", "to", "46"]])
        looker.lines_of("slot 1")
        self.assertEqual(looker.lines_of("swap")[:2], [" 4000 to  4001     2  text 0", " 4002 to  4006     5  process 1"])

    def test_priorities(self):
        """Who runs has 100, and 107 after the next call after a nice of 7; a child has 0 until its first; who is woken keeps his."""
        lines = (*START, (2, "fork 1 2 at 38"), (2, "trap 1"), (3, "nice 1 7"), (3, "go 2"), (4, "sleep 2 10 keys"), (4, "go 1"),
                 (5, "trap 1"), (6, "wake keys"), (7, "go 2"), (8, "trap 2"))
        looker = looker_of(ByHand(9, lines, lambda slots: placed((1, image((0,) * 8)), (38, image((0,) * 8)))))
        for slot, wanted in ((1, ["-100", "100"]), (2, ["-100", "100", "0"]), (3, ["-100", "100", "0"]), (4, ["-100", "100", "10"]),
                             (5, ["-100", "107", "10"]), (7, ["-100", "107", "10"]), (8, ["-100", "107", "100"])):
            looker.lines_of(f"slot {slot}")
            self.assertEqual([line.split()[5] for line in looker.lines_of("ps")[1:]], wanted, slot)

    def test_ps(self):
        """A parent that waits for its child, which is out of core, and a zombie. Both have two descriptors of one open file. The
        swapper was woken by the child's image, and hasn't run since."""
        files = bytes((1, 5, 0, 5))
        lines = (*START, (2, "fork 1 2 swap 4001"), (2, "trap 1"), (3, "fork 1 3 swap 4006"), (3, "trap 1"), (4, "sleep 1 40 wait.1"),
                 (5, "go 3"), (5, "exit 3 swap 4000"))
        looker = looker_of(ByHand(9, lines, lambda slots: placed(
            (1, image((0,) * 8, more=((18, b"\5"), (104, files)))), (4001, image((0,) * 8, more=((104, files),))))))
        looker.lines_of("slot 9")
        self.assertEqual([line.split()[:10] for line in looker.lines_of("ps")[1:4]], [
            ["r", "0", "0", "0", "-", "-100", "-", "0", "-", "-"], ["w", "1", "1", "0", "5", "40", "at", "1", "0", "37"],
            ["o", "2", "2", "1", "0", "0", "swap", "4001", "0", "37"]])
        self.assertEqual([looker.lines_of("ps")[4].split()[at] for at in (0, 1, 5)], ["z", "3", "-"])
        self.assertIn("state      z: has ended, and its parent hasn't waited for it", looker.lines_of("process 3"))
        self.assertIn("left       half of its u area, in block 4000", looker.lines_of("process 3"))
        self.assertIn("  file 1: open file 4, as 3 of process 1; 1, 3 of process 2", looker.lines_of("process 1"))
        with self.assertRaisesRegex(LookError, "process 3 has no memory in slot 9: it has ended"):
            looker.lines_of("words 0 of 3")
        with self.assertRaisesRegex(LookError, "process 0 has no memory in slot 9: the swapper has no image"):
            looker.lines_of("code of 0")

    def test_a_pending_call(self):
        """A read of the console that has begun: its address and count are kept in the u area, with the entry of the open file, which is that
        of the descriptor in R0; or R0 isn't it any more."""
        for descriptor, r0, first in ((3, 3, "3"), (3, 2, ".."), (3, 15, ".."), (3, 65535, "..")):
            files = bytes(descriptor) + b"\5"
            held = placed((1, image((r0, *(0,) * 7), more=((30, b"\1"), (32, struct.pack("<3H", 4, 0o100, 12)), (104, files)))))
            looker = looker_of(ByHand(9, (*START, (2, "sleep 1 10 keys"), (2, "idle")), lambda slots: held))
            looker.lines_of("slot 2")
            shown = looker.lines_of("process 1")
            self.assertIn(f"call       read({first}, 0100, 12) has begun, and isn't done", shown)
            self.assertIn("state      w: waits for keys, at priority 10", shown)


class Moves(unittest.TestCase):
    """A run of ten million slots: process 1 forks in slot 100, its child goes out of core in slot 9,000,000 and in again 500,000
    later, and ends in slot 9,800,000. The word 040 of process 1 is 0, from slot 1,234,567 on 1, and from 7,654,321 on 2."""

    LINES = (*START, (100, "fork 1 2 at 38"), (100, "trap 1"), (9000000, "out 2 4000"), (9500000, "in 2 38"),
             (9800000, "go 2"), (9800000, "exit 2 swap 4000"), (9900000, "reap 2"))

    def held(self, slots):
        value = (slots >= 1234567) + (slots >= 7654321)
        pc = 10 if 5000000 <= slots < 6000000 else 0
        text = TEXT.ljust(32, b"\0") + struct.pack("<H", value)
        return placed((1, image((0,) * 7 + (pc,), text=text)), (38, image((0,) * 8)))

    def setUp(self):
        self.run_ = ByHand(10000000, self.LINES, self.held)
        self.looker = looker_of(self.run_)

    def at(self, *commands):
        for command in commands:
            self.looker.lines_of(command)
        return self.looker.moment.slots

    def test_the_searches_of_pages(self):
        """Each that stands on a page as an example can be made: it finds something, or says that there is nothing."""
        text = "".join(read(os.path.join(TOP, "docs", *page)).decode() for page in (("tools", "look.md"), ("lions", "README.md")))
        found = re.findall(r"(?:`|-c ')((?:until|since) (?:state|place|call) [^`']+)['`]", text)
        self.assertLessEqual({"until state wW of 2", "since state w of 1", "until call exec"}, set(found))
        for command in found:
            try:
                self.looker.lines_of(command)
            except LookError as error:
                self.assertIn(": not found ", str(error), command)

    def test_steps(self):
        self.assertEqual(self.looker.lines_of("slot 100"), [
            "slot 100 of 10000000, second 1, line 9 of 15: process 1 (/etc/init) runs",
            "      8  fork 1 2 at 38          process 1 makes process 2 in entry 2, at click 38",
            "      9  trap 1                  process 1 has left the kernel"])
        self.assertEqual(self.at("step"), 101)
        self.assertEqual(self.at("back 3"), 98)
        self.assertEqual(self.at("line 10"), 9000000)
        self.assertEqual(self.at("line 1"), 0)

    def test_events(self):
        self.assertEqual([self.at("next go"), self.at("next trap"), self.at("next exit"), self.at("last go")], [1, 100, 9800000, 1])
        with self.assertRaisesRegex(LookError, "signal: not found after slot 1"):
            self.looker.lines_of("next signal")

    def test_lines(self):
        self.assertEqual([self.at("next line") for _ in range(4)], [1, 100, 9000000, 9500000])
        self.assertEqual([self.at("last line") for _ in range(3)], [9000000, 100, 1])
        self.assertEqual([self.at("next line of 2") for _ in range(5)], [100, 9000000, 9500000, 9800000, 9900000])
        self.assertEqual(self.at("last fork"), 100)

    def test_the_last_line(self):
        """`end` is a line of the log as the others are: the last moment's."""
        for command in ("slot 10000000", "line 15", "next end"):
            self.at("slot 9900000")
            self.assertEqual(self.looker.lines_of(command), [
                "slot 10000000 of 10000000, second 1, line 15 of 15: nobody can run",
                "     15  end                     the script has ended"])
        self.assertEqual(self.at("last line"), 9900000)
        with self.assertRaisesRegex(LookError, "call: not found before slot 9900000"):
            self.looker = looker_of(ByHand(10000000, [line for line in self.LINES if line[1] != "trap 1"], self.held))
            self.at("slot 10000000", "last line", "since call")

    def test_nobody_runs_yet(self):
        """Between the line after which nobody runs and the next choice somebody may be ready in core."""
        self.assertEqual(self.looker.lines_of("line 14")[0].rsplit(": ", 1)[1], "nobody runs yet")

    def test_states(self):
        self.assertEqual(self.at("until place swap of 2"), 9000000)
        self.assertEqual(self.at("until place core 38 of 2"), 9500000)
        self.assertEqual(self.at("until state z of 2"), 9800000)
        self.assertEqual(self.at("since place swap of 2"), 9000000)
        self.assertEqual(self.at("since state rR of 2"), 100)
        with self.assertRaisesRegex(LookError, "state R: not found after slot 50"):  # it runs from slot 1 until its child does
            self.at("slot 50", "until state R of 1")

    def test_a_wakeup(self):
        """A line about a process is also one that wakes it."""
        lines = (*START, (2, "fork 1 2 at 38"), (2, "trap 1"), (3, "sleep 1 10 keys"), (3, "go 2"), (5, "trap 2"), (8, "wake keys"))
        self.looker = looker_of(ByHand(20, lines, self.held))
        self.assertEqual([self.at("slot 4", "next line of 1"), self.at("slot 4", "next line of 2")], [8, 5])

    def test_calls(self):
        """A process stands at a call just before the slot in which it is made."""
        text = words("104402 104424 104424 000777")
        run = ByHand(900, (*START, (300, "fork 1 2 at 38"), (300, "trap 1"), (500, "trap 1"), (700, "trap 1")),
                     lambda slots: placed((1, image((0,) * 7 + (2 * (slots > 300) + 2 * (slots > 500),), text=text))))
        self.looker = looker_of(run)
        self.assertEqual([self.at("slot 1", "until call getpid"), self.at("until call"), self.at("since call fork")], [499, 699, 299])
        self.assertIn("call       fork() comes next", self.looker.lines_of("process 1"))
        self.assertEqual([self.at("until call 20"), self.at("since call 2")], [499, 299])  # getpid, fork
        with self.assertRaisesRegex(LookError, "call open: not found after slot 299"):
            self.looker.lines_of("until call open")

    def test_watch(self):
        self.looker.lines_of("slot 1234566")
        self.assertEqual(self.looker.lines_of("watch 040"), ["  word 000040 of process 1: 000000"])
        self.assertEqual(self.looker.lines_of("step")[-1], "  word 000040 of process 1: 000001, and was 000000")
        self.assertEqual(self.looker.lines_of("step")[-1], "  word 000040 of process 1: 000001")
        self.looker.lines_of("unwatch")
        self.assertEqual(self.looker.lines_of("watch"), ["no word is watched"])

    def test_a_long_log(self):
        """A tick in each slot from 2 on, and in slot 5,002 a fork before it: line 8 is the tick of slot 2, and line 5,008 the fork."""
        ticks = [(slot, "tick u") for slot in range(2, 10002)]
        lines = (*START, *ticks[:5000], (5002, "fork 1 2 at 38"), *ticks[5000:])
        self.looker = looker_of(ByHand(20000, lines, self.held))
        self.assertEqual([self.at("line 5007"), self.at("line 5009"), self.at("line 10008")], [5001, 5002, 10001])
        self.assertEqual([self.at("last fork"), self.at("slot 20000", "last fork"), self.at("slot 3", "next fork")], [5002] * 3)
        self.assertEqual(len(self.looker.lines_of("ps")), 4)
        self.at("back")
        self.assertEqual((len(self.looker.lines_of("ps")), self.looker.moment.lines), (3, 5007))
        self.at("slot 9001")
        self.assertEqual((len(self.looker.lines_of("ps")), self.looker.moment.lines), (4, 9008))
        self.assertEqual(self.looker.lines_of("log 2"), ["   9007  tick u                  a tick in a program",
                                                        "   9008  tick u                  a tick in a program; second 150 ends"])

    def test_what_is_refused(self):
        """A line says why, and the moment stays."""
        with self.assertRaisesRegex(LookError, "state w: not found before slot 0, where nothing comes before: `slot N` first"):
            self.looker.lines_of("since state w of 1")
        self.at("slot 200")
        for command, why in (
                ("slot 10000001", "slot 10000001: the run has 10000000, and 0 is before the first"), ("slot x", "x: no number"),
                ("back 201", "slot 200 is too near: the run is from slot 0 to 10000000"),
                ("line 0", "line 0: the log of this run has the lines 1 to 15"), ("line 16", "line 16: the log"), ("hop", "hop: no such command"),
                ("words", "words: too few words"), ("ps 1 2", "ps 1 2: too few words, or too many"), ("next hop", "hop: no word of a log"),
                ("words 1", "1: 000001 is odd"), ("words 0200000", "0200000: an address is 65535 at most"), ("words 08", "08: no number"),
                ("words 0 9999", "9999: words is 4096 at most"), ("process 3", "process 3 isn't there in slot 200, and never in this run"),
                ("until state x", "x: a state is one of the letters RrowWsSz"), ("until place top", "top: a place is in core or swap"),
                ("until what", "what: `until` and `since` take state, place, call, pc, word, break or watch$"),
                ("until line exit", "line: .* or watch; for a line of the log: `next KIND` and `last KIND`"),
                ("registers", "registers: no such command; help names them; `process` shows registers"), ("until pc 010 06", "06: it is before 010"),
                ("code nosuch", "nosuch: /etc/init has no such name"), ("until call wirte", "wirte: no name of a call"),
                ("until call 64", "64: a call is 63 at most"), ("words r5-x", "r5-x: /etc/init has no such name"),
                ("words 8(r5)", "8.r5.: /etc/init has no such name")):
            with self.assertRaisesRegex(LookError if "has 1000" not in why else MomentError, why):
                self.looker.lines_of(command)
            self.assertEqual(self.looker.moment.slots, 200, command)
        self.at("slot 50")
        with self.assertRaisesRegex(LookError, "process 2 isn't there in slot 50: it comes with line 8 of the log"):
            self.looker.lines_of("process 2")
        self.at("slot 9950000")
        with self.assertRaisesRegex(LookError, "process 2 isn't there in slot 9950000: it has gone with line 14 of the log"):
            self.looker.lines_of("words 0 of 2")

    def test_a_run_that_stops(self):
        """A run that comes to a panic in slot 700 is shown up to slot 699."""
        looker = looker_of(ByHand(900, (*START, (700, "fork 1 2 at 38")), self.held, stops=700))
        self.assertEqual(looker.history.last, 699)
        with self.assertRaisesRegex(LookError, "fork: not found"):
            looker.lines_of("next fork")
        with self.assertRaisesRegex(LookError, "line 8 comes in slot 700, in which the run comes to what can't be shown"):
            looker.lines_of("line 8")

    def test_a_spoiled_log(self):
        with self.assertRaisesRegex(LogFault, "line 8: entry 7 is free there"):
            looker_of(ByHand(900, (*START, (5, "trap 7")), self.held)).lines_of("slot 6")


class Within(unittest.TestCase):
    """In slot 5 a pass of the swapper with two exchanges in a core of 64 clicks: process 2, of 20 clicks, and process 3, of 30, come
    in for process 1 and a child of it, which has made itself small and waits. In slot 4 a second has ended. The word 040 of
    process 1 is 0, and in slot 5 it is 7."""

    LINES = (*START, (2, "fork 1 2 at 38"), (2, "size 2 20 keep"), (2, "fork 1 3 swap 4000"), (2, "trap 1"), (2, "size 3 30 keep"),
             *[(3, "tick u")] * 59, (4, "sleep 2 10 keys"), (4, "tick i"), (4, "idle"),
             (5, "go 0"), (5, "out 2 4004"), (5, "out 1 4007"), (5, "in 3 1"), (5, "in 2 31"), (5, "sleep 0 -100 runin"), (5, "go 3"))
    PASS = 75  # the line of `go 0`

    def held(self, slots):
        one = image((0,) * 8, text=TEXT.ljust(32, b"\0") + struct.pack("<H", 7))
        if slots < 5:
            return placed((1, image((0,) * 8)), (38, image((0,) * 8)), (4000, image((0,) * 8)))
        return placed((4007, one), (31, image((0,) * 8)), (1, image((0,) * 8, more=((18, b"\5"),))))

    def setUp(self):
        self.looker = looker_of(ByHand(9, self.LINES, self.held))

    def places(self):
        """Of each process but the swapper its letter, place and time, by `ps`."""
        rows = [line.split() for line in self.looker.lines_of("ps")[2:]]
        return [(row[0], *row[6:9]) for row in rows]

    def test_the_table_after_a_line(self):
        """Each line of the pass has a table of its own: who was where, and for how long."""
        wanted = [[("r", "at", "1", "1"), ("w", "at", "38", "1"), ("o", "swap", "4000", "1")],
                  [("r", "at", "1", "1"), ("W", "swap", "4004", "0"), ("o", "swap", "4000", "1")],
                  [("o", "swap", "4007", "0"), ("W", "swap", "4004", "0"), ("o", "swap", "4000", "1")],
                  [("o", "swap", "4007", "0"), ("W", "swap", "4004", "0"), ("r", "at", "1", "0")],
                  [("o", "swap", "4007", "0"), ("w", "at", "31", "0"), ("r", "at", "1", "0")]]
        for number, rows in enumerate(wanted, self.PASS):
            self.looker.lines_of(f"line {number}")
            self.assertEqual((self.places(), self.looker.moment.slots), (rows, 5), number)
        self.looker.lines_of("slot 5")
        self.assertEqual(self.places(), [*wanted[-1][:2], ("R", "at", "1", "0")])

    def test_what_is_said(self):
        """The head tells the line that was asked for, and which lines the moment has; the line is marked."""
        shown = self.looker.lines_of("line 77")
        self.assertEqual(shown[0], "slot 5 of 9, second 2, line 77 of 82 (of the lines 75 to 81 of the moment): the swapper runs")
        self.assertEqual([line[:11] for line in shown[1:]], ["     75  go", "     76  ou", ">    77  ou", "     78  in", "     79  in",
                                                             "     80  sl", "     81  go"])
        self.assertEqual([line[:11] for line in self.looker.lines_of("log 2")], ["     76  ou", ">    77  ou"])
        self.assertEqual(self.looker.lines_of("line 81")[0], "slot 5 of 9, second 2, line 81 of 82: process 3 (/etc/init) runs")

    def test_core_and_swap(self):
        self.looker.lines_of("line 76")
        self.assertEqual([line.split("  process")[0] for line in self.looker.lines_of("core")],
                         ["    1 to    37    37", "   38 to    64    27  free", "27 of 64 clicks are free"])
        self.assertEqual([line.split("  process")[0] for line in self.looker.lines_of("swap")][:3],
                         [" 4000 to  4003     4", " 4004 to  4006     3", " 4007 to  4871   865  free"])

    def test_memory_is_of_the_moment(self):
        """What memory tells is that after the whole moment, and it is said: there process 1 is in the swap area already."""
        said = "after all lines of the moment, up to 81, since memory isn't known within it:"
        self.looker.lines_of("line 76")
        self.assertEqual(self.looker.lines_of("words 040 1 of 1")[0], said)
        self.assertEqual(self.looker.lines_of("words 040 1 of 1")[1].split()[-2], "000007")
        shown = self.looker.lines_of("process 1")
        self.assertEqual((shown[0], shown[3]), (said, "image      37 clicks, in the swap area from block 4007 on; no text"))
        self.assertEqual(self.looker.lines_of("process")[1], "process 3 in entry 3, a child of process 1")
        self.assertEqual(self.looker.lines_of("code 0 1 of 1")[0], said)
        self.assertEqual(self.looker.lines_of("watch 040")[0], said)
        for line in ("line 81", "slot 5"):
            self.looker.lines_of(line)
            self.assertEqual(len(self.looker.lines_of("words 040 1 of 1")), 1)

    def test_moves(self):
        """`line` goes a line further; the other moves go by moments, also from within one."""
        self.looker.lines_of("slot 4")
        found = []
        for _ in range(8):
            self.looker.lines_of("line")
            found.append((self.looker.moment.slots, self.looker.moment.at))
        self.assertEqual(found, [*[(5, line) for line in range(75, 82)], (9, 82)])
        with self.assertRaisesRegex(LookError, "line 83: the log of this run has the lines 1 to 82"):
            self.looker.lines_of("line")
        for command, at in (("back", (4, 74)), ("step", (6, 81)), ("next line", (9, 82)), ("last go", (1, 7)), ("slot", (5, 81))):
            self.looker.lines_of("line 77")
            self.looker.lines_of(command)
            self.assertEqual((self.looker.moment.slots, self.looker.moment.at), at, command)


class Times(unittest.TestCase):
    """For how many seconds each entry has been where it is: docs/manual/clock.md, and docs/manual/swapper.md."""

    def times(self, *lines):
        table = Table()
        for line in ("boot 200 0", "sleep 0 -100 runout", "go 1", *lines):
            table.take(line)
        return [table.rows[slot].time for slot in sorted(table.rows)]

    def test_each_second(self):
        """The sixtieth tick ends a second, and the time of each entry grows, up to 127; also that of an entry that has ended."""
        second = ["tick u"] * 60
        self.assertEqual(self.times(*second[1:]), [0, 0])
        self.assertEqual(self.times(*second, *second[1:]), [1, 1])
        self.assertEqual(self.times(*second, "fork 1 2 at 38", *second), [2, 2, 1])
        self.assertEqual(self.times(*127 * second, "fork 1 2 at 38", *second), [127, 127, 1])
        self.assertEqual(self.times("fork 1 2 at 38", *second, "exit 2 swap 4000", *second), [2, 2, 2])
        self.assertEqual(self.times("fork 1 2 at 38", *second, "exit 2 swap 4000", "reap 2", "fork 1 2 at 38"), [1, 1, 0])

    def test_moves(self):
        """It begins anew where an image goes out, comes in, or is made in the swap area, and nowhere else."""
        for line, wanted in (("out 1 4000", 0), ("fork 1 2 swap 4000", 2), ("bare 1", 2), ("image 1 37 at 1", 2),
                             ("image 1 37 swap 4000", 0), ("size 1 40 keep", 2), ("size 1 40 at 20", 2), ("size 1 40 swap 4000", 0),
                             ("sleep 1 10 keys", 2)):
            self.assertEqual(self.times(*["tick u"] * 120, line)[1], wanted, line)
        self.assertEqual(self.times("out 1 4000", *["tick u"] * 120, "in 1 1"), [2, 0])

    def test_the_swapper(self):
        """It is woken from `runout` by an image that goes out or is made outside, and from `runin` by a second and by who falls asleep
        so that a signal wakes it."""
        for channel, line, wanted in (
                ("runout", "out 1 4000", "r"), ("runout", "fork 1 2 swap 4000", "r"), ("runout", "image 1 37 swap 4000", "r"),
                ("runout", "size 1 40 swap 4000", "r"), ("runout", "fork 1 2 at 38", "s"), ("runout", "tick u", "s"),
                ("runout", "sleep 1 10 keys", "s"), ("runin", "tick u", "r"), ("runin", "sleep 1 10 keys", "r"),
                ("runin", "sleep 1 -5 keys", "s"), ("runin", "out 1 4000", "s")):
            table = Table()
            for one in ("boot 200 0", f"sleep 0 -100 {channel}", "go 1", *["tick u"] * 59):
                table.take(one)
            self.assertEqual(table.letter(0), "s")
            table.take(line)
            self.assertEqual(table.letter(0), wanted, (channel, line))


class Commands(Case):
    def look(self, *words_, v6_=V6):
        return self.call(look.main, "--v6", v6_, *words_)

    def hi(self, *words_, **options):
        return self.look(os.path.join(HI, "image"), "1200", os.path.join(HI, "script"), *words_, **options)

    def test_log(self):
        """Moments by the log alone, of a program whose memory is all zeros."""
        zeros = f"sh {self.put('zeros.sh', ZEROS)} {V6}"
        status, out, error = self.hi("-c", "slot", "-c", "next fork", "-c", "quit", "-c", "slot", v6_=zeros)
        self.assertEqual((status, out.splitlines()[1:], error), (1, [
            "      1  boot 1200 0             the system begins, with 1200 clicks of core, at 0 seconds",
            "      2  sleep 0 -100 runout     the swapper waits until somebody out of core can run, at priority -100",
            "      3  go 1                    process 1 runs"], "look.py: fork: not found after slot 0\n"))

    def readers(self):
        """The disk and the script of the two readers of the page."""
        return self.disk_of(os.path.join(TOP, "docs", "lions", "src", "pair.s"), "-s"), self.put("typed", b"run 60\ntype one\nrun 60\ntype two\nrun 60\n")

    def test_a_label_before_the_program_is_executed(self):
        """Process 1 has no program with names before its exec: a search for one looks on."""
        disk, script = self.readers()
        status, out, error = self.look(disk, "1200", script, "-c", "until word which", "-c", "slot 0", "-c", "until pc nosuch")
        self.assertEqual((status, error), (1, "look.py: nosuch: /etc/init has no such name\n"))
        self.assertTrue(out.startswith("slot 4 of 180, "))  # exec, open, fork, movb

    def test_at_a_terminal(self):
        """No prompt after the end; q is the end too; and an empty line does the last command again."""
        disk, script = self.readers()
        for end in ("quit", "q"):
            with unittest.mock.patch("builtins.input", side_effect=["step 2", "", "hop", "", end]) as prompts:
                with unittest.mock.patch("sys.stdin", unittest.mock.Mock(isatty=lambda: True)):
                    status, out, error = self.look(disk, "1200", script)
            self.assertEqual([call.args[0] for call in prompts.call_args_list], ["0> ", "2> ", "4> ", "4> ", "6> "])
            self.assertEqual(error, "look.py: hop: no such command; help names them\n")

    def test_from_a_pipe(self):
        """What is typed after slot 60 belongs to the moment 60. A command that can't be done is told, and the next one is done."""
        zeros, typed = f"sh {self.put('zeros.sh', ZEROS)} {V6}", io.StringIO("next wake\nhop\n\nnext wake\nquit\nslot 3\n")
        with unittest.mock.patch("sys.stdin", typed):
            status, out, error = self.look(self.readers()[0], "1200", self.path("typed"), v6_=zeros)
        self.assertEqual((status, error), (1, "look.py: hop: no such command; help names them\n"))
        self.assertEqual([line.split(" ")[1] for line in out.splitlines() if line.startswith("slot")], ["60", "120"])

    def test_logs(self):
        """A log that is cut is shown all the same; one that is spoiled, or of another run, isn't."""
        log = self.path("log")
        self.assertEqual(v6("run", os.path.join(HI, "image"), "1200", os.path.join(HI, "script"), self.path("t"), log, self.path("f")), (0, ""))
        lines = read(log).splitlines(True)
        self.assertEqual(self.hi("--log", log, "-c", "help")[::2], (0, ""))
        cut = self.put("cut", b"".join(lines[:5]))
        self.assertEqual(self.hi("--log", cut, "-c", "help")[::2],
                         (0, f"look.py: {cut}: it is cut after line 5; the run has {len(lines)}\n"))
        spoiled = self.put("spoiled", b"".join(lines[:2]) + b"go 2\n")
        self.assertEqual(self.hi("--log", spoiled, "-c", "help"),
                         (1, "", f"look.py: {spoiled}: line 3 is of another run: it is 'go 2', and here 'go 1'\n"))
        longer = self.put("longer", b"".join(lines[:-1]) + b"idle\nend\n")
        self.assertEqual(self.hi("--log", longer, "-c", "help")[2],
                         f"look.py: {longer}: it has {len(lines) + 1} lines, and this run has {len(lines)}\n")

    def test_what_is_refused(self):
        image_, script = os.path.join(HI, "image"), os.path.join(HI, "script")
        bad, none = self.put("bad", b"run 5\nwalk\n"), self.path("none")
        self.assertEqual(self.look(image_, "1200", bad), (1, "", f"look.py: {bad}: line 2: 'walk': no line of a script\n"))
        self.assertEqual(self.look(bad, "1200", script), (1, "", f"look.py: {bad}: bad super-block\n"))
        self.assertEqual(self.look(image_, "63", script), (1, "", "look.py: core size: 63 clicks, and 64 to 3968 are wanted\n"))
        self.assertEqual(self.look(image_, "1200", none), (1, "", f"look.py: {none}: No such file or directory\n"))
        zeros = 15 * (chr(92) + "000")
        self.assertEqual(self.look(image_, "1200", "/dev/full"), (1, "", f"look.py: /dev/full: line 1: '{zeros}..': more than 300 bytes\n"))
        self.assertEqual(self.look(image_, "1200", "/proc/self/mem"), (1, "", "look.py: /proc/self/mem: Input/output error\n"))
        log = self.put("log", b"boot 1200 7\nend\n")
        self.assertEqual(self.look(image_, "1200", log), (1, "", f"look.py: {log}: line 1: 'boot 1200 7': a log begins so, and no script\n"))
        self.assertEqual(self.hi("--symbols", bad, "-c", "help")[::2], (0, f"look.py: {bad}: no program, so it has no names\n"))
        old = f"sh {self.put('old.sh', OLD)} {V6}"
        said = f"look.py: {old} has no command `memory`, which tells what core and the swap area hold\n"
        self.assertEqual(self.hi("-c", "ps", v6_=old), (1, "", said))

    @unittest.skipUnless(HAS_MEMORY, "v6 has no command memory yet")
    def test_page(self):
        """The page shows what is shown of the two readers; its slots and registers are by hand, from the program."""
        page = read(PAGE).decode()
        disk, script = self.readers()
        commands = ("until call write", "process", "ps", "core", "since state w of 1")
        status, out, error = self.look(disk, "1200", script, *[word for one in commands for word in ("-c", one)])
        self.assertEqual((status, error), (0, ""))
        self.assertIn("\n\n" + out + "```\n", page)
        self.assertIn("slot 65 of 180", out)
        self.assertIn('call       write(0, "Pone\\n", 5) comes next', out)
        self.assertIn("sp 177760  pc 000040", out)
        # each writes what it has read: process 1 in slot 66, which was typed after slot 60, and process 2 in slot 126
        commands = "break 040 of 1", "slot 100", "break 040 of 2", "since break", "until break"
        status, out, error = self.look(disk, "1200", script, *[word for one in commands for word in ("-c", one)])
        self.assertEqual((status, error), (0, ""))
        self.assertIn("\n\n" + out + "```\n", page)
        self.assertEqual([line.split()[1] for line in out.splitlines() if line.startswith("slot")], ["100", "65", "125"])
