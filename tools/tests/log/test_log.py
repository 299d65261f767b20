"""log.py: what it tells of a log line by line, the picture, where two logs part, and why one isn't lawful."""
import os
import struct
import unittest
import unittest.mock
import xml.etree.ElementTree as tree

from tests.common import TOP, V6, Case, generated, read, tool, v6

from v6.log import picture as logpicture
from v6.log.processes import FORMS
from v6.log.rules import BEGINS, ENDS, RULES

log_main, disk_main, look_main = tool("log").main, tool("disk").main, tool("look").main
SVG = "{http://www.w3.org/2000/svg}"
LOG = """boot 100 7
sleep 0 -100 runout
go 1
fork 1 2 at 18
trap 1
sleep 1 40 wait.1
go 2
drop 2 3 plain
"""
LAWFUL = "boot 64 0\nsleep 0 -100 runout\ngo 1\nexit 1 swap 4000\nidle\n"
FULL = """boot 2048 0
sleep 0 -100 runout
go 1
size 1 2048 swap 4000
trap 1
go 0
in 1 1
sleep 0 -100 runout
go 1
fork 1 2 swap 4000
fork 1 3 swap 4256
fork 1 4 swap 4512
"""
TEXTS = """boot 64 0
sleep 0 -100 runout
go 1
bare 1
text 1 0 20 swap 4000
image 1 30 swap 4003
go 0
in 1 1
sleep 0 -100 runout
go 1
fork 1 2 swap 4003
sleep 1 1 read.9
go 0
out 1 4007
in 2 1
sleep 0 -100 runin
go 2
drop 2 0 sticky
exit 2 swap 4003
wake wait.1
idle
tick i
signal 1 2
reap 2
panic swap
"""
TOLD = """line  012
   1  Rr.  the system begins, with 64 clicks of core, at 0 seconds
   2  sr.  the swapper waits until somebody out of core can run, at priority -100
   3  sR.  process 1 runs
   4  sR.  process 1 gives back its image for a new program
   5  sR.  process 1 makes text 0 of 20 clicks, in the swap area at block 4000
   6  rR.  process 1 has its new image, of 30 clicks, in the swap area at block 4003
   7  Ro.  the swapper runs
   8  Rr.  process 1 comes into core at click 1, text 0 first
   9  sr.  the swapper waits until somebody out of core can run, at priority -100
  10  sR.  process 1 runs
  11  rRo  process 1 makes process 2 in entry 2, in the swap area at block 4003
  12  rwo  process 1 waits for bytes in the pipe of inode 9, at priority 1
  13  Rwo  the swapper runs
  14  RWo  process 1 goes out of core, to block 4007; text 0 leaves core
  15  RWr  process 2 comes into core at click 1, text 0 first
  16  sWr  the swapper waits until somebody may go out of core, at priority -100
  17  sWR  process 2 runs
  18  sWR  process 2 leaves text 0, which leaves core
  19  sWz  process 2 ends; block 4003 keeps what its parent may ask for
  20  sWz  wakes those that wait for a child of process 1: nobody waits
  21  sWz  nobody can run
  22  sWz  a tick while nobody ran
  23  soz  process 1 gets signal 2
  24  so.  the parent of process 2 has waited for it
  25  so.  the system stops, for there is no room in the swap area
"""

CHANNELS = """boot 100 7
sleep 0 -100 runout
go 1
sleep 1 -50 disk.1
idle
wake disk.1
go 1
sleep 1 20 show
idle
wake show
go 1
sleep 1 10 keys.3
idle
wake keys.3
go 1
sleep 1 20 show.7
end
"""
TOLD_CHANNELS = """line  01
   1  Rr  the system begins, with 100 clicks of core, at 7 seconds
   2  sr  the swapper waits until somebody out of core can run, at priority -100
   3  sR  process 1 runs
   4  ss  process 1 waits for the disk, at priority -50
   5  ss  nobody can run
   6  sr  wakes those that wait for the disk, as process 1 does: process 1
   7  sR  process 1 runs
   8  sw  process 1 waits for room to write on the terminal, at priority 20
   9  sw  nobody can run
  10  sr  wakes those that wait for room to write on the terminal: process 1
  11  sR  process 1 runs
  12  sw  process 1 waits for keys of line 3, at priority 10
  13  sw  nobody can run
  14  sr  wakes those that wait for keys of line 3: process 1
  15  sR  process 1 runs
  16  sw  process 1 waits for room to write on the terminal of line 7, at priority 20
  17  sw  the script has ended
"""


class Log(Case):
    def log(self, *words):
        return self.call(log_main, *words)

    def text(self, name, text):
        return self.put(name, text.encode())

    def refused(self, text, said):
        status, _, error = self.log("show", self.text("bad", text))
        self.assertEqual((status, error), (1, f"log.py: {said}\n"))

    def test_show(self):
        name = self.text("log", TEXTS)
        self.assertEqual(self.log("show", name), (0, TOLD, ""))
        few = "".join(TOLD.splitlines(True)[:1] + TOLD.splitlines(True)[7:9])
        self.assertEqual(self.log("show", name, "--from", "7", "--to", "8"), (0, few, ""))

    def test_channels(self):
        self.assertEqual(self.log("show", self.text("log", CHANNELS)), (0, TOLD_CHANNELS, ""))
        for channel in ("keys.0", "keys.8", "keys.03", "show.8", "show.", "disk", "disk.01", "tout.1"):
            self.refused(f"boot 64 0\nsleep 0 -100 runout\nwake {channel}\n", f"line 3: no line of a log: 'wake {channel}'")

    def test_programs_and_moments(self):
        shell = os.path.join(TOP, "examples", "shell", "image")
        names = [self.path(name) for name in ("term", "log", "final")]
        script = self.text("script", "clock 7\nrun 10\ntick\nclock 1000\nrun 19000\ntype ls\nrun 30000\n")
        self.assertEqual(v6("run", shell, "1200", script, *names)[0], 0)
        status, out, _ = self.log("show", "--disk", shell, "--script", script, names[1])
        self.assertEqual(status, 0)
        told = [line.split(maxsplit=3) for line in out.splitlines()[1:]]
        passed = [int(words[1]) for words in told if "  a tick " in " ".join(words) or words[-1].startswith("a tick")]
        self.assertEqual(passed[:4], [7, 10, 1010, 2010])
        self.assertEqual((len(passed), passed[-1]), (51, 49010))
        self.assertTrue(any("has its new image of /bin/ls" in line for line in out.splitlines()))

    def test_what_becomes_of_a_text(self):
        """It leaves core with the last image there, by whatever line, and goes with its last user, where it isn't sticky."""
        begins = "boot 99 0\nsleep 0 -100 runout\ngo 1\nbare 1\ntext 1 0 1 swap 4000\nimage 1 30 swap 4001\ngo 0\nin 1 1\n"
        begins += "sleep 0 -100 runout\ngo 1\n"
        for lines, wanted in ((("size 1 99 swap 4001", "drop 1 0 plain"), ("; text 0 leaves core", ", which goes")),
                              (("size 1 31 at 32", "drop 1 0 sticky"), ("", ", which stays")),
                              (("fork 1 2 at 32", "drop 1 0 plain"), ("", "")),
                              (("fork 1 2 swap 4001", "size 1 99 swap 4005", "drop 1 0 sticky"),
                               ("", "; text 0 leaves core", ""))):
            name = self.text("log", begins + "\n".join([*lines, "panic swap\n"]))
            told = self.log("show", name, "--from", "11", "--to", str(10 + len(lines)))[1].splitlines()[1:]
            self.assertEqual(len(told), len(wanted))
            for line, end in zip(told, wanted):
                self.assertRegex(line, "(at (click|block) [0-9]+|leaves text 0)" + end + "$")
        self.assertIn("  process 1 makes text 0 of 1 click, in", self.log("show", name)[1])

    def test_programs_with_texts(self):
        """A program whose text is shared is known by its image and its text together."""
        for name, header in (("one", (0o407, 0, 64, 0)), ("two", (0o410, 100, 64, 0)), ("three", (0o410, 200, 64, 0))):
            self.put(name, struct.pack("<8H", *header, 0, 0, 0, 0) + bytes(264))
        self.put("disk", generated(0))
        for name in ("one", "two", "three"):
            self.assertEqual(self.call(disk_main, "--v6", V6, "put", self.path("disk"), self.path(name), "/" + name)[0], 0)
        lines = ("bare 1", "image 1 37 at 1", "bare 1", "text 1 0 4 swap 4000", "image 1 37 swap 4001", "drop 1 0 sticky",
                 "bare 1", "text 1 1 2 swap 4006", "image 1 37 swap 4007", "bare 1", "share 1 0", "image 1 37 swap 4007")
        name = self.text("log", "\n".join(["boot 99 0", "sleep 0 -100 runout", "go 1", *lines, "end\n"]))
        told = self.log("show", "--disk", self.path("disk"), name)[1].splitlines()
        self.assertEqual([line.partition(" image of ")[2].partition(",")[0] for line in told if "has its new image" in line],
                         ["/one", "/three", "/two", "/three"])

    def test_seconds(self):
        """The sixtieth tick ends a second, whatever it comes in."""
        ticks = ["tick u"] * 58 + ["tick k", "tick i", *["tick u"] * 60]
        name = self.text("log", "\n".join(["boot 64 7", "sleep 0 -100 runout", "go 1", *ticks, "time 500", *ticks, "end\n"]))
        told = [line.split("  ")[-1] for line in self.log("show", name)[1].splitlines()]
        self.assertEqual([(number, line) for number, line in enumerate(told) if "second " in line], [
            (63, "a tick while nobody ran; second 1 ends"), (123, "a tick in a program; second 2 ends"),
            (184, "a tick while nobody ran; second 3 ends"), (244, "a tick in a program; second 4 ends")])

    def test_slots_at_ticks(self):
        """Under a heading of its own, each tick has how many slots have passed."""
        name = self.text("log", "boot 64 0\nsleep 0 -100 runout\ntick i\ntick i\nend\n")
        out = self.log("show", "--script", self.text("script", "clock 12\nrun 30\n"), name)[1].splitlines()
        self.assertEqual([line[:14] for line in out], [
            "line    slots ", "   1          ", "   2          ", "   3       12 ", "   4       24 ", "   5          "])

    def test_spoiled(self):
        none = ((line, f"no line of a log: {line!r}") for line in ("go 01", "walk 1", "go  1", "nice 1 -0", ""))
        for line, why in (("go 60", "S is 0 to 49: go 60"), *none,
                          ("trap 7", "entry 7 is free there"), ("fork 1 1 at 9", "entry 1 isn't free there"),
                          ("share 1 3", "text 3 isn't in use there"), ("boot 64 0", "`boot` is the first line, and no other is")):
            self.refused(f"boot 64 0\nsleep 0 -100 runout\n{line}\nend\n", f"line 3: {why}")
        self.refused("go 1\nend\n", "line 1: `boot` is the first line, and no other is")
        self.refused("boot 64 0\nend\ngo 1\n", "line 3: a line after the last: go 1")
        self.refused(LOG, "line 8: text 3 isn't in use there")

    def test_the_last_user_of_a_text(self):
        begins = "boot 64 0\nsleep 0 -100 runout\ngo 1\nbare 1\ntext 1 0 20 swap 4000\nimage 1 30 swap 4003\nfork 1 2 swap 4007\n"
        self.refused(begins + "drop 1 0 plain\ndrop 2 0 plain\nshare 1 0\n", "line 10: text 0 isn't in use there")
        for drops in ("drop 1 0 plain\n", "drop 1 0 plain\ndrop 2 0 sticky\n"):
            self.assertEqual(self.log("show", self.text("log", begins + drops + "share 1 0\nend\n"))[0], 0)

    def test_numbers_go_round(self):
        child = "fork 1 2 at 18\nexit 2 swap 4000\nreap 2\n"
        name = self.text("log", "boot 64 0\nsleep 0 -100 runout\n" + "fork 1 3 at 40\n" + child * 32767 + "end\n")
        status, out, _ = self.log("show", name, "--from", str(4 + 3 * 32764))
        told = [line.split("process ")[2].split()[0] for line in out.splitlines() if "makes" in line]
        self.assertEqual((status, told), (0, ["32767", "3", "4"]))

    def test_cut(self):
        name = self.text("cut", TEXTS[: TEXTS.index("exit")])
        status, out, error = self.log("show", name)
        self.assertEqual((status, out), (1, TOLD[: TOLD.index("  19")]))
        self.assertEqual(error, f"log.py: {name}: the log ends within a run: its last line is neither `end` nor `panic`\n")

    def test_a_script_of_another_run(self):
        """One with another number of ticks is told; a run that didn't come to its end may have fewer."""
        ticks = "boot 64 0\nsleep 0 -100 runout\n" + "tick k\n" * 3
        for lines, script, wanted in (("end\n", "clock 5\nrun 15\n", None), ("end\n", "clock 5\nrun 20\n", (4, 3)),
                                      ("end\n", "tick\nrun 4\ntick\n", (2, 3)), ("panic swap\n", "clock 5\nrun 20\n", None),
                                      ("panic swap\n", "clock 5\nrun 14\n", (2, 3))):
            name, of = self.text("log", ticks + lines), self.text("script", script)
            said = "" if wanted is None else (f"log.py: {name}: the script isn't that of this run: it has {wanted[0]} ticks, and the "
                                              f"log {wanted[1]}\n")
            for command in ("show", "draw"):
                status, _, error = self.log(command, "--script", of, name)
                self.assertEqual((status, error), (int(wanted is not None), said))
        self.assertEqual(self.log("show", self.text("log", ticks + "end\n"))[0], 0)

    def audited(self, text, *words):
        """What `audit` says of a log, in lines, and its status."""
        status, out, error = self.log("audit", "--v6", V6, *words, self.text("log", text))
        self.assertEqual(error, "")
        return status, out.splitlines()

    def test_audit_of_a_lawful_log(self):
        for end in ("end\n", "end"):
            self.assertEqual(self.audited(LAWFUL + end), (0, ["lawful: 6 lines"]))

    def test_audit_shows_the_first_line_at_fault(self):
        bare = "boot 1200 0\nsleep 0 -100 runout\ngo 1\nbare 1\n"
        before = ["         2  sleep 0 -100 runout       the swapper waits until somebody out of core can run, at priority -100",
                  "         3  go 1                      process 1 runs",
                  "         4  bare 1                    process 1 gives back its image for a new program"]
        self.assertEqual(self.audited(bare + "image 1 37 at 2\ntrap 1\n"), (1, [
            "log: line 5 is not lawful", *before, ">        5  image 1 37 at 2",
            "`image S N ..`: S runs and has no place; N is 16 at least, and 2048 and core at most; and the place",
            "is that of first fit for N clicks.", "The rules would make it `image 1 37 at 1`: first fit for 37 clicks is `at 1`."]))
        self.assertEqual(self.audited(bare + "image 1 037 at 1\n"), (1, [
            "log: line 5 is no log line", *before, ">        5  'image 1 037 at 1'", "no line of a log: 'image 1 037 at 1'."]))
        self.assertEqual(self.audited(bare + "trap 1\n")[1][4:], [
            ">        5  trap 1", "entry 1 has given back its image. Nothing fits then but `text`, `share`, `image` of S and `panic`,",
            "until its `image`."])

    def test_audit_tells_the_rule(self):
        begins = "boot 1200 0\nsleep 0 -100 runout\n"
        choice = ["the least priority of those that can run is 0, that of entry 1."]
        for text, wanted in (("go 1\n", ["the first line is `boot`, with 64 to 3968 clicks."]),
                             ("boot 63 0\n", ["the first line is `boot`, with 64 to 3968 clicks.", "63 is less than 64."]),
                             ("boot 3969 0\n", ["the first line is `boot`, with 64 to 3968 clicks.", "3969 is more than 3968."]),
                             ("boot 64 0\ngo 1\n", ["the second is `sleep 0 -100 runout`."]),
                             ("boot 64 0\nboot 64 0\n", ["the second is `sleep 0 -100 runout`."]),
                             (begins + "boot 1200 0\n", [BEGINS[0] + ", and no other line is."]),
                             (begins + "go 1\n", ["the last is `end` or a `panic`, and none before it is."]),
                             ("", ["the file is empty: the first line is `boot`, with 64 to 3968 clicks."]),
                             ("boot 64 0\n", ["the last is `end` or a `panic`, and none before it is."]),
                             (LAWFUL + "end\nend\n", ["the last is `end` or a `panic`, and none before it is."]),
                             (begins + "go 0\n", ["The rules would make it `go 1`: " + choice[0]])):
            status, said = self.audited(text)
            self.assertEqual((status, said[-len(wanted):]), (1, wanted), text)

    def told_line(self, lines, begins="boot 1200 0\nsleep 0 -100 runout\ngo 1\n"):
        """What `audit` says of the last line of a log, which is at fault, after the rule."""
        text = begins + "".join(line + "\n" for line in lines)
        status, said = self.audited(text)
        self.assertEqual((status, said[0]), (1, f"log: line {text.count(chr(10))} is not lawful"), text)
        shown = said.index(f"> {text.count(chr(10)):8}  {lines[-1]}")
        return " ".join(said[shown + 1 :]).partition(RULES[lines[-1].split(" ")[0]][1] + ".")[2].strip()

    def assert_told(self, cases, *begins):
        """Of each: the lines, by commas, the one that is told for the last of them, and why."""
        for lines, told, why in cases:
            self.assertEqual(self.told_line(lines.split(", "), *begins), f"The rules would make it `{told}`: {why}.", lines)

    def test_audit_tells_the_line(self):
        """Each line is worked by hand: of first fit, of the table, and of who runs."""
        slot, text, fit = "the lowest free entry is 2, and ", "the lowest free text is 0, and ", "first fit for {} is `{}`".format
        nobody, to_sleep = "nobody in core can run", "sleep 1 40 wait.1, "
        self.assert_told((
            ("fork 1 2 at 1", "fork 1 2 at 18", slot + fit("17 clicks", "at 18")),
            ("fork 1 3 at 18", "fork 1 2 at 18", slot + fit("17 clicks", "at 18")),
            ("size 1 80 at 2", "size 1 80 at 18", fit("80 clicks", "at 18")),
            ("size 1 80 keep", "size 1 80 at 18", fit("80 clicks", "at 18")),
            ("size 1 16 at 18", "size 1 16 keep", "the size before is 17"),
            ("size 1 17 at 18", "size 1 17 keep", "the size before is 17"),
            ("size 1 1190 at 1", "size 1 1190 swap 4000", fit("1190 clicks", "swap 4000")),
            ("bare 1, text 1 0 9 swap 4001", "text 1 0 9 swap 4000", text + fit("2 blocks", "swap 4000")),
            ("bare 1, text 1 1 8 swap 4000", "text 1 0 8 swap 4000", text + fit("1 block", "swap 4000")),
            ("bare 1, text 1 0 20 swap 4000, image 1 30 at 1", "image 1 30 swap 4003",
             "its text isn't in core, and " + fit("30 clicks", "swap 4003")),
            ("exit 1 swap 4001", "exit 1 swap 4000", "this is the lowest free block"),
            ("tick k", "tick u", "somebody other than entry 0 runs, and is in no call"),
            (to_sleep + "tick u", "tick i", "nobody runs"),
            (to_sleep + "wake wait.1, go 1, tick u", "tick k", "one runs that is in a call, or entry 0 does"),
            (to_sleep + "end", "idle", nobody), (to_sleep + "idle, go 1", "idle", nobody)))

    def test_audit_tells_of_a_text(self):
        """An image whose text is in core may stand there; and who leaves a text leaves its own."""
        fit, slot = "first fit for 30 clicks is `{}`".format, "the lowest free entry is 2, and "
        self.assert_told((
            ("drop 1 1 sticky", "drop 1 0 sticky", "entry 1 has text 0"),
            ("fork 1 2 at 50", "fork 1 2 at 51", slot + fit("at 51")),
            ("drop 1 0 sticky, bare 1, share 1 0, image 1 30 at 1", "image 1 30 swap 4003",
             "its text isn't in core, and " + fit("swap 4003")),
            ("fork 1 2 at 51, drop 1 0 plain, bare 1, share 1 0, image 1 30 at 1", "image 1 30 at 21", fit("at 21")),
            ("drop 1 0 sticky, bare 1, text 1 0 1 swap 4003", "text 1 1 1 swap 4003",
             "the lowest free text is 1, and first fit for 1 block is `swap 4003`"),
        ), TEXTS[: TEXTS.index("fork")].replace("boot 64", "boot 1200"))

    def test_audit_tells_a_panic(self):
        """Three images of 2048 clicks have all of the swap area but 104 blocks, and a fourth has all of core."""
        nowhere = "first fit for 2048 clicks is nowhere"
        to_go_out = "trap 1, go 0, sleep 0 -100 runin, go 1, sleep 1 40 wait.1, go 0, "
        swapper = ("entry 2 has been out of core for longest, 0 seconds (1), and there is no room for 2048 clicks (2); entry 1 is the "
                   "lowest in core that waits so that a signal wakes it (3); but there are nowhere 256 blocks free for it")
        self.assert_told((
            ("fork 1 5 swap 4768", "panic swap", "the lowest free entry is 5, and " + nowhere),
            ("bare 1, text 1 0 2048 swap 4768", "panic swap",
             "the lowest free text is 0, and first fit for 256 blocks is nowhere"),
            ("bare 1, text 1 0 1 swap 4768, image 1 2048 at 1", "panic swap", "its text isn't in core, and " + nowhere),
            ("size 1 832 keep, fork 1 5 at 833, fork 1 6 swap 4768, exit 1 swap 4871", "panic zombie", "no block is free"),
            (to_go_out + "out 1 4768", "panic swap", swapper), (to_go_out + "panic zombie", "panic swap", swapper),
        ), FULL)
        for lines, part in (("size 1 2049 swap 4768", "2049 is more than 2048."), ("image 1 2048 at 1", "Entry 1 has a place."),
                            ("text 1 0 2048 swap 4768", "Entry 1 has a place."), ("panic zombie", "Block 4768 is free."),
                            ("panic text", "Entry 0 is free."), ("bare 1, image 1 2049 at 1", "2049 is more than 2048."),
                            ("bare 1, text 1 0 2049 swap 4768", "2049 is more than 2048."),
                            ("bare 1, text 1 0 8 swap 4768, image 1 824 swap 4769, exit 1 swap 4000", "Entry 1 has text 0.")):
            self.assertEqual(self.told_line(lines.split(", "), FULL), part, lines)  # nothing of the kind is due
        self.assertEqual(self.told_line(["fork 2 5 swap 4768"], FULL), "Entry 1 runs there.")

    def test_audit_tells_the_panic_of_texts(self):
        """Forty texts of a block each, which stay."""
        texts = "".join(f"bare 1, text 1 {text} 1 swap {4000 + text}, image 1 16 swap {4001 + text}, drop 1 {text} sticky, "
                        for text in range(40))
        self.assert_told(((texts + "bare 1, text 1 0 1 swap 4040", "panic text", "all forty texts are in use"),))

    def assert_parts(self, cases, *begins):
        for lines, part in cases:
            self.assertEqual(self.told_line(lines.split(", "), *begins), part and part + ".", lines)

    def test_audit_tells_the_part(self):
        """Where the rules give no line: which part of the rule doesn't hold. Entry 1 runs, with 17 clicks, of 1200 in core."""
        place, forks = "Entry 1 has a place", "fork 1 2 at 18, "
        self.assert_parts((
            ("size 1 8 keep", "8 is less than 16"), ("size 1 3000 at 18", "3000 is more than 2048"),
            ("size 1 1201 swap 4000", "1201 is more than core, which has 1200 clicks"),
            ("bare 1, image 1 15 at 1", "15 is less than 16"), ("bare 1, image 1 4000 at 90", "4000 is more than 2048"),
            ("bare 1, text 1 0 0 swap 4000", "0 is less than 1"),
            ("bare 1, text 1 0 1201 swap 4000", "1201 is more than core, which has 1200 clicks"),
            ("image 1 30 at 18", place), ("image 1 8 at 18", place), ("text 1 0 9 swap 4000", place), ("share 1 0", place),
            ("bare 1, share 1 3", "Text 3 isn't in use"),
            ("drop 1 0 plain", "Entry 1 has no text"), ("signal 2 1", "Entry 2 is empty"), ("reap 2", "Entry 2 is empty"),
            ("reap 1", "The process in entry 1 hasn't ended"), (forks + "reap 2", "The process in entry 2 hasn't ended"),
            (forks + "sleep 1 40 wait.1, go 2, exit 2 swap 4000, wake wait.1, go 1, reap 2, signal 2 1", "Entry 2 is empty"),
            ("signal 0 1", "S is 0, and entry 0 is the swapper's"), ("reap 0", "The process in entry 0 hasn't ended"),
            ("panic zombie", "Block 4000 is free"), ("panic text", "Entry 0 is free"),
            ("panic swap", "There is a piece of 150 free blocks, from block 4000 on"),
            ("bare 1, panic swap", "There is a piece of 150 free blocks, from block 4000 on")))
        self.assert_parts((("panic swap", "There is a piece of 256 free blocks, from block 4000 on"),),
                          "boot 3968 0\nsleep 0 -100 runout\ngo 1\n")

    def test_audit_tells_the_part_of_a_text(self):
        """Entry 1 runs with text 0, of 20 clicks in block 4000, and an image of 30 after it in core."""
        self.assert_parts((
            ("bare 1", "Entry 1 has text 0"), ("exit 1 swap 4003", "Entry 1 has text 0"), ("share 1 0", "Entry 1 has a place"),
            ("drop 1 0 plain, bare 1, share 1 0", "Text 0 isn't in use"),
            ("drop 1 0 sticky, bare 1, share 1 0, share 1 0", "Entry 1 has text 0"),
            ("drop 1 0 sticky, bare 1, share 1 0, text 1 1 9 swap 4003", "Entry 1 has text 0"),
            ("drop 1 0 sticky, panic text", "Entry 1 is free"), ("panic zombie", "Block 4003 is free"),
            ("drop 1 0 sticky, drop 1 0 sticky", "Entry 1 has no text"),
        ), TEXTS[: TEXTS.index("fork")].replace("boot 64", "boot 1200"))

    def test_audit_tells_the_part_of_a_sleep(self):
        """The priorities are those of the page's table; entry 0 alone sleeps for two of the channels."""
        of_wait, of_disk = (f"Of the channels {kind}.S entry 1 may sleep for {kind}.1 alone" for kind in ("wait", "disk"))
        self.assert_parts([(f"sleep 1 {wrong} {channel}", f"The priority of {channel} is {right}") for channel, right, wrong in (
            ("wait.1", 40, 41), ("read.9", 1, -1), ("write.9", 1, 10), ("keys", 10, 20), ("keys.3", 10, 9), ("show", 20, 10),
            ("show.7", 20, -20), ("tout", 90, 10), ("disk.1", -50, 50))])
        self.assert_parts((("sleep 1 40 wait.2", of_wait), ("sleep 1 41 wait.2", of_wait), ("sleep 1 -50 disk.0", of_disk),
                           ("sleep 1 -100 runin", "Entry 0 alone sleeps for runin"),
                           ("sleep 1 -100 runout", "Entry 0 alone sleeps for runout")))

    def test_audit_tells_that_no_slot_is_free(self):
        """Entries 2 to 49 are of children with 17 clicks each, one after the other; then entry 0 runs, which makes no call."""
        forks = "".join(f"fork 1 {slot} at {1 + 17 * (slot - 1)}, " for slot in range(2, 50))
        self.assert_parts(((forks + "fork 1 2 at 834", "No entry is free"),))
        to_slot_0 = "size 1 1200 swap 4000, trap 1, go 0, "
        for line in ("trap 0", "nice 0 1", "size 0 16 keep", "fork 0 2 at 18", "drop 0 0 plain", "bare 0", "text 0 0 1 swap 4150",
                     "share 0 0", "image 0 16 at 18", "exit 0 swap 4150"):
            self.assert_parts(((to_slot_0 + line, "S is 0, and entry 0 is the swapper's"),))

    def test_audit_tells_who_runs(self):
        """Where that is another than the line wants."""
        waits, fills = "sleep 1 40 wait.1, ", "size 1 1200 swap 4000, trap 1, go 0, "
        for lines, runs in (("size 2 80 at 18", 1), ("fork 2 3 at 18", 1), ("exit 2 swap 4000", 1), ("bare 1, image 2 30 at 1", 1),
                            ("out 1 4000", 1), ("in 1 18", 1), ("sleep 0 -100 runin", 1), ("trap 0", 1), (waits + "trap 1", None),
                            (waits + "time 1", None), (waits + "reap 1", None), (waits + "panic swap", None), (fills + "time 1", 0),
                            (fills + "reap 1", 0), (fills + "nice 1 1", 0), (fills + "bare 1", 0)):
            said = "Nobody runs there." if runs is None else f"Entry {runs} runs there."
            self.assertEqual(self.told_line(lines.split(", ")), said, lines)

    def test_audit_tells_that_there_is_no_choice(self):
        """Entry 1 runs, and no new choice is asked for; it is in a call, up to its `trap`; entry 0 runs, which gives up for none."""
        begins = "boot 1200 3\nsleep 0 -100 runout\ngo 1\n"
        in_a_call = ["fork 1 2 at 18", "sleep 1 40 wait.1", "go 2", "sleep 2 10 keys", "wake wait.1", "go 1", "wake keys"]
        second = [*["tick u"] * 59, "size 1 1200 swap 4000", "trap 1", "go 0", "tick k"]  # every fourth asks for a choice
        for lines in (["go 1"], ["idle"], ["fork 1 2 at 18", "go 2"], [*in_a_call, "go 2"], [*second, "go 0"], [*second, "idle"]):
            self.assertEqual(self.told_line(lines, begins), "There is no choice there.", lines)
        self.assert_told(((", ".join([*in_a_call, "trap 1, go 1"]), "go 2",
                           "the least priority of those that can run is 10, that of entry 2"),), begins)

    def test_audit_tells_only_what_is_lawful(self):
        """Where the tool's rules and the program's differ, the tool's aren't told."""
        for rules, lines, told in (("go 2", ["sleep 1 40 wait.1", "go 1"], ""), ("go 2", ["sleep 1 40 wait.1", "idle", "go 1"], ""),
                                   ("go 1", ["go 1"], "There is no choice there.")):
            with unittest.mock.patch("v6.log.choices.Ruled.next_choice", lambda table: (rules, "so it is")):
                self.assertEqual(self.told_line(lines), told, lines)
        with unittest.mock.patch("v6.log.choices.Ruled.next_move", lambda table: ("in 1 2", "so it is")):
            for line in ("panic swap", "panic zombie", "panic text", "sleep 0 -99 runin", "sleep 0 -100 tout"):
                self.assertEqual(self.told_line(["size 1 1200 swap 4000", "trap 1", "go 0", line]), "", line)

    def test_audit_of_numbers_that_no_line_has(self):
        for line, part in (("wake read.0", "I of read.I is 1 to 65535"), ("sleep 1 1 write.65536", "I of write.I is 1 to 65535"),
                           ("wake wait.50", "S of wait.S is 0 to 49"), ("wake disk.50", "S of disk.S is 0 to 49"),
                           ("go 50", "S is 0 to 49"), ("nice 1 200", "P is -128 to 127"), ("nice 1 -129", "P is -128 to 127"),
                           ("fork 1 50 at 18", "T is 0 to 49"), ("share 1 40", "K is 0 to 39"),
                           ("exit 1 swap 3999", "B is 4000 to 4871"), ("signal 1 20", "X is 1 to 19"), ("size 1 65536 keep", "N is 0 to 65535"),
                           ("time 4294967296", "TIME is 0 to 4294967295"), ("in 1 65536", "C is 0 to 65535")):
            name = f"boot 64 0\nsleep 0 -100 runout\n{line}\n"
            self.assertEqual(self.audited(name)[1][-1], f"{part}: {line}.")
            self.refused(name, f"line 3: {part}: {line}")

    def test_audit_of_lines_that_are_none(self):
        """One of more than eighty bytes, whatever they are, one with a carriage return, and one of eighty bytes."""
        for line, shown, why in (("a" * 100, repr("a" * 80) + "..", "it has 100 bytes, and a line has 80 at most"),
                                 ("wake read." + "9" * 71, repr("wake read." + "9" * 70) + "..",
                                  "it has 81 bytes, and a line has 80 at most"),
                                 ("go 1\r", r"'go 1\r'",
                                  "a line ends by a line feed alone, and this one has a carriage return at its end"),
                                 ("b" * 80, repr("b" * 80), "no line of a log: " + repr("b" * 80))):
            text = f"boot 64 0\nsleep 0 -100 runout\n{line}\n"
            status, said = self.audited(text)
            self.assertEqual((status, said[0]), (1, "log: line 3 is no log line"))
            self.assertEqual((said[3], " ".join(said[4:])), (f">        3  {shown}", why + "."))
            self.refused(text, f"line 3: {why}")
        long = "go " + "1" * 5000
        self.refused(f"boot 64 0\nsleep 0 -100 runout\n{long}\n", "line 3: it has 5003 bytes, and a line has 80 at most")

    def spoiled(self, lines, how):
        """A log with a line that is none from somewhere on, or cut within a line, and the number of that line."""
        at = self.random.randrange(2, len(lines) - 1)
        word, *rest = lines[at].split(" ")
        wrong = {"channel": f"wake {self.random.choice(('keys.8', 'keys.0', 'show.01', 'disk.50', 'disk'))}", "word": "hangup 1",
                 "number": " ".join([word, "0" + rest[0], *rest[1:]] if rest else [word, ""]), "byte": lines[at] + chr(self.random.randrange(128, 256)),
                 "blank": " " + lines[at], "cut": lines[at][:-1]}[how]
        return "\n".join([*lines[:at], wrong, *lines[at + 1 :] * (how != "cut")]) + "\n" * (how != "cut"), at + 1

    def test_spoiled_logs_of_eight_lines(self):
        """Of a run with two logins and a hangup: each command names the line of the log that is wrong, in one line, and draws nothing;
        look.py says that it isn't that of the run. Where what is left of a line that is cut is a line too, the log is drawn up to there."""
        image, log, out = os.path.join(TOP, "examples", "timesharing", "image"), self.path("log"), self.path("out.svg")
        script = self.text("script", "run 9000\ndisk 50\ntype guest\nrun 9000\nline 1\ntype guest\nrun 9000\nhangup 1\nrun 9000\n")
        self.assertEqual(v6("run8", image, "3968", script, self.path("term"), log, self.path("final"))[0], 0)
        self.assertEqual(self.log("audit", "--v6", V6, log)[0], 0)
        lines = read(log).decode().splitlines()
        self.assertTrue({"wake keys.1", "wake disk.2"} < set(lines))
        for how in 2 * ("channel", "word", "number", "byte", "blank", "cut"):
            text, at = self.spoiled(lines, how)
            name = self.put("spoiled", text.encode("latin-1"))
            fault = rf"log\.py: .*(line {at}: .*|the log ends within a run.*)\n" if how == "cut" else rf"log\.py: .*\bline {at}: .*\n"
            for words in (("show", name), ("draw", name, "-o", out), ("diff", log, name), ("ask", name)):
                status, _, said = self.ran(log_main, *words, typed=b"go 1\n" * 200)
                is_drawn = words[0] == "draw" and "the log ends within a run" in said
                self.assertEqual((status, os.path.exists(out)), (1, is_drawn), (words, how))
                self.assertRegex(said, f"^{fault}$", (words, how))
                if is_drawn:
                    os.unlink(out)
            status, shown, said = self.log("audit", "--v6", V6, name)
            self.assertEqual((status, said), (1, ""))
            self.assertRegex(shown, f"^log: line ({at}|{at + 1}) is " if how == "cut" else f"^log: line {at} is no log line\n", how)
            said = self.call(look_main, "--v6", V6, "--eight", "--log", name, "-c", "quit", image, "3968", script)[2]
            self.assertRegex(said, rf"^look\.py: .*: (line {at} is of another run|it is cut after line {at - 1};)", how)

    def test_audit_without_the_program(self):
        name = self.text("log", LAWFUL + "end\n")
        status, out, error = self.log("audit", "--v6", self.path("none"), name)
        self.assertEqual((status, out), (1, ""))
        self.assertIn("the program v6 is wanted", error)
        self.assertEqual(self.log("audit", "--v6", V6, self.path("none"))[0], 1)

    def test_rules_are_those_of_the_page(self):
        """Each rule stands in the page's table, with the same forms, and no row of that is left out."""
        text = read(os.path.join(TOP, "docs", "manual", "log.md")).decode()
        part = text.split("## Which logs are lawful")[1].split("\n## ")[0]
        rows = [tuple(cell.strip() for cell in line.split("|")[1:3]) for line in part.splitlines() if line.startswith("| `")]
        self.assertEqual(sorted(rows), sorted(set(RULES.values())))
        self.assertEqual(sorted(RULES), sorted(FORMS.keys() - {"boot"}))
        for rule in (*BEGINS, ENDS):
            self.assertIn(rule, " ".join(part.split()).replace("The first line", "the first line"))

    def test_draw(self):
        name, out = self.text("log", TEXTS), self.path("out.svg")
        self.assertEqual(self.log("draw", name, "-o", out), (0, "", ""))
        rects = [(rect.get("x"), rect.get("y"), rect.get("width"), rect.find(SVG + "title").text)
                 for rect in tree.fromstring(read(out)).iter(SVG + "rect") if rect.find(SVG + "title") is not None]
        # 25 columns of 40 points each, from 150 on; lanes of 22 points from 58 on
        lanes = [[rect for rect in rects if rect[1] == str(58 + 22 * slot)] for slot in range(3)]
        self.assertEqual([(rect[0], rect[2], rect[3]) for rect in lanes[2]],
                         [("550.0", "160.0", "could run, out of core"), ("710.0", "80.0", "could run"), ("790.0", "80.0", "runs"),
                          ("870.0", "200.0", "has ended, not waited for")])
        held = {rect[3] for rect in rects if ":" in rect[3]}
        self.assertEqual(held, {"process 1: 1 to 17", "text 0: 4000 to 4002", "process 1: 4003 to 4006", "text 0: 1 to 20",
                                "process 1: 21 to 50", "process 2: 4003 to 4006", "process 1: 4007 to 4010", "process 2: 21 to 50",
                                "process 2: 4003 to 4003"})

    def drawn(self, text, *words):
        """The height of a picture of a log, its texts as (x, y, text), and its pieces as (y, height, text)."""
        status, shown, error = self.log("draw", *words, self.text("log", text))
        self.assertEqual((status, error), (0, ""))
        picture = tree.fromstring(shown)
        pieces = [(float(rect.get("y")), float(rect.get("height")), rect.find(SVG + "title").text) for rect in picture.iter(SVG + "rect")
                  if rect.find(SVG + "title") is not None and ":" in rect.find(SVG + "title").text]
        return (int(picture.get("height")), [(float(one.get("x")), float(one.get("y")), one.text) for one in picture.iter(SVG + "text")],
                pieces)

    def test_draw_nothing(self):
        name = self.text("log", "")
        self.assertEqual(self.log("draw", name), (1, "", f"log.py: {name}: the log is empty\n"))

    def test_a_map_is_as_high_as_core(self):
        """An image of 17 clicks is that part of the map of core, whatever is held; a large core has a higher map."""
        for core, high in ((100, 240), (1200, 300), (3968, 480)):
            _, texts, pieces = self.drawn(f"boot {core} 0\nsleep 0 -100 runout\ngo 1\nend\n")
            (top, height, told), = pieces
            self.assertEqual((told, round(height, 1)), ("process 1: 1 to 17", round(17 * high / core, 1)))
            numbers = [(at, text) for x, at, text in texts if x == 145]
            self.assertEqual((numbers[0], numbers[-1]), ((top + 8, "1"), (top + high, str(core))))

    def test_no_empty_swap_map(self):
        """Where nobody ever held a block there is no map of the swap area; else it ends where the last was held."""
        begins = "boot 100 0\nsleep 0 -100 runout\ngo 1\n"
        without, texts, _ = self.drawn(begins + "end\n")
        self.assertNotIn("swap area: blocks", [text for *_, text in texts])
        for line, last, high in (("out 1 4000", 4002, 24), ("out 1 4010", 4012, 60), ("out 1 4869", 4871, 150)):
            height, texts, _ = self.drawn(begins + line + "\nend\n")
            self.assertIn("swap area: blocks", [text for *_, text in texts])
            self.assertEqual([text for x, _, text in texts if x == 145], ["1", "17", "100", "4000", str(last)])
            self.assertEqual(height, without + 30 + high)

    def test_an_axis_of_slots(self):
        """Slots are known at the beginning, at ticks, and at the end: with a tick in each ten, 60 ticks are at lines 4 to 63."""
        text = "boot 100 0\nsleep 0 -100 runout\ngo 1\n" + "tick u\n" * 60 + "end\n"
        script = self.text("script", "clock 10\nrun 605\n")
        _, texts, _ = self.drawn(text, "--script", script)
        y, = [at for _, at, told in texts if told == "slots passed"]
        shown = [(x, told) for x, at, told in texts if at == y][1:]
        # 64 lines, a column each; the tick of slot 100 is the tenth, on line 13; those after 550 are too near to the end
        places = {0: 1, 100: 13, 200: 23, 300: 33, 400: 43, 500: 53, 605: 64}
        self.assertEqual(shown, [(round(150 + (line - 1) * 1000 / 64, 2), str(slots)) for slots, line in places.items()])
        self.assertNotIn("slots passed", [told for *_, told in self.drawn(text)[1]])
        cut = self.drawn(text.replace("end\n", "panic swap\n"), "--script", script)[1]
        self.assertNotIn("605", [told for *_, told in cut])  # how far a run came that stopped isn't known

    def test_page(self):
        """The page shows what the commands on it show."""
        shell, names = os.path.join(TOP, "examples", "shell"), [self.path(name) for name in ("term", "log", "final")]
        self.assertEqual(v6("run", os.path.join(shell, "image"), "1200", os.path.join(shell, "script"), *names)[0], 0)
        page = read(os.path.join(TOP, "docs", "tools", "log.md")).decode()
        shown = self.log("show", "--disk", os.path.join(shell, "image"), "--from", "26", "--to", "38", names[1])[1]
        self.assertIn("\n\n" + shown + "```\n", page)
        self.assertEqual(self.log("draw", names[1])[1], read(os.path.join(TOP, "docs", "tools", "log.svg")).decode())

    def test_page_of_an_audit(self):
        hi, names = os.path.join(TOP, "examples", "hi"), [self.path(name) for name in ("term", "log", "final")]
        self.assertEqual(v6("run", os.path.join(hi, "image"), "1200", os.path.join(hi, "script"), *names)[0], 0)
        lines = read(names[1]).decode().splitlines(True)
        lines[4] = lines[4].replace("at 1", "at 2")
        status, shown, _ = self.log("audit", "--v6", V6, self.text("spoiled", "".join(lines)))
        self.assertEqual(status, 1)
        self.assertIn("\n\n" + shown + "```\n", read(os.path.join(TOP, "docs", "tools", "log.md")).decode())

    def test_book(self):
        """The procedure of each line stands before what it tells, with its line in the book; the end of a script has none."""
        name = self.text("log", "boot 64 0\nsleep 0 -100 runout\ngo 1\ntick u\nend\n")
        self.assertEqual(self.log("show", "--book", name)[1].splitlines()[1:], [
            "   1  Rr  main (1550)     the system begins, with 64 clicks of core, at 0 seconds",
            "   2  sr  sleep (2066)    the swapper waits until somebody out of core can run, at priority -100",
            "   3  sR  swtch (2178)    process 1 runs", "   4  sR  clock (3725)    a tick in a program",
            "   5  sR                  the script has ended"])
        shell, names = os.path.join(TOP, "examples", "shell"), [self.path(name) for name in ("term", "log", "final")]
        self.assertEqual(v6("run", os.path.join(shell, "image"), "1200", os.path.join(shell, "script"), *names)[0], 0)
        shown = self.log("show", "--book", "--disk", os.path.join(shell, "image"), "--from", "26", "--to", "29", names[1])[1]
        self.assertIn("\n\n" + shown + "```\n", read(os.path.join(TOP, "docs", "tools", "log.md")).decode())

    def test_page_of_seconds(self):
        """The page's lines of the example crowd, in which a second is 600 slots."""
        crowd = os.path.join(TOP, "examples", "crowd")
        image, script = self.disk_of(os.path.join(crowd, "crowd.s")), os.path.join(crowd, "script")
        names = [self.path(name) for name in ("term", "log", "final")]
        self.assertEqual(v6("run", image, "100", script, *names)[0], 0)
        shown = self.log("show", "--script", script, "--from", "269", "--to", "277", names[1])[1]
        self.assertIn("\n\n" + shown + "```\n", read(os.path.join(TOP, "docs", "tools", "log.md")).decode())
        drawn = self.log("draw", "--script", script, names[1])[1]
        self.assertEqual(drawn, read(os.path.join(crowd, "crowd.svg")).decode())
        self.assertIn("     2400 rWrRo  a tick in a program; second 4 ends\n", shown)

    def test_on_paper(self):
        """Without colours, too: processes with numbers next to each other differ in brightness by a tenth, and a text from all."""
        def light(holder):
            red, green, blue = bytes.fromhex(logpicture.colour(holder)[1:])
            return (0.299 * red + 0.587 * green + 0.114 * blue) / 255

        for number in range(1, 100):
            self.assertGreater(abs(light(str(number)) - light(str(number + 1))), 0.1, number)
            self.assertGreater(light(str(number)) - light("text 0"), 0.1, number)
        plain = [fill for fill, _ in logpicture.STATES.values() if not fill.startswith("url")]
        self.assertEqual(len(set(plain)), len(plain))
        greys = sorted(sum(bytes.fromhex(fill[1:])) / 765 for fill in plain)
        self.assertGreater(min(high - low for low, high in zip(greys, greys[1:])), 0.1)

    def test_the_page_that_is_printed(self):
        """A picture with few lanes is printed across, one with many upright; both are made as wide as the page."""
        forks = "".join(f"fork 1 {number} swap {4000 + 10 * number}\n" for number in range(2, 50))
        few = self.log("draw", self.text("few", TEXTS))[1]
        many = self.log("draw", self.text("many", "boot 1200 0\nsleep 0 -100 runout\ngo 1\n" + forks + "end\n"))[1]
        for shown, side in ((few, "landscape"), (many, "portrait")):
            self.assertIn(f"@page {{ size: {side};", shown)
            self.assertIn("@media print { svg { width: 100%; height: auto; max-height: 100vh } }", shown)

    def test_a_lane_s_name(self):
        """It has as many of the processes that were in the entry as there is room for, and always one."""
        forks = "".join(f"fork 1 2 at {at}\nexit 2 swap 4000\nreap 2\n" for at in range(40, 80))
        name = self.text("log", "boot 1200 0\nsleep 0 -100 runout\ngo 1\n" + forks + "end\n")
        status, shown, _ = self.log("draw", name)
        self.assertEqual(status, 0)
        self.assertIn(">entry 2: process 2, 3, 4 ..<", shown)
        self.assertIn(">entry 1: process 1<", shown)

    def test_a_label_is_in_its_piece(self):
        """The number of a holder stands within the piece that it names."""
        status, shown, _ = self.log("draw", self.text("log", TEXTS.replace("text 1 0 20", "text 1 0 16")))  # two blocks
        self.assertEqual(status, 0)
        parts, labels = list(tree.fromstring(shown)), 0
        for piece, label in zip(parts, parts[1:]):
            title = piece.find(SVG + "title")
            if label.tag == SVG + "text" and title is not None and title.text.startswith(("process ", "text ")):
                top, high, bottom = float(piece.get("y")), float(piece.get("height")), float(label.get("y"))
                self.assertLessEqual(top, bottom - 7)  # of a letter of nine units
                self.assertLess(bottom, top + high)
                labels += 1
        self.assertGreater(labels, 3)

    def test_a_long_log_is_thinned(self):
        turns = "go 1\nsleep 1 10 keys\nwake keys\ngo 1\ntrap 1\n" * 20000
        name, out = self.text("log", "boot 64 0\nsleep 0 -100 runout\n" + turns + "end\n"), self.path("out.svg")
        self.assertEqual(self.log("draw", name, "-o", out), (0, "", ""))
        lane = [rect for rect in tree.fromstring(read(out)).iter(SVG + "rect") if rect.get("y") == "80"]
        self.assertEqual([rect.find(SVG + "title").text for rect in lane], ["runs"])

    def test_diff(self):
        one = self.text("one", TEXTS)
        self.assertEqual(self.log("diff", one, one), (0, "", ""))
        other = self.text("other", TEXTS.replace("boot 64", "boot 70").replace("reap 2\npanic swap", "wake tout\nend"))
        status, out, error = self.log("diff", one, other)
        self.assertEqual((status, error), (1, ""))
        lines = [line.split() for line in out.splitlines()]
        self.assertEqual([(words[0], words[1], words[2]) for words in lines[:2]], [("<", "1", "boot"), (">", "1", "boot")])
        self.assertEqual(out.splitlines()[2], "the same up to line 23")
        self.assertEqual([words[0] for words in lines[3:]], ["21", "22", "23", "<", "<", ">", ">", "from"])
        self.assertEqual(out.splitlines()[-1], "from there on: end 0/1, panic 1/0, reap 1/0, wake 0/1")
        cut = self.text("cut", "".join(TEXTS.splitlines(True)[:5]))
        self.assertIn("> " + " " * 10 + f"{cut} ends here\n", self.log("diff", one, cut)[1])
        self.assertEqual(self.log("diff", one, self.text("none", ""))[0], 1)

    def test_outputs(self):
        self.assertEqual(self.log("show", self.path("none")), (1, "", f"log.py: {self.path('none')}: No such file or directory\n"))
        self.assertEqual(self.log("walk")[0], 2)
        name, bad = self.text("log", TEXTS), self.text("bad", "walk\n")
        self.assertEqual(self.log("show", "--script", bad, name)[2], f"log.py: {bad}: line 1: 'walk': no line of a script\n")
