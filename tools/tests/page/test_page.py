"""page.py: what its pages hold at each line of a log, and what is refused. test_page_browser.py opens them in a browser."""
import hashlib
import os
import re
import tempfile
import unittest
from array import array

from tests.common import TOP, Case, generated, read, tool, v6
from tests.page.pagereader import Read, process_of, shown, table_of

from v6.debug.views import ROW
from v6.log.picture import COLUMNS, LEFT
from v6.page.pack import Panels, Texts, packed
from v6.rows.file import HI, Row, names
from v6.run.moments import Script
from v6.run.script import ELSEWHERE, lines_of

page, look, as_main, disk_main, log_main = tool("page"), tool("look"), tool("as").main, tool("disk").main, tool("log").main
LIONS = os.path.join(TOP, "docs", "lions", "src")
OUT = re.compile(r"^.*out of core, to block")
NAME = b"<img src=x>&\"'"  # of a program, of a file and of arguments
ODD = """
	sys	open; tty; 2
	sys	exec; name; list
list:	name+1; name; codes; 0
tty:	</dev/tty8\\0>
name:	{name}
codes:	{codes}
"""
WRITES = """
	sys	creat; name; 666	/ file 1
	mov	$1,r0
	sys	write; codes; 128.
	sys	open; name; 0		/ file 2
1:
	mov	$2,r0
	sys	read; line; 32.
	tst	r0
	beq	.
	clr	r0
	sys	write; line; 32.
	br	1b
name:	{name}
codes:	{codes}
	.even
line:	.=.+32.
"""
WAITS = b"""
	sys	open; tty; 2
	sys	fork
	br	1f
	sys	fork
	br	2f
	sys	wait
	br	.
1:
	clr	r0
	sys	read; line; 100.
	br	1b
2:
	mov	$100.,r0
	sys	sleep
	br	2b
tty:	</dev/tty8\\0>
	.even
line:	.=.+100.
"""
GONE = """
	sys	unlink; name
	{more}
1:
	mov	$1,r0
	sys	sleep
	br	1b
name:	</etc/init\\0>
"""
OVERWRITES = "mov\t$240,r1; mov\t$end,r2; 2: mov\tr1,(r2)+; cmp\tr2,$end+400.; blo\t2b; jmp\t3f; end: .=.+400.; 3:"
MADE = {}  # pages and what their commands said, by the words of these, and by what the files hold that they name
LINES, SLOTS = range(6, 61), 16  # of a row that is taken: the lines of its log after the boot, and the most slots


class Made(Case):
    """Runs of the lessons, and their pages."""

    def disk(self, source, names="-s"):
        """A disk whose /etc/init is this program of the lessons, with names, or with `-g` with the lines of its source too."""
        return self.disk_of(os.path.join(LIONS, source), names)

    def made(self, *words):
        """The page of a command, which is made once for all tests, and what its command says."""
        key = tuple((os.path.basename(word), hashlib.sha256(read(word)).digest()) if os.path.isfile(word) else word for word in words)
        if key not in MADE:
            status, out, error = self.call(page.main, *words, "-o", self.path("page.html"))
            self.assertEqual((status, out), (0, ""), error)
            MADE[key] = read(self.path("page.html")), error
        made, error = MADE[key]
        self.put("page.html", made)
        return Read(made), error

    def pair(self):
        return self.disk("pair.s"), "1200", self.put("script", b"run 60\ntype one\nrun 60\ntype two\nrun 60\n")

    def crowd(self, slots=700):
        return self.disk("crowd.s"), "100", self.put("script", b"clock 10\nrun %d\n" % slots)

    def odd(self):
        """A run in which a program, its arguments and a file have signs of HTML in their names; it reads all codes, and writes them."""
        def octal(data):
            return ".byte\t" + ",".join(f"{byte:o}" for byte in data)

        image = self.put("image", generated(0))
        texts = {"/etc/init": (ODD, b"/" + NAME, bytes(range(1, 128))), "/" + NAME.decode(): (WRITES, NAME[:-2] + b"o", bytes(range(128)))}
        for place, (source, name, codes) in texts.items():
            source = self.put("odd.s", source.format(name=octal(name + b"\0"), codes=octal(codes + b"\0")).encode())
            self.assertEqual(self.call(as_main, "-s", "-o", self.path("program"), source), (0, "", ""))
            self.assertEqual(self.call(disk_main, "put", image, self.path("program"), place)[:2], (0, ""))
        return image, "1200", self.put("script", b"run 400\n")

    def rows(self, count):
        """COUNT rows, drawn at random, as runs: of those that are done within few slots at line 0 alone, with some lines in their logs."""
        known, base, found = names(), read(HI), {}
        while len(found) < count:
            row = Row(self.random.choice(known))
            lines = (row.log or b"").count(b"\n")
            elsewhere = any(ELSEWHERE.fullmatch(line) for line in lines_of(row.script))
            if row.ends() and not elsewhere and row.disk.numbers["made"] is None and lines in LINES and Script(row.script).slots <= SLOTS:
                image, script = self.put(f"image.{len(found)}", row.image(base)), self.put(f"script.{len(found)}", row.script)
                found.setdefault(row.name, (image, str(row.numbers["core"]), script))
        return found

    def looker(self, words):
        folder = tempfile.TemporaryDirectory()
        self.addCleanup(folder.cleanup)
        return look.looker_of(look.options_of(list(words)), folder.name)


class Runs(Made):
    def same(self, found, looker, line):
        """What a page has at a line is what look.py shows there."""
        moment, panels = looker.moment, found.at(line)
        self.assertTrue(moment.first < line <= moment.lines and found.slot(line) == moment.slots, (line, moment.slots))
        self.assertIn(found.words(line), looker.lines_of("log 1")[-1])
        second, who = re.search(r", second (\d+), .*: ([^:]*)$", looker.views.head(moment)).groups()
        self.assertEqual(panels["second"], [second], line)
        self.assertEqual(panels["running"][0].partition(" ")[2], who if moment.running() is not None else "", line)
        self.assertEqual(table_of(panels, ROW), looker.lines_of("ps")[1:], line)
        for name in ("core", "swap", "texts"):
            self.assertEqual(shown(panels[name]), looker.lines_of(name), line)
        for slot, row in moment.whole.table.rows.items():
            self.assertEqual(process_of(panels, slot), looker.views.process(moment.whole, row.number), (line, row.number))

    def same_terminal(self, found, looker, line):
        """What the terminal has shown at a line is what it shows in the run that is cut at its moment."""
        run = looker.history.run
        run.played(run.script.cut(looker.moment.slots, True))
        self.assertEqual(found.terminal(line), read(run.names("term")[0]), line)

    def compare(self, words, lines):
        """What a page has at some lines is what look.py shows there."""
        found, said = self.made(*words)
        self.assertEqual(said, "")
        looker = self.looker(words)
        log = looker.history.run.log
        self.assertEqual([found.head["texts"][one] for one in found.columns["raw"]], log)
        for line in sorted({1, len(log), *self.random.sample(range(1, len(log) + 1), lines)}):
            looker.lines_of(f"line {line}")
            self.same(found, looker, line)
        return found

    def test_two_readers(self):
        """All panels are what look.py shows; the terminal and the calls are those worked out by hand from docs/lions/slp.md."""
        found = self.compare(self.pair(), 4)
        self.assertEqual(found.terminal(len(found.columns["raw"])), b"one\r\nPone\r\ntwo\r\nCtwo\r\n".upper())
        self.assertEqual(found.terminal(19), b"ONE\r\n")  # the echo of what was typed before process 1 runs
        self.assertEqual(found.terminal(24), b"ONE\r\nPONE\r\n")  # process 1 has written
        self.assertEqual(found.at(22)["call"], ["62 [2 /etc/init] read(0, 063, 100) waits for keys again"])
        self.assertEqual(found.at(24)["call"], ['66 [1 /etc/init] write(0, "Pone\\n", 5) = 5'])
        self.assertEqual(found.at(16)["call"], [""])
        self.same_slots(found)

    def same_slots(self, found):
        """Under the picture stand slots, though the script has no ticks: each at a line that came with this slot."""
        texts = re.findall(r'<text class="(?:small|unit)" x="([0-9.]+)" y="([0-9.]+)">([^<]+)</text>', found.html)
        (_, y, _), = [one for one in texts if one[2] == "slots passed"]
        shown = [(round((float(x) - LEFT) * found.head["lines"] / COLUMNS) + 1, int(text)) for x, at, text in texts if at == y and text.isdecimal()]
        self.assertGreater(len(shown), 3)
        for line, slots in shown:
            self.assertEqual(found.slot(line), slots)

    def test_three_in_a_core_for_two(self):
        """Also within the moments of the swapper, which have several lines. Each of the three waits in another call in the end."""
        words = self.disk(self.put("waits.s", WAITS)), "100", self.put("script", b"run 30\n")
        found = self.compare(words, 6)
        within = next(line for line in range(1, found.head["lines"]) if OUT.match(found.words(line)))
        self.assertEqual(found.slot(within), found.slot(within + 1))
        self.assertIn("entry 2 is the lowest in core that waits so that a signal wakes it", found.at(within)["rule"][0])
        last = found.at(found.head["lines"])
        for slot, call in enumerate(("wait()", "read(0, 056, 100)", "sleep()"), 1):
            self.assertIn(f"call       {call} has begun, and isn't done", last[f"process {slot}"])

    def test_random_rows(self):
        """100 moments of 20 runs: all panels, and of each run what the terminal shows at one of them."""
        for name, words in self.rows(20).items():
            with self.subTest(name):
                found, looker = self.made(*words)[0], self.looker(words)
                for line in self.random.sample(range(1, found.head["lines"] + 1), 5):
                    looker.go(found.slot(line), line)
                    self.same(found, looker, line)
                self.same_terminal(found, looker, line)

    def test_rules(self):
        """Why each process went out and came in is what docs/lions/sched.md works out."""
        found, _ = self.made(*self.crowd(2500), "--moments", "2")
        for line, words in {82: ("rules 3 and 5", "entry 3 has been out of core for longest, 1 second (1)", "entry 1 is the lowest in core that waits"),
                            273: ("entry 4 has been out of core for longest, 3 seconds (1)", "no room for 37 clicks (2)",
                                  "entry 2 has been there for longest, 4 seconds (5)"),
                            274: ("there is room for 37 clicks at click 38 (2)",), 13: ("less than three seconds are too few",),
                            2: ("no process that can run is out of core",), 276: ("from the entry after the one that was chosen last",)}.items():
            for one in words:
                self.assertIn(one, found.at(line)["rule"][0], line)
        self.assertTrue(found.at(273)["book"][0].startswith("sched (1940) of slp.c; here swap_sched"))

    def test_rules_name_processes(self):
        """A rule speaks of entries; where the process in one has another number, this stands beside it."""
        log = b"boot 60 7\nsleep 0 -100 runout\ngo 1\nfork 1 2 at 18\nexit 2 swap 4000\nreap 2\nfork 1 2 swap 4000\nsleep 1 40 wait.1\ngo 0\nin 2 18\n"
        self.call(page.main, "--log", self.put("log", log), "-o", self.path("page.html"))
        found = Read(read(self.path("page.html")))
        self.assertIn("Here: entry 2 (process 3) has been out of core for longest, 0 seconds (1)", found.at(10)["rule"][0])
        self.assertIn("is -100, that of entry 0.", found.at(9)["rule"][0])

    def test_few_moments(self):
        """Where fewer moments are looked at than have lines, the page says so; what it shows of each is right."""
        words = self.crowd()
        found, said = self.made(*words, "--moments", "8")
        self.assertRegex(said, r"were looked at in \d+ moments, with \d+ of \d+ lines")
        self.assertEqual(found.head["left"], said.partition(": ")[2].strip())
        looker = self.looker(words)
        self.assertLessEqual(len(found.columns["slots"]), 8)
        at = found.columns["moments"].index(len(found.columns["slots"]) // 2) + 1
        slots = found.slot(at)
        looker.lines_of(f"slot {slots}")
        self.assertEqual(process_of(found.at(at), 1), looker.views.process(looker.moment, 1))

    def test_lines_of_the_source(self):
        """Of a program that has them, the lines of its source stand with its code."""
        words = self.disk("pair.s", names="-g"), "1200", self.put("script", b"run 60\ntype one\nrun 60\n")
        found = self.compare(words, 3)
        source = os.path.join(LIONS, "pair.s")
        number, text = next((number, text) for number, text in enumerate(read(source).decode().splitlines(), 1) if text.strip().startswith("inc\tr0"))
        shown_at = {line for line in range(1, found.head["lines"]) if f"source     {source}:{number}  {text.strip()}" in found.at(line)["process 1"]}
        self.assertTrue(shown_at)
        for line in shown_at:
            self.assertIn(f"  {source}:{number}  {text.strip()}", found.at(line)["code 1"])

    def test_a_program_that_has_gone(self):
        """A process whose file is no more has its name still, for the disk was looked at before the run; one that has become other words
        has none, and all that it does is shown."""
        for more, program in (("", "/etc/init"), (OVERWRITES, "no file of the disk has its words")):
            words = self.disk(self.put("gone.s", GONE.format(more=more).encode())), "1200", self.put("script", b"run 1200\n")
            found = self.compare(words, 3)
            last = found.at(found.head["lines"])
            self.assertIn(f"program    {program}", last["process 1"])
            self.assertIn("call       sleep() has begun, and isn't done", last["process 1"])

    def test_picture(self):
        """The picture is that of `log.py draw` with its axis of slots, but for maps that aren't as high."""
        image, core, script = self.crowd()
        log = self.path("log")
        self.assertEqual(v6("run", image, core, script, self.path("term"), log, os.devnull), (0, ""))
        self.assertEqual(self.call(log_main, "draw", "--script", script, "-o", self.path("drawn.svg"), log), (0, "", ""))
        found, _ = self.made("--log", log, "--script", script)
        paper = re.search(r'<div id="paper"[^>]*>\n(.*?)</div>', found.html, re.S)[1]
        lanes, maps = re.compile(r"(?s)<text .*?(?=<text[^>]*>core: )"), re.compile("<title>([^<]*: [0-9]+ to [0-9]+)</title>")
        drawn = read(self.path("drawn.svg")).decode()
        self.assertEqual(lanes.search(paper)[0], lanes.search(drawn)[0])
        self.assertIn("slots passed", lanes.search(paper)[0])
        self.assertEqual(maps.findall(paper), maps.findall(drawn))
        self.assertGreater(len(maps.findall(paper)), 5)

    def test_panic(self):
        """The page goes to the end of the log; core is shown up to the slot before."""
        image = self.disk("full.s")
        found, said = self.made(image, "900", self.put("script", b"run 100\n"))
        self.assertRegex(said, r"panic: out of swap space: core is shown up to slot \d+")
        self.assertEqual(found.words(found.head["lines"]), "the system stops, for there is no room in the swap area")
        self.assertEqual(found.head["said"], "panic: out of swap space")


class Logs(Made):
    LOG = b"boot 100 7\nsleep 0 -100 runout\ngo 1\nfork 1 2 at 18\ntrap 1\nsleep 1 40 wait.1\ngo 2\n"

    def test_log_alone(self):
        """A log that is cut gives a page, which says so; what comes from core is left out, and said to be."""
        log = self.put("log", self.LOG)
        status, _, said = self.call(page.main, "--log", log, "--term", self.put("term", b"<b>&\0\x7f"), "-o", self.path("page.html"))
        self.assertEqual((status, "ends within a run" in said), (1, True))
        found = Read(read(self.path("page.html")))
        self.assertEqual((found.head["isCut"], found.head["isRun"]), (True, False))
        self.assertIn("registers", found.head["left"])
        self.assertEqual(bytes(found.columns["term"]), b"<b>&\0\x7f")
        self.assertEqual(shown(found.at(7)["ps"]), ["s\t0\t0\t0\t-\t-100\t-\t0\t-\t-\trunout\t(the swapper)",
                                                    "w\t1\t1\t0\t-\t40\tat 1\t0\t17\t-\twait.1\t",
                                                    "R\t2\t2\t1\t-\t0\tat 18\t0\t17\t-\t-\t"])
        self.assertEqual(shown(found.at(7)["core"]), ["    1 to    17    17  process 1", "   18 to    34    17  process 2",
                                                      "   35 to   100    66  free", "66 of 100 clicks are free"])

    def test_size(self):
        """A line of six processes takes 40 bytes at most, so that 100,000 lines are at most 4 MB."""
        turns = b"".join(b"tick u\ntrap %d\nsleep %d 1 read.%d\ngo %d\nwake read.%d\n" % (n % 5 + 1, n % 5 + 1, n % 97 + 1, (n + 1) % 5 + 1, n % 97 + 1)
                         for n in range(4000))
        forks = b"".join(b"fork 1 %d at %d\n" % (slot, 17 * slot) for slot in range(2, 6))
        log = self.put("log", b"boot 200 0\ngo 1\n" + forks + turns + b"end\n")
        found, _ = self.made("--log", log)
        self.assertEqual(found.head["lines"], 20007)
        self.assertLess(os.path.getsize(self.path("page.html")), 40 * 20007)
        self.assertEqual(found.words(20006), "wakes those that wait for bytes in the pipe of inode 23: process 5")

    def refused(self, *words, why, status=1):
        kept = read(self.path("page.html")) if os.path.exists(self.path("page.html")) else None
        found, out, said = self.call(page.main, *words)
        self.assertEqual((found, out), (status, ""), said)
        self.assertRegex(said, why)
        self.assertEqual(said.count("\n"), 1 if status == 1 else said.count("\n"))
        self.assertEqual(kept, read(self.path("page.html")) if os.path.exists(self.path("page.html")) else None)

    def test_refused(self):
        """Bad words, files that can't be there, and marks of lines that aren't: a line says why, and no file changes."""
        log, out = self.put("log", self.LOG + b"idle\nend\n"), self.path("page.html")
        self.put("page.html", b"kept")
        self.refused("--log", log, "-o", log, why="would take the place")
        self.refused("--log", self.path("none"), "-o", out, why="none: No such file")
        self.refused("--log", self.put("empty", b""), "-o", out, why="empty: the log is empty")
        self.refused("--log", self.put("bad", b"boot 100 7\ngo 7\n"), "-o", out, why="line 2: entry 7 is free there")
        self.refused("--log", log, "-o", self.path("no/folder"), why="No such file")
        for marks, why in ((b"10 behind the end\n", "line 1: it begins with '10'"), (b"; well\none\n", "line 2: it begins with 'one'")):
            self.refused("--log", log, "--marks", self.put("marks", marks), "-o", out, why=why)
        self.refused("-o", out, why="either IMAGE CORE SCRIPT or --log", status=2)
        self.refused("image", "100", "script", "--term", log, "-o", out, why="stand beside --log", status=2)
        self.refused(self.path("none"), "100", self.put("script", b"run 9\n"), "-o", out, why="none: No such file")


class Safe(Made):
    def test_nothing_of_a_run_is_markup(self):
        """Titles and marks with signs of HTML are text; the page lets no program run but its own, and asks for nothing."""
        log = self.put("log", Logs.LOG + b"idle\nend\n")
        evil = "</script><script>alert(1)</script>\"'&<img src=x onerror=alert(2)>"
        found, _ = self.made("--log", log, "--title", evil, "--marks", self.put("marks", f"3 {evil}\n".encode()))
        self.assertEqual(found.html.count("<script"), 2)
        self.assertNotIn("<img", found.html)
        self.assertEqual((found.head["title"], found.head["marks"]), (evil, [[3, evil]]))
        self.assertRegex(found.html, "Content-Security-Policy\" content=\"default-src 'none'; style-src 'unsafe-inline'; script-src 'sha256-")
        self.assertNotRegex(re.sub("http://www.w3.org/2000/svg", "", found.html), "https?://")


    def test_nothing_of_memory_is_markup(self):
        """Names on a disk, arguments, and the bytes of a file: none is markup."""
        found, _ = self.made(*self.odd())
        self.assertEqual((found.html.count("<script"), found.html.count("<img")), (2, 0))
        last = found.at(found.head["lines"])
        self.assertIn('process 1 (/<img src=x>&"\') runs', last["running"][0])
        for name in ("ps", "process 1", "core"):
            self.assertTrue(any("<img src=x>&" in row for row in last[name]), name)


class Packed(unittest.TestCase):
    def test_widths(self):
        """A number takes no more bytes than the largest of its column: a browser needn't unpack them."""
        columns = {"small": array("I", [0, 255]), "middle": array("I", [256, 65535, 1]), "large": array("I", [65536]), "none": array("I")}
        found = Read(b'<script type="text/plain" id="data">%s</script>' % packed({"head": "<"}, columns).encode())
        self.assertEqual({name: width for name, (_, _, width) in found.head["columns"].items()},
                         {"small": 1, "middle": 2, "large": 4, "none": 1})
        for name, column in columns.items():
            self.assertEqual(list(column), list(found.columns[name]), name)

    def test_rows(self):
        """A panel with fewer rows than its text says how many are left; a row that is as before is no change."""
        texts = Texts()
        panels = Panels(texts)
        panels.add("one", 3)
        panels.show("one", ["a", "b", "c", "d"])
        panels.end_line()
        panels.show("one", ["a"])
        panels.end_line()
        panels.row("one", 0, "x")
        panels.row("one", 0, "a")
        panels.end_line()
        self.assertEqual(texts.all(), ["", "a", "b", "and 2 more", "x"])
        self.assertEqual((list(panels.counts), list(panels.fields), list(panels.values)), ([3, 2, 1], [0, 1, 2, 1, 2, 0], [1, 2, 3, 0, 0, 1]))
