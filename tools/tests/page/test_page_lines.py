"""Pages of runs with eight lines and of two disks: their terminals are those that a second program has computed, moment by moment; the
rest is what look.py shows."""
import json
import os
import shutil
import subprocess
import unittest

from tests.common import TESTS, TOP, V6, Case, read, tool
from tests.page.pagereader import Read, table_of

from v6.debug.commands import Looker
from v6.debug.symbols import Programs
from v6.debug.views import ROW, Views
from v6.run.ends import programs_of_all
from v6.run.history import History
from v6.run.moments import NO_MEMORY, Run

page_main = tool("page").main
CALLS = {"wait": "wait(..)", "keys": "read(..)", "read": "read(..)", "show": "write(..)", "write": "write(..)", "tout": "sleep(..)"}
EVENING, PACK = (os.path.join(TOP, "examples", name) for name in ("timesharing", "pack"))


class Lines(Case):
    def page(self, example, *words):
        """The page of an example, and what its command says."""
        out = self.path("page.html")
        command = "--v6", V6, os.path.join(example, "image"), "3968", os.path.join(example, "script"), "-o", out, *words
        self.assertEqual(self.call(page_main, *command)[0], 0)
        return Read(read(out))

    def looker(self, example, eight=False, second=None):
        disks = [read(name) for name in (os.path.join(example, "image"), *[second] * bool(second))]
        run = Run(V6, os.path.join(example, "image"), 3968, read(os.path.join(example, "script")), self.folder, eight, second)
        return Looker(History(run), Views(Programs(disks[0], []), programs_of_all(disks)))

    def same(self, found, looker, line, terminals):
        """The panels of a line are those of look.py, and each terminal is what it shows in the run that is cut at the line's moment."""
        panels = found.at(line)
        looker.lines_of(f"line {line}")
        self.assertEqual(table_of(panels, ROW), looker.lines_of("ps")[1:])
        for name in ("core", "swap", "texts"):
            self.assertEqual([row for row in panels[name] if row], looker.lines_of(name))
        place, slots = found.columns["moments"][line - 1], looker.moment.slots
        if place:
            is_exact = line <= found.columns["ends"][place - 1]
            self.assertTrue(found.slot(line) == slots if is_exact else found.slot(line) < slots, (line, found.slot(line), slots))
            for which in range(terminals):
                self.assertEqual(found.terminal(line, which), looker.history.run.terminal(found.slot(line), which), (line, which))

    def test_eight_lines(self):
        found, looker = self.page(EVENING, "--eight", "--moments", "40"), self.looker(EVENING, eight=True)
        lines = found.head["lines"]
        self.assertEqual([found.head[name] for name in ("isRun", "hasMemory", "isEight")], [True, False, True])
        self.assertTrue(found.head["left"].startswith(NO_MEMORY) and "the terminal was looked at in 40 moments" in found.head["left"])
        shown = [read(os.path.join(EVENING, name)) for name in ("term", "term.1", "term.2")]
        self.assertEqual([found.terminal(lines, which) for which in range(8)], shown + 5 * [b""])
        for line in self.random.sample(range(1, lines), 5):
            self.same(found, looker, line, 8)
        self.assertGreater(len({found.terminal(line, 2) for line in range(1, lines, 100)}), 3)

    def calls(self, found, line):
        """In which call each process waits at a line, by what it waits for; where core is known at the line, by its own row."""
        panels, place, out = found.at(line), found.columns["moments"][line - 1], []
        is_known = found.head["hasMemory"] and place and line == found.columns["ends"][place - 1]
        for slot, text in enumerate(panels["ps"]):
            told = [one[11:].removesuffix(" has begun, and isn't done") for one in panels.get(f"process {slot}", []) if one.startswith("call ")]
            if text:
                out.append(told[0] if is_known and told else CALLS.get(text.split("\t")[10].partition(".")[0], ""))
        return out

    @unittest.skipUnless(shutil.which("node"), "node isn't there")
    def test_the_program_of_the_page(self):
        """What it shows of each terminal at a line is what the page has, and the parts that core would fill are hidden. So of two disks,
        and of a run that has core, where they aren't."""
        hi = os.path.join(TOP, "examples", "hi")
        for example, words, names in ((EVENING, ("--eight", "--moments", "40"), [f"line {line}" for line in range(8)]),
                                      (PACK, ("--second", os.path.join(PACK, "pack"), "--moments", "40"), ["1"]), (hi, (), ["1"])):
            found = self.page(example, *words)
            lines = [1, *sorted(self.random.sample(range(2, found.head["lines"]), 6)), found.head["lines"]]
            done = subprocess.run(["node", os.path.join(TESTS, "page", "pagedom.js"), self.path("page.html"), *map(str, lines)], capture_output=True)
            self.assertEqual((done.returncode, done.stderr), (0, b""))
            shown = json.loads(done.stdout)
            self.assertEqual(shown["options"], names)
            self.assertEqual(shown["isHidden"], [example != hi, example != hi, example != EVENING])
            self.assertEqual(NO_MEMORY in shown["note"], example != hi)
            for one in shown["told"]:
                self.assertEqual(one["calls"], self.calls(found, one["line"]), one["line"])
                for which, text in enumerate(one["terminals"]):
                    wanted = found.terminal(one["line"], which).decode().replace("\r\n", "\n").replace("\r", "\\015")
                    self.assertEqual(text, wanted, (one["line"], which))

    def test_two_disks(self):
        found = self.page(PACK, "--second", os.path.join(PACK, "pack"), "--moments", "60")
        looker = self.looker(PACK, second=os.path.join(PACK, "pack"))
        self.assertEqual([found.head[name] for name in ("isRun", "hasMemory", "isEight")], [True, False, False])
        self.assertEqual((found.terminal(found.head["lines"]), len(found.head["terminals"])), (read(os.path.join(PACK, "term")), 1))
        for line in self.random.sample(range(1, found.head["lines"]), 8):
            self.same(found, looker, line, 1)
        self.assertIn("/bin/factor of the second disk", " ".join(found.head["texts"]))

    def test_what_is_refused(self):
        image, script, out = (os.path.join(PACK, "image"), os.path.join(PACK, "script"), self.path("page.html"))
        log, pack = self.put("log", b"boot 64 0\n"), self.put("pack", read(os.path.join(PACK, "pack")))
        for words, why in ((("--eight", "--log", log, "-o", out), "--eight and --second stand beside IMAGE CORE SCRIPT alone"),
                           (("--eight", "--second", pack, image, "3968", script, "-o", out),
                            "--eight and --second: a machine has eight lines, or a second disk")):
            status, _, said = self.call(page_main, *words)
            self.assertEqual((status, said.splitlines()[-1]), (2, f"page.py: error: {why}"))
        for words, why in (((image, "3968", script, "--second", pack, "-o", pack), f"{pack}: the page would take the place of what it is made of"),
                           ((image, "3968", script, "-o", out), f"{script} was typed beside a second disk: --second IMAGE2 plays it so")):
            self.assertEqual(self.call(page_main, "--v6", V6, "--moments", "2", *words)[::2], (1, f"page.py: {why}\n"))
        self.assertFalse(os.path.exists(out))
