"""Pages of runs with eight lines and of two disks, of lessons, and of long logs, in a browser without a window."""
import contextlib
import io
import os
import re
from array import array

from tests.common import TOP, read, tool
from tests.page.pagebrowser import Browsed

from speed import opening
from v6.page.pack import packed

lesson_pages = tool("lessonpages")
EVENING, PACK = (os.path.join(TOP, "examples", name) for name in ("timesharing", "pack"))
COMPLETE = "document.readyState === 'complete' && location.href !== 'about:blank'"
MANY, OF_A_PAGE = 1_000_000, 5000  # lines
OPENED = 3  # seconds in which a log of so many lines is to be opened


class Parts(Browsed):
    def same_as_look(self, words, lines):
        """The table, the maps and the texts at some lines are what look.py shows there, and each terminal is what it shows in the run
        that is cut at the moment of the line."""
        with contextlib.redirect_stderr(io.StringIO()):  # that core isn't known
            looker = self.looker(words)
        for line in lines:
            self.go(line)
            looker.lines_of(f"line {line}")
            self.assertEqual([" ".join(row[:-1]).split() for row in self.table()], [row.split() for row in looker.lines_of("ps")[1:]], line)
            for name in ("core", "swap", "texts"):
                self.assertEqual(self.lines(name), looker.lines_of(name), line)
            slot = int(re.search(r"slot (\d+) of", self.text("head"))[1])
            for which in range(8 if "--eight" in words else 1):
                self.value(f"document.getElementById('terminal').value = '{which}'; page.show()")
                shown = looker.history.run.terminal(slot, which).decode().replace("\r\n", "\n").replace("\r", "\\015")
                self.assertEqual(self.text("term"), shown, (line, which))

    def left_out(self):
        """What core would tell isn't there, and the page says so."""
        self.assertRegex(self.text("note"), "^Left out: core isn't known of a run with eight lines or a second disk.*registers, memory, calls")
        self.assertTrue(self.value("[...document.querySelectorAll('#p-call, #of-memory')].every((one) => one.hidden)"))

    def test_the_shell(self):
        """The dialogue of examples/shell, to its end."""
        shell = os.path.join(TOP, "examples", "shell")
        self.made(os.path.join(shell, "image"), "3968", os.path.join(shell, "script"), "--moments", "30")
        self.open()
        self.forwards_and_back(self.random.randrange(1, 1300), 15)
        self.browser.key("End")
        self.assertEqual(self.text("term"), read(os.path.join(shell, "term")).decode().replace("\r\n", "\n"))

    def test_eight_lines(self):
        words = os.path.join(EVENING, "image"), "3968", os.path.join(EVENING, "script"), "--eight"
        self.made(*words, "--moments", "40")
        self.open()
        self.left_out()
        last = self.value("page.run.lines")
        self.same_as_look(words, [1, *self.random.sample(range(2, last), 3), last])
        self.assertEqual(self.value("[...document.getElementById('terminal').options].map((one) => one.textContent)"),
                         [f"line {line}" for line in range(8)])
        self.forwards_and_back(self.random.randrange(1, last - 20), 15)
        self.value("page.go(Array.from({ length: page.run.lines }, (_, one) => page.run.raw(one + 1)).indexOf('sleep 2 10 keys') + 1)")
        self.assertEqual((self.text("raw"), self.table()[2][10::2]), ("sleep 2 10 keys", ["keys", "read(..)"]))

    def test_two_disks(self):
        words = os.path.join(PACK, "image"), "3968", os.path.join(PACK, "script"), "--second", os.path.join(PACK, "pack")
        self.made(*words, "--moments", "40")
        self.open()
        self.left_out()
        last = self.value("page.run.lines")
        self.same_as_look(words, [1, *self.random.sample(range(2, last), 3), last])
        self.assertTrue(self.value("document.getElementById('which').hidden"))
        self.forwards_and_back(self.random.randrange(1, last - 20), 15)

    def test_lessons(self):
        """Pages of lessons with slow disks, paced terminals and a pack, and of their runs. A line that a lesson names is opened by its link."""
        out = self.path("out")
        self.assertEqual(self.call(lesson_pages.main, "-o", out, "--moments", "6", "iowait", "pace", "mount")[0], 0)
        pages, followed = sorted(name for name in os.listdir(out) if name.endswith(".html")), 0
        for name in pages:
            if "-" in name:
                self.open(name="out/" + name)
                self.forwards_and_back(1, min(12, self.value("page.run.lines") - 1))
                continue
            self.browser.open(os.path.join(out, name), shown=COMPLETE)
            self.assertEqual((self.browser.errors(), [one for one in self.browser.requests() if not one.startswith("file://" + out)]), ([], []))
            link = self.value("[...document.links].map((one) => one.href).find((one) => one.includes('#line='))")
            if link:
                self.browser.open(os.path.join(out, os.path.basename(link).partition("#")[0]), "#" + link.partition("#")[2])
                self.assertEqual(self.line(), int(link.partition("=")[2]))
                followed += 1
        self.assertEqual((len(pages), followed), (13, 2))  # the lesson on mount shows no lines

    def long_page(self):
        """A page of a million lines: the lines of a shorter log over and over."""
        turns = "".join(f"tick u\ntrap {n % 5 + 1}\nsleep {n % 5 + 1} 1 read.{n % 97 + 1}\ngo {(n + 1) % 5 + 1}\nwake read.{n % 97 + 1}\n" for n in range(1000))
        forks = "".join(f"fork 1 {slot} at {17 * slot}\n" for slot in range(2, 6))
        found, _ = self.made("--log", self.put("log", f"boot 200 0\ngo 1\n{forks}{turns}end\n".encode()))
        head, columns = found.head, {name: array("I", column) for name, column in found.columns.items()}
        lines, times = head["lines"], MANY // OF_A_PAGE
        start, end = (sum(columns["counts"][:line]) for line in (6, lines - 1))
        for name, column in columns.items():
            if name != "term":
                first, last = (start, end) if name in ("fields", "values") else (6, lines - 1)
                columns[name] = column[:first] + column[first:last] * times + column[last:]
        head["lines"] = 6 + OF_A_PAGE * times + 1
        data = packed({name: one for name, one in head.items() if name != "columns"}, columns)
        self.put("long.html", re.sub(r'(id="data">)[^<]*', lambda found: found[1] + data, found.html).encode())
        return head["lines"]

    def test_a_million_lines(self):
        """A page of a million lines opens soon, and is stepped line by line."""
        last = self.long_page()
        _, thread, _, _ = opening.opened_in(self.browser, self.path("long.html"))
        self.assertLess(thread, OPENED)  # of a processor: what else the machine does counts in seconds that pass
        self.open("#line=999000", name="long.html")
        self.assertEqual((self.line(), self.value("page.run.lines"), last > MANY), (999000, last, True))
        for _ in range(4):
            self.browser.key("ArrowRight")
        self.assertEqual((self.line(), self.text("raw").split(" ")[0]), (999004, self.value(f"page.run.raw({(999004 - 7) % OF_A_PAGE + 7})").split(" ")[0]))
        far = self.table()
        self.go((999004 - 7) % OF_A_PAGE + 7 + 2 * OF_A_PAGE)
        self.assertEqual(len(far), len(self.table()))
