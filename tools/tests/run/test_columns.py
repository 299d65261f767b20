"""All lines of a terminal side by side: ~a and --side of the console. What stands there is by hand."""
import fcntl
import importlib.util
import os
import pty
import select
import struct
import subprocess
import sys
import termios
import time
import unittest
import unittest.mock

from tests.common import TOOLS, TOP, V6, Case, tool

from v6.run.columns import frame, rows_of
from tests.pages import Runs

console_main = tool("console").main
IMAGE = os.path.join(TOP, "examples", "timesharing", "image")
LONG = 300  # seconds: what a busy machine never takes for one of these
CLEARED = b"\x1b[H\x1b[2J"


class Columns(unittest.TestCase):
    def test_rows(self):
        """Returns, new lines, backspaces and tabs as a teletype has them; a row that is full goes on below."""
        for term, wanted in ((b"", [""]), (b"ab\r\ncd", ["ab", "cd"]), (b"ab\r\n", ["ab", ""]), (b"abc\rx", ["xbc"]), (b"ab\bc", ["ac"]),
                             (b"\b\bab", ["ab"]), (b"a\tb\tc", ["a       b", "c"]), (b"ab\nc", ["ab", "  c"]), (b"0123456789", ["0123456789"]),
                             (b"0123456789\r\nab", ["0123456789", "ab"]), (b"0123456789ab\rc", ["0123456789", "cb"]),
                             (b"a\0\7\177\377b", ["ab"])):
            self.assertEqual(rows_of(term, 10, 5), wanted, term)
        self.assertEqual(rows_of(b"a\r\nb\r\nc\r\nd", 10, 3), ["b", "c", "d"])
        self.assertEqual(rows_of(b"a\r\n0123456789xyz", 10, 2), ["0123456789", "xyz"])
        self.assertEqual(rows_of(1000 * b"x\r\n", 10, 2), ["x", ""])

    def test_frame(self):
        """As many side by side as have forty columns each; others below."""
        terms = [b"one\r\n# ", b"", b"two\r\nTWO\r\n% ls", b"x" * 45]
        head = "== line {}{} ".format
        self.assertEqual(frame(terms, [0, 2], 2, 83, 20), [
            head(0, "").ljust(40, "=") + " | " + head(2, ", typed at").ljust(40, "="),
            "one".ljust(40) + " | two", "# ".ljust(40) + " | TWO", " " * 40 + " | % ls"])
        self.assertEqual(frame(terms, [0, 2], 0, 82, 20), [
            head(0, ", typed at").ljust(82, "="), "one", "#", head(2, "").ljust(82, "="), "two", "TWO", "% ls"])
        self.assertEqual(frame(terms, [2, 3], 1, 86, 3), [
            head(2, "").ljust(41, "=") + " | " + head(3, "").ljust(41, "="), "two".ljust(41) + " | " + "x" * 41,
            "TWO".ljust(41) + " | xxxx", "% ls".ljust(41) + " |"])
        self.assertEqual(frame(4 * [b"1\r\n2\r\n3\r\n4\r\n5\r\n6"], [0, 1, 2], 0, 86, 12)[1:7],
                         [f"{n}".ljust(41) + f" | {n}" for n in (2, 3, 4, 5, 6)] + ["== line 2 ".ljust(41, "=")])
        self.assertEqual([len(line) for line in frame(terms, [0], 0, 21, 9)], [21, 3, 1])
        self.assertEqual(frame(8 * [b"a\r\nb"], list(range(8)), 9, 1000, 9)[1:], [" | ".join(8 * [one.ljust(122)]).rstrip() for one in "ab"])


class Side(Case):
    def test_all_lines(self):
        """Those on which something was shown, with the one that is typed at."""
        with unittest.mock.patch.dict(os.environ, {"COLUMNS": "90", "LINES": "20"}):
            status, _, said = self.ran(console_main, IMAGE, "--v6", V6, "--lines", typed=b"~1\nguest\n~5\n~a\n~0\n~a\n")
        motd = "The chess club meets on Thursday."
        heads = [f"== line {line} ".ljust(43, "=") for line in (0, 1, 2, 5)]
        rows = ["".ljust(43) + " |", "login: ".ljust(43) + " | login: guest", "".ljust(43) + " | " + motd, "".ljust(43) + " | %"]
        typed = [f"== line {line}, typed at ".ljust(43, "=") for line in (5, 0)]
        first = ["all lines", " | ".join(heads[:2]), *rows, f"{heads[2]} | {typed[0]}", "".ljust(43) + " |", "login: ".ljust(43) + " |"]
        second = ["all lines", f"{typed[1]} | {heads[1]}", *rows, heads[2], "", "login:"]
        told = [one.split("\n") for one in said.removesuffix("\n").split("\nconsole: ")]
        self.assertEqual((status, told), (0, [[""], ["line 1", ""], ["line 5", ""], [*first, ""], ["line 0", ""], second]))
        with unittest.mock.patch.dict(os.environ, {"COLUMNS": "60", "LINES": "20"}):
            said = self.ran(console_main, IMAGE, "--v6", V6, typed=b"guest\n~a\n")[2]
        self.assertEqual(said, "\nconsole: all lines\n" + "== line 0, typed at ".ljust(60, "=") + f"\n\nlogin: guest\n{motd}\n%\n")

    def test_what_is_refused(self):
        status, _, said = self.call(console_main, IMAGE, "--v6", V6, "--side")
        self.assertEqual((status, said.splitlines()[-1]), (2, "console.py: error: --side: there is one line without --lines"))
        said = "\nconsole: --side wants a person at a terminal that can be cleared; ~a shows all lines once\n"
        self.assertEqual(self.ran(console_main, IMAGE, "--v6", V6, "--lines", "--side", "--script", self.path("script"), typed=b"guest\n"),
                         (1, b"", said))
        self.assertFalse(os.path.exists(self.path("script")))
        self.assertIn("no command of the console", self.ran(console_main, IMAGE, "--v6", V6, typed=b"~a 1\n")[2])


class Page(Runs):
    def test_page(self):
        """The commands after a $ on the page of the console print what it shows."""
        self.played("tools", "console.md")


@unittest.skipUnless(importlib.util.find_spec("readline"), "Python has no readline")
class Person(Case):
    """A person at a terminal of the host that has 130 columns."""

    def setUp(self):
        super().setUp()
        self.ours, theirs = pty.openpty()
        self.addCleanup(os.close, self.ours)
        fcntl.ioctl(theirs, termios.TIOCSWINSZ, struct.pack("HHHH", 24, 130, 0, 0))
        environment = {name: value for name, value in os.environ.items() if name not in ("COLUMNS", "LINES")}
        command = [sys.executable, "-S", os.path.join(TOOLS, "console.py"), IMAGE, "--v6", V6, "--lines", "--side"]
        self.console = subprocess.Popen(command, stdin=theirs, stdout=theirs, stderr=theirs, env={**environment, "TERM": "vt100"})
        os.close(theirs)
        self.addCleanup(self.console.wait)
        self.addCleanup(self.console.kill)

    def shown(self, typed, is_done):
        """What is shown after a line is typed until it is all that is waited for. Only a console that hangs meets the end."""
        os.write(self.ours, typed)
        shown, end = b"", time.monotonic() + LONG
        while not is_done(shown) and select.select([self.ours], [], [], max(end - time.monotonic(), 0))[0]:
            shown += os.read(self.ours, 4096)
        return shown

    def drawn(self, typed, wanted):
        """The rows that are shown after a line is typed, up to a text below them."""
        shown = self.shown(typed, lambda shown: CLEARED in shown and wanted in shown.rpartition(CLEARED)[2])
        self.assertIn(wanted, shown)
        self.assertNotIn(b"console: ", shown.rpartition(CLEARED)[0])  # nothing else tells of what other lines show
        return [line.rstrip() for line in shown.rpartition(CLEARED)[2].replace(b"\r", b"").decode().split("\n")]

    def test_side_by_side(self):
        """Three lines, after each that is typed, and after one is taken back; the end of that where one types stands below."""
        wide = 41
        found = self.drawn(b"", b"\r\n\r\nlogin: ")
        self.assertEqual(found[0], " | ".join(f"== line {line}{', typed at' * (line == 0)} ".ljust(wide, "=") for line in range(3)).rstrip())
        self.assertEqual(found[1:4], [("".ljust(wide) + " | " + "".ljust(wide) + " |"), " | ".join(3 * ["login: ".ljust(wide)]).rstrip(), ""])
        found = self.drawn(b"~2\n", b"\r\n\r\nlogin: ")
        self.assertTrue(found[0].endswith("| == line 2, typed at ".ljust(wide + 2, "=")), found[0])
        found = self.drawn(b"guest\n", b"\r\n\r\n% ")
        self.assertEqual(found[3].split("|")[2], " The chess club meets on Thursday.")
        found = self.drawn(b"echo hello >/dev/tty1\n", b"\r\n\r\n% ")
        self.assertEqual([row.split("|")[1].strip() for row in found[1:4]], ["", "login: hello", ""])
        found = self.drawn(b"~u\n", b"after line 1: ~2 guest\r\n% ")
        self.assertEqual([row.split("|")[1].strip() for row in found[1:4]], ["", "login:", ""])
        all_lines = b"console: all lines"
        shown = self.shown(b"~a\n", lambda shown: all_lines in shown and shown.endswith(b"% "))  # the prompt is shown again
        self.assertIn(all_lines, shown)
        os.write(self.ours, b"~.\n")
        self.assertEqual(self.console.wait(LONG), 0)
