"""What the tests share that open pages in a browser without a window."""
import functools
import multiprocessing.util
import unittest

from tests.page import browser
from tests.page.test_page import Made

PANELS = "[...document.querySelectorAll('#head, #panels section')].map((one) => one.textContent).join('\\u0001')"
TEXT = "document.getElementById({!r}).textContent"


@functools.lru_cache(maxsize=None)
def shared():
    """The browser of this process, which ends with it."""
    found = browser.Browser()
    multiprocessing.util.Finalize(None, found.close, exitpriority=1)
    return found


@unittest.skipUnless(browser.FOUND, "no browser is there: chromium is wanted")
class Browsed(Made):
    """Pages of the lessons in a browser. One serves all tests of a process; after each nothing went wrong and nothing was asked for."""

    shares = "browser"

    @classmethod
    def setUpClass(cls):
        cls.browser = shared()
        cls.browser.size(1200, 900)

    def open(self, at="", name="page.html"):
        self.browser.open(self.path(name), at)

    def tearDown(self):
        self.assertEqual((self.browser.errors(), self.browser.requests()), ([], []))

    def value(self, expression):
        return self.browser.value(expression)

    def go(self, line):
        self.value(f"page.go({line})")

    def text(self, name):
        return self.value(TEXT.format(name))

    def lines(self, name):
        return self.text(name).split("\n")

    def line(self):
        return self.value("page.line")

    def table(self):
        """The table of processes, cell by cell; after what ps(I) has comes the call."""
        return self.value("[...document.querySelectorAll('#ps tr')].slice(1).map((row) => [...row.cells].map((one) => one.textContent))")

    def calls(self):
        return [row[-1] for row in self.table()]

    def process(self):
        """The process that is shown whole, as look.py has it."""
        return [*self.lines("process"), "code", *self.lines("code"), "stack", *self.lines("stack"), "u area", *self.lines("area")]

    def choose(self, slot):
        """Chooses the process in this entry of the table to be shown whole; with nothing, who runs."""
        self.value(f"document.getElementById('chosen').value = '{slot}'; page.show()")

    def forwards_and_back(self, first, count):
        """So many steps forwards from a line on, and as many back, give the same bytes of each panel at each line."""
        self.go(first)
        seen = []
        for _ in range(count):
            seen.append(self.value(PANELS))
            self.browser.key("ArrowRight")
        self.assertEqual(self.line(), min(first + count, self.value("page.run.lines")))
        self.assertEqual(len(set(seen)), count)
        self.browser.key("End")
        self.go(first + count - 1)
        for wanted in reversed(seen):
            self.assertEqual(self.value(PANELS), wanted)
            self.browser.key("ArrowLeft")
