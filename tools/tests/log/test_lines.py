"""The lines of Lions' book: they stand in the book's order, and the lessons name no others."""
import os
import re
import unittest

from tests.common import TOP, read

from v6.log.lions import FILES, OF_WORDS, PROCEDURES, WITHOUT, line_of, told
from v6.log.processes import FORMS

LIONS = os.path.join(TOP, "docs", "lions")
NUMBERED = re.compile(r"`([a-z0-9_]+)` \(([0-9]{4})\)")
NAMED = re.compile(r"`([a-z0-9_]+)`")
HEAD = re.compile(r"^Lions' book: .*?(?=\sIn\s+the\s+manual:)", re.M | re.S)
SHEET = 50  # lines
# From the text of the Commentary, which names these procedures with their lines.
QUOTED = {"main": 1550, "newproc": 1826, "sched": 1940, "sleep": 2066, "wakeup": 2113, "swtch": 2178, "expand": 2268,
          "malloc": 2528, "mfree": 2556, "trap": 2693}


def pages():
    return {name: read(os.path.join(LIONS, name)).decode() for name in sorted(os.listdir(LIONS)) if name.endswith(".md")}


def of_the_book():
    """What the left column of the table of names has, but for headers."""
    table = read(os.path.join(TOP, "docs", "lions-names.md")).decode().partition("\n## ")[0]
    rows, file, found = [row.split(" | ")[0] for row in table.splitlines() if row.startswith("| ")], "", set()
    for row in rows:
        file = (re.findall(r"\*\*(.*)\*\*", row) or [file])[0]
        found |= set(NAMED.findall(row)) if not file.endswith(".h") else set()
    return found


class Lines(unittest.TestCase):
    def test_files(self):
        """They follow each other, and each begins on a sheet or in the middle of one."""
        firsts = list(FILES.values())
        self.assertEqual(firsts, sorted(set(firsts)))
        self.assertEqual([first % SHEET for first in firsts], [0] * len(firsts))

    def test_procedures(self):
        """Lines grow within each file, lie after its first line, and before the next file."""
        ends = dict(zip(FILES, [*list(FILES.values())[1:], 10000]))
        last = 0
        for name, file, line in PROCEDURES.values():
            self.assertGreater(line, last, name)
            self.assertGreater(line, FILES[file], name)
            self.assertLess(line, ends[file], name)
            last = line
        self.assertLess(len(FILES), len(PROCEDURES))

    def test_no_name_comes_twice(self):
        source = read(os.path.join(TOP, "tools", "v6", "log", "lions.py")).decode()
        table = re.search(r'^SHEETS = """(.*?)^"""', source, re.M | re.S)[1]
        names = re.findall(r"([a-z0-9_]+) [0-9]{4}(?=,|$)", table, re.M)
        self.assertEqual(names, list(PROCEDURES))

    def test_those_of_the_commentary(self):
        self.assertEqual({name: line_of(name) for name in QUOTED}, QUOTED)
        self.assertEqual((told("sleep"), told("savu"), told("sysent")), ("sleep (2066)", "savu (0725)", "sysent"))

    def test_those_of_the_lessons(self):
        """Each number on a page is that of the table, and heads and the list of pages give it wherever there is one."""
        for page, text in pages().items():
            for name, line in NUMBERED.findall(text):
                self.assertEqual(int(line), line_of(name), (page, name))
            head = HEAD.search(text)
            rows = [row.split(" | ")[1] for row in text.splitlines() if page == "README.md" and row.startswith("| [")]
            for part in [head[0]] if head else rows:
                numbered = {name for name, _ in NUMBERED.findall(part.replace("\n", " "))}
                self.assertEqual({name for name in NAMED.findall(part) if line_of(name)}, numbered, page)
            self.assertTrue(head or page in ("README.md", "answers.md"), page)

    def test_each_procedure_has_a_line_or_is_said_to_have_none(self):
        book = of_the_book()
        self.assertIn("psignal", book)
        named = {name for text in pages().values() for name in NAMED.findall(text)} & book
        self.assertGreater(len(named), 50)
        self.assertEqual({name for name in named if line_of(name) is None}, set(WITHOUT) & named)
        self.assertFalse(set(WITHOUT) & set(PROCEDURES))

    def test_words_of_a_log(self):
        """Each has a procedure, but for the end of the script, of which the book knows nothing."""
        self.assertEqual(set(OF_WORDS), set(FORMS) - {"end"})
        self.assertTrue(set(OF_WORDS.values()) <= set(PROCEDURES))
