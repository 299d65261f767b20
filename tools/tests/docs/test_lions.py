"""The runs for the chapters of Lions' book: what each command on the pages prints is what the page shows."""
import os
import re
import unittest

from tests.common import TOP, read
from tests.pages import PICTURE, Runs, broken_links, commands

LIONS = os.path.join(TOP, "docs", "lions")
QUESTION = re.compile(r"\[the answer\]\(answers\.md#([a-z0-9-]+)\)")


def page_class(name):
    return type(name.title(), (Runs,), {"test_page": lambda self: self.played("lions", name + ".md"), "__module__": __name__,
                                        "__doc__": f"The page {name}."})


class First(Runs):
    """The page that leads to the others."""

    def test_page(self):
        self.played("lions", "README.md")


PAGES = sorted(name[:-3] for name in os.listdir(LIONS) if name.endswith(".md") and name not in ("README.md", "answers.md"))
globals().update({name.title(): page_class(name) for name in PAGES})
del Runs  # has no page of its own


class Links(unittest.TestCase):
    def page(self, name):
        return read(os.path.join(LIONS, name)).decode()

    def test_links(self):
        """Each leads to a file that is there, and to a heading of it."""
        for name in (*(page + ".md" for page in PAGES), "README.md", "answers.md"):
            self.assertEqual(broken_links("lions", name), [], name)

    def test_pictures(self):
        """Each page has one, which one of its commands makes."""
        for page in PAGES:
            text = self.page(page + ".md")
            self.assertTrue(PICTURE.findall(text), page)
            for picture in PICTURE.findall(text):
                self.assertTrue(any(f" {os.path.basename(picture)}" in command for command, _ in commands(text)), (page, picture))

    def test_questions(self):
        """Each page has two questions, each with an answer of its own; and the first page leads to each."""
        asked = [question for page in PAGES for question in QUESTION.findall(self.page(page + ".md"))]
        self.assertEqual(len(asked), 2 * len(PAGES))
        self.assertEqual(len(set(asked)), len(asked))
        first = self.page("README.md")
        for page in PAGES:
            self.assertEqual(len(QUESTION.findall(self.page(page + ".md"))), 2, page)
            self.assertIn(f"]({page}.md)", first)


class Names(unittest.TestCase):
    """The names of the book: each file that a row names is there, and has what the row names after it."""

    def test_rows(self):
        crates, seen = os.path.join(TOP, "crates"), 0
        rows = read(os.path.join(TOP, "docs", "lions-names.md")).decode().splitlines()
        for cell in (cell for row in rows if row.startswith("| ") for cell in row.split(" | ")[1:]):
            source = ""
            for name in re.findall(r"`([\w/]+)`", cell):
                crate, _, file = name.partition("/")
                if file:
                    definitions = file.startswith("specs/")
                    source = read(os.path.join(crates, crate, f"{file}.antt" if definitions else f"src/{file}.rt")).decode()
                elif not os.path.isdir(os.path.join(crates, name)):
                    self.assertRegex(source, rf"\b(?:fn|struct|enum|trait|record|pub) {name}\b", cell)
                    seen += 1
        self.assertGreater(seen, 200)
