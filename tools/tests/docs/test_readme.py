"""README.md: its two commands, and its length."""
import os

from tests.common import TOP, read
from tests.pages import Runs


class Readme(Runs):
    def test_the_box(self):
        """It says what each of its two commands needs; the first is there, and the gate is the second."""
        _, box, _, _, told, *_ = read(os.path.join(TOP, "README.md")).decode().split("```\n")
        first, second = box.splitlines()
        self.assertTrue(os.access(os.path.join(TOP, first.split()[0]), os.X_OK) and os.access(os.path.join(TOP, second.split()[0]), os.X_OK))
        self.assertIn("wants the kit, see below", second)
        for word in ("x86-64", "C library of GNU", "`rt` of the kit", "Python 3.9"):
            self.assertIn(word, " ".join(told.split()))

    def test_where_to_begin(self):
        """Who asks why a process waits, or has a disk, or a program, finds the tools for it in the table."""
        table = read(os.path.join(TOP, "README.md")).decode().split("## Where to begin")[1].split("##")[0]
        for name in ("look", "log", "trace", "try", "as", "disk", "pack", "page"):
            self.assertIn(f"(docs/tools/{name}.md)", table)

    def test_length(self):
        """It can be read within a few minutes."""
        text = read(os.path.join(TOP, "README.md")).decode()
        self.assertLessEqual(len(text.splitlines()), 120)
        self.assertLessEqual(len(text.split()), 1300)
