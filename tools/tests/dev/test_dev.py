"""The small programs for those who work at v6."""
import os
import re
import subprocess
import sys
import unittest

from tests.common import TOOLS, TOP, Case, read, write
from tests.pages import broken_links

SOURCE = b"fn f() {\n    a();\n    b();\n    b();\n}\n"


def dev(name, *words):
    done = subprocess.run([sys.executable, os.path.join(TOOLS, "dev", name), *words], capture_output=True, text=True)
    return done.returncode, done.stdout + done.stderr


class Edits(Case):
    def edits(self, *texts):
        """What is said of edits of a crate."""
        for folder in ("src", "must-fail"):
            os.makedirs(self.path(f"crates/one/{folder}"))
        self.put("crates/one/src/lib.rt", SOURCE)
        for number, text in enumerate(texts):
            write(self.path(f"crates/one/must-fail/{number}.edit"), text)
        return dev("edits.py", self.folder)

    def test_edits_that_fit(self):
        """A text that an edit before has made is there too."""
        self.assertEqual(self.edits(b"file: src/lib.rt\nold: a();\nnew: c();\nold: c();\nnew: d();\n"), (0, "1 edits, 0 faults\n"))

    def test_edits_that_do_not_fit(self):
        texts = [b"file: src/lib.rt\nold: b();\nnew: c();\n", b"file: src/lib.rt\nold: e();\nnew: c();\n", b"file: src/other.rt\nold: a();\nnew: c();\n"]
        said = ["crates/one/must-fail/0.edit: stands 2 times: b();", "crates/one/must-fail/1.edit: stands 0 times: e();",
                "crates/one/must-fail/2.edit: src/other.rt isn't there", "3 edits, 3 faults", ""]
        self.assertEqual(self.edits(*texts), (1, "\n".join(said)))

    def test_those_of_the_repository(self):
        status, said = dev("edits.py")
        self.assertEqual(status, 0, said)


class Definitions(Case):
    def test_a_crate(self):
        status, said = dev("definitions.py", "text_tab")
        self.assertEqual((status, said.split("\n", 1)[0]), (0, "text_tab"))
        self.assertIn("Lions", said)
        self.assertEqual(dev("definitions.py", "nothing"), (1, "definitions.py: nothing: no such crate\n"))

    def test_all(self):
        """Each crate with definitions is there, and most of their files say something."""
        status, said = dev("definitions.py")
        self.assertEqual(status, 0)
        self.assertGreater(sum(line.startswith("  ") and not line.startswith("   ") for line in said.splitlines()), 200)


class Crates(unittest.TestCase):
    """The floors of crates.txt, those of crates/README.md, and the folders."""

    def floors(self):
        """Of crates.txt: the crates of each floor, in their order; and on which each crate stands."""
        floors, stands = {}, {}
        for line in read(os.path.join(TOP, "crates.txt")).decode().splitlines()[1:]:
            if line.startswith("# "):
                floors[line[2:]] = []
            elif line:
                name, _, below = line.partition(":")
                floors[[*floors][-1]].append(name)
                stands[name] = below.split()
        return floors, stands

    def test_floors(self):
        """A crate stands on none of a floor after its own."""
        floors, stands = self.floors()
        place = {name: number for number, names in enumerate(floors.values()) for name in names}
        for name, below in stands.items():
            for one in below:
                self.assertLessEqual(place.get(one, 0), place[name], (name, one))
        folders = [name for name in os.listdir(os.path.join(TOP, "crates")) if os.path.isdir(os.path.join(TOP, "crates", name, "src"))]
        self.assertEqual(sorted(place), sorted(folders))

    def test_page(self):
        """It has the same floors with the same crates, and a sentence for each."""
        floors, name = {}, None
        for line in read(os.path.join(TOP, "crates", "README.md")).decode().splitlines():
            row = re.fullmatch(r"\| \[`(\w+)`\]\((\w+)/README\.md\) \| (.*\.) \|", line)
            if line.startswith("## "):
                name = line[3:]
                floors[name] = []
            elif row:
                self.assertEqual(row[1], row[2])
                floors[name].append(row[1])
        self.assertEqual(floors, self.floors()[0])
        self.assertEqual([*floors], [*self.floors()[0]])
        self.assertEqual(broken_links("..", "crates", "README.md"), [])
