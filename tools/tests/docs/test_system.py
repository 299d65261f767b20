"""examples/system: its disk, its commands, and the rows of each, which are by hand."""
import glob
import os
import subprocess
import unittest

from tests.common import TOP, V6, Case, read, tool, v6
from v6.run import typed

cc = tool("cc")
SYSTEM = os.path.join(TOP, "examples", "system")
HERE = os.path.isfile(os.path.join(cc.HOME, "ccom"))


def names(folder):
    return sorted(os.listdir(os.path.join(SYSTEM, folder)))


class System(Case):
    def built(self, name):
        words = [os.path.join(SYSTEM, "build.sh"), self.path(name)]
        done = subprocess.run(words, env={**os.environ, "V6": V6}, capture_output=True)
        self.assertEqual((done.returncode, done.stderr), (0, b""))
        return self.path(name)

    def test_disk(self):
        """It is the same each time, and nothing is wrong with it."""
        image = self.built("image")
        self.assertEqual(read(image), read(self.built("again")))
        status, said = v6("check", image)
        self.assertEqual((status, said.split()[0]), (0, "ok"))

    def test_rows(self):
        image = self.built("image")
        for name in names("rows"):
            with self.subTest(name):
                rows = typed.parsed(os.path.join(SYSTEM, "rows", name))
                self.assertIsNone(typed.play(rows, image, self.folder, V6))

    def test_each_command(self):
        """It has a program, a source, a page of lines that a terminal shows, and rows."""
        for name in names("bin"):
            with self.subTest(name):
                self.assertEqual(len(glob.glob(os.path.join(SYSTEM, "src", name + ".[cs]"))), 1)
                self.assertTrue(os.path.isfile(os.path.join(SYSTEM, "rows", name)))
                (page,) = glob.glob(os.path.join(SYSTEM, "man", name + ".[1-8]"))
                lines = read(page).decode("ascii").split("\n")
                self.assertEqual([line for line in lines if len(line) > 72 or "\t" in line], [])
                self.assertEqual(lines[2:4], ["NAME", f"     {name} -- " + lines[3].partition(" -- ")[2]])

    @unittest.skipUnless(HERE, f"no compiler of C in {cc.HOME}: tools/c/build.sh makes it")
    def test_programs(self):
        """They are what the compiler makes of the sources."""
        words = [os.path.join(SYSTEM, "compile.sh")]
        done = subprocess.run(words, env={**os.environ, "V6_BIN": self.folder}, capture_output=True)
        self.assertEqual((done.returncode, done.stderr), (0, b""))
        for name in names("bin"):
            self.assertEqual(read(self.path(name)), read(os.path.join(SYSTEM, "bin", name)), name)

    def played(self, text):
        """What is told of rows of this text."""
        if not hasattr(self, "image"):
            self.image = self.built("image")
        return typed.play(typed.parsed(self.put("rows", text.encode())), self.image, self.folder, V6)

    def test_what_rows_tell(self):
        """A line that is shown otherwise, one that isn't shown, and one too many are found, and where."""
        for text, told in (
                ("# echo a\na\n", None),
                ("# echo a\nb\n", "line 2: wanted 'b\\n', shown 'a\\n# '"),
                ("# echo a\n", "at the end: shown 'a\\n# '"),
                ("# echo a\na\n\n", "line 3: wanted '\\n', shown '# '"),
                ("# echo a5b a 12b\na\\Nb a\\Nb\n", None),
                ("# cat\n< x\nx\n^ 101 012 004\nA\n", None)):
            with self.subTest(text):
                self.assertEqual(self.played(text), told)

    def test_what_is_no_row(self):
        for text, told in (("@ nosuch\n", "no such word after @"), ("@ line\n", "no such word after @"),
                           ("# " + "x" * 291 + "\n", "a line of more than 290 bytes is typed by keys")):
            name = self.put("rows", text.encode())
            with self.assertRaises(typed.RowError) as error:
                typed.parsed(name)
            self.assertEqual(str(error.exception), f"{name}: line 1: {told}")
