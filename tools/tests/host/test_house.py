"""The folders of tools/v6: which of them stands on which; and the commands, each of which begins from anywhere."""
import ast
import os
import shutil
import subprocess
import sys
import unittest

from tests.common import TOOLS, Case, read

BELOW = {  # the folders whose modules those of a folder may import
    "host": set(),
    "pdp11": {"host"},
    "disk": {"host", "pdp11"},
    "log": {"host"},
    "run": {"host", "pdp11", "disk", "log"},
    "debug": {"host", "pdp11", "disk", "log", "run"},
    "page": {"host", "pdp11", "disk", "log", "run", "debug"},
    "rows": {"host", "pdp11"},
}
COMMANDS = ("as", "cc", "console", "disk", "install", "lessonpages", "log", "look", "manpages", "page", "row", "run", "trace", "try")
MOST_FILES = 20  # of a folder


class Gate(Case):
    def test_without_the_kit(self):
        """One line tells what is missing, and what runs without it."""
        for name in ("bash", "dirname"):
            os.symlink(shutil.which(name), self.path(name))
        done = subprocess.run([os.path.join(os.path.dirname(TOOLS), ".ci", "run")], capture_output=True, text=True, env={"PATH": self.folder})
        self.assertEqual((done.returncode, done.stdout, done.stderr.count("\n")), (127, "", 1))
        self.assertRegex(done.stderr, r"^\.ci/run: rt isn't there, the command of the kit .* tools/tests/run\.py and tools/row\.py -q '\*'\n$")


def imported(file):
    """The modules that a file imports, wherever it does."""
    found = set()
    for node in ast.walk(ast.parse(read(file))):
        if isinstance(node, ast.Import):
            found |= {name.name for name in node.names}
        elif isinstance(node, ast.ImportFrom):
            found |= {"." * node.level + (node.module or "")} | {f"{node.module}.{name.name}" for name in node.names}
    return found


def below(folder):
    for place, folders, names in os.walk(os.path.join(TOOLS, folder)):
        folders[:] = sorted(set(folders) - {"__pycache__"})
        yield place, folders, sorted(names)


class House(unittest.TestCase):
    def modules(self):
        """The files of the package, each with its folder."""
        for place, _, names in below("v6"):
            for name in names:
                if name.endswith(".py"):
                    yield os.path.basename(place), os.path.join(place, name)

    def test_folders(self):
        """All of them are told here, and each module stands in one."""
        folders = {folder for folder, _ in self.modules()}
        self.assertEqual(folders, {"v6", *BELOW})
        self.assertEqual([name for name in os.listdir(os.path.join(TOOLS, "v6")) if name.endswith(".py")], ["__init__.py"])

    def test_what_stands_on_what(self):
        """A module imports none of a folder that isn't below its own, and no command; a cycle can't be then."""
        for folder, file in self.modules():
            for name in imported(file):
                first, *rest = name.split(".")
                self.assertNotIn(first, ("", *COMMANDS, "tests"), (file, name))
                if first == "v6":
                    self.assertIn(rest[0], {folder} | BELOW.get(folder, set()), (file, name))
        for folder, lower in BELOW.items():
            self.assertTrue(all(BELOW[one] <= lower for one in lower), folder)

    def test_commands(self):
        """They are what stands in tools/, and none of them imports another."""
        self.assertEqual(sorted(name for name in os.listdir(TOOLS) if name.endswith(".py")), [f"{name}.py" for name in COMMANDS])
        for command in COMMANDS:
            names = {name.partition(".")[0] for name in imported(os.path.join(TOOLS, command + ".py"))}
            self.assertFalse(names & set(COMMANDS), command)

    def test_tests(self):
        """They stand in folders, all of which are packages: those of the package, and some more."""
        place, folders, names = next(below("tests"))
        self.assertFalse([name for name in names if name.startswith("test_")])
        self.assertLessEqual({*BELOW, "program", "docs", "dev", "judge"}, set(folders))
        for folder in set(folders) - {"bin"}:
            self.assertTrue(os.path.exists(os.path.join(place, folder, "__init__.py")), folder)

    def test_no_folder_is_full(self):
        for place, _, names in below("."):
            self.assertLessEqual(len(names), MOST_FILES, place)


class Anywhere(Case):
    def test_each_command(self):
        """By a link with a blank in its name, from a folder with one, and tools/ is a link too, beside which nothing of the repository is."""
        os.mkdir(self.path("a folder"))
        os.symlink(TOOLS, self.path("the tools"))
        for command in COMMANDS:
            os.symlink(f"../the tools/{command}.py", self.path(f"a folder/{command} it"))
            done = self.began(f"{command} it", "--help")
            self.assertEqual((done.returncode, done.stderr, done.stdout.split()[:2]), (0, "", ["usage:", f"{command}.py"]))
        done = self.began("row it", "calls/csw")
        self.assertEqual((done.returncode, done.stderr), (0, ""), done.stdout)

    def began(self, *words):
        return subprocess.run([sys.executable, "-S", *words], cwd=self.path("a folder"), capture_output=True, text=True)
