"""What all tools have, and `make install`: what it puts where, and that it works from there."""
import ast
import hashlib
import os
import re
import shutil
import subprocess
import sys
import tempfile
import unittest
import unittest.mock

from tests.common import TESTS, TOOLS, TOP, Case, read, tool, v6

install = tool("install")
ENVIRONMENT = {key: value for key, value in os.environ.items() if key != "V6"}


class Words(Case):
    def test_help_and_version(self):
        program = hashlib.sha256(read(os.path.join(TOP, "bin", "v6"))).hexdigest()[:12]
        for name in ("as", "cc", "console", "disk", "log", "look", "page", "row", "run", "trace", "try"):
            self.assertEqual(self.call(tool(name).main, "--version"),
                             (0, f"{name}.py of the repository whose bin/v6 is {program}\n", ""))
        for name in ("as", "cc", "console", "disk", "install", "log", "look", "manpages", "page", "row", "run", "trace", "try"):
            status, said, _ = self.call(tool(name).main, "--help")
            self.assertEqual((status, said.split()[:2]), (0, ["usage:", name + ".py"]))
        self.assertFalse(os.path.exists("--help"))

    def test_no_program_beside(self):
        with unittest.mock.patch("v6.host.program.TOP", self.folder):
            for name in ("as", "log", "look", "trace"):
                said = f"{self.folder}/bin/v6: No such file or directory: --version tells the program beside the tool"
                self.assertEqual(self.call(tool(name).main, "--version"), (1, "", f"{name}.py: {said}\n"))


STARTS = """
import io, os, runpy, sys
heavy = set("asyncio concurrent email http logging multiprocessing socket ssl unittest urllib xml".split()) - sys.modules.keys()
for name in sys.argv[2:]:
    if not os.fork():
        sys.path.insert(0, sys.argv[1])
        sys.argv, out, sys.stdout = [name, "--help"], sys.stdout, io.StringIO()
        try:
            runpy.run_path(f"{sys.path[0]}/{name}.py", run_name="__main__")
        finally:
            print(name, *sorted(heavy & sys.modules.keys()), file=out, flush=True)
            os._exit(0)
    os.wait()
"""


class Pythons(unittest.TestCase):
    def test_an_old_one(self):
        """Each command can be read by Python 3.6, and an old one is told in a line."""
        for name in sorted(one for one in os.listdir(TOOLS) if one.endswith(".py")):
            ast.parse(read(os.path.join(TOOLS, name)), feature_version=(3, 6))
            for version in (3, 6, 15), (3, 8, 20):
                code = (f"import runpy, sys; sys.version_info = {version}; sys.modules['dataclasses'] = None; sys.argv = ['{name}', '--help']; "
                        f"runpy.run_path({os.path.join(TOOLS, name)!r}, run_name='__main__')")
                done = subprocess.run([sys.executable, "-S", "-c", code], capture_output=True, text=True)
                said = f"{name}: Python 3.9 or later is wanted, and this is 3.{version[1]}\n"
                self.assertEqual((done.returncode, done.stdout, done.stderr), (1, "", said))


class Starts(unittest.TestCase):
    def test_what_is_imported(self):
        """What takes long to import is imported where it is used, so that a tool begins within 0.15 seconds of a processor."""
        names = ("as", "cc", "console", "disk", "log", "look", "row", "run", "trace", "try")
        done = subprocess.run([sys.executable, "-S", "-c", STARTS, TOOLS, *names], capture_output=True, text=True)
        self.assertEqual((done.stdout.splitlines(), done.stderr), (list(names), ""))


def make(*words):
    return subprocess.run(["make", "-s", "-C", TOP, *words], env=ENVIRONMENT, capture_output=True, text=True)


class Maker(Case):
    """What make and install.py do below a folder."""

    def make(self, *words, status=0):
        """What make says, where it ends so."""
        done = make(*words)
        self.assertEqual((done.returncode, done.stdout), (status, ""), done.stderr)
        return done.stderr

    def installed(self, command, prefix=""):
        """What install.py says that does it as make has it do, but that Python compiles nothing."""
        with unittest.mock.patch("compileall.compile_dir"):
            status, out, error = self.call(install.main, command, prefix, self.folder)
        self.assertEqual((status, out), (0, ""), error)
        return error

    def below(self, folder=""):
        """All names below a folder of the test's."""
        return sorted(os.path.relpath(os.path.join(place, name), self.path(folder)) for place, folders, names
                      in os.walk(self.path(folder)) for name in folders + names)


@unittest.skipUnless(shutil.which("make"), "make isn't there")
class Install(Maker):
    """What is put, and what goes."""

    def test_what_was_changed_is_kept(self):
        """A disk of the user's, in the place of the one that was installed, and another program's file."""
        image = "lib/v6/examples/shell/image"
        os.mkdir(self.path("bin"))
        other = self.put("bin/v6-as", b"another")
        self.assertEqual(self.installed("install"), f"install.py: {other} isn't as it was installed, and is {other}.1 now\n")
        self.assertEqual(read(other + ".1"), b"another")
        self.put(image, b"typed at")
        self.assertIn("/image.1 now\n", self.installed("install"))
        self.assertEqual(read(self.path(image + ".1")), b"typed at")
        self.assertEqual(read(self.path(image)), read(os.path.join(TOP, "examples", "shell", "image")))
        self.put(image, b"typed at again")
        self.assertIn("/image isn't as it was installed, and stays\n", self.installed("uninstall"))
        self.assertEqual([name for name in self.below() if os.path.isfile(self.path(name))],
                         ["bin/v6-as.1", image, image + ".1"])

    def test_a_folder_that_can_t_be_written(self):
        """A line names it, and nothing is put."""
        name = self.put("share", b"")
        said = self.make("install", f"PREFIX={self.folder}", status=2).splitlines()
        self.assertEqual([line for line in said if not line.startswith("make")], [f"install.py: {name}: Not a directory"])
        self.assertEqual(self.below(), ["share"])
        unfit = self.path("a'b")
        said = self.make("install", f"PREFIX={unfit}", status=2).splitlines()
        self.assertIn(f"install.py: error: {unfit!r}: a name without quotes, tabs and backslashes is wanted", said)

    def test_a_prefix_with_a_blank(self):
        """Commands work from there, and the pages name places as a shell reads them."""
        prefix = self.path("a b")
        self.assertEqual(self.make("install", f"PREFIX={prefix}"), "")
        done = subprocess.run([f"{prefix}/bin/v6-disk", "list", f"{prefix}/lib/v6/examples/hi/image"], capture_output=True, text=True)
        self.assertEqual((done.returncode, done.stderr), (0, ""))
        command = re.search("^cp .*my.image$", read(f"{prefix}/lib/v6/docs/tools/README.md").decode(), re.M)[0]
        self.assertEqual(subprocess.run(["sh", "-c", command], cwd=self.folder).returncode, 0)
        self.assertEqual(read(self.path("my.image")), read(os.path.join(TOP, "examples", "shell", "image")))
        self.assertEqual(self.make("uninstall", f"PREFIX={prefix}"), "")
        self.assertEqual(self.below(), ["my.image"])


@unittest.skipUnless(shutil.which("make"), "make isn't there")
class Installed(Maker):
    """What was put, as a user meets it who has nothing of the repository."""

    @classmethod
    def setUpClass(cls):
        folder = tempfile.TemporaryDirectory()
        cls.addClassCleanup(folder.cleanup)
        cls.there, done = folder.name, make("install", f"PREFIX={folder.name}")
        assert (done.returncode, done.stderr) == (0, ""), done.stderr

    def setUp(self):
        super().setUp()
        os.mkdir(self.path("mine"))

    def test_completion_and_links_lead_somewhere(self):
        places = [os.path.join(place, name) for place, folders, names in os.walk(self.there) for name in folders + names]
        for place in places:
            self.assertTrue(os.path.exists(place), place)
            if place.endswith(".md"):
                for target in re.findall(r"\]\(([^)#]+)(?:#[^)]*)?\)", read(place).decode()):
                    self.assertTrue(os.path.exists(os.path.join(os.path.dirname(place), target)), (place, target))
                self.assertNotRegex(read(place).decode(), r"in\s+the\s+repository\s*-->")

    def user(self, command, status=0):
        """What a user sees who has the installed commands on the PATH and nothing of the repository."""
        path = f"{self.there}/bin:{TESTS}/bin:/usr/bin:/bin"
        done = subprocess.run(["sh", "-ec", command], cwd=self.path("mine"), stdin=subprocess.DEVNULL, capture_output=True,
                              text=True, env={"PATH": path, "HOME": self.folder, "V6_PYTHON": os.environ["V6_PYTHON"]})
        self.assertEqual(done.returncode, status, done.stderr)
        return done.stdout, done.stderr

    def blocks(self, name):
        return re.findall(r"^```\n(.*?)^```$", read(os.path.join(self.there, "lib/v6/docs", name)).decode(), re.M | re.S)

    def test_a_first_evening_as_its_page_stands(self):
        """The commands of the installed page, in a folder outside the repository."""
        source, make, dialogue, home, *_ = self.blocks("tools/README.md")
        self.put("mine/hello.s", source.encode())
        self.user(make)
        command, _, screen = dialogue.partition("\n\n")
        typed = "".join(line[2:].lower() + "\n" for line in screen.splitlines() if line.startswith("# "))
        self.put("mine/typed", typed.encode())
        self.assertEqual(self.user(command + " <typed")[0].replace("\r", ""), screen)
        self.user(home)
        self.assertEqual(read(self.path("mine/who")), b"hello, ken\nhello, dennis\n")
        for block in self.blocks("tools/try.md")[:1]:
            *_, last = re.split(r"^\$ ", block, flags=re.M)
            command, _, shown = last.partition("\n")
            self.assertEqual("".join(self.user(command)), shown)

    def test_pages_of_a_lesson(self):
        """They are made of the lesson as it is installed."""
        self.user("v6-lessonpages --moments 2 main")
        self.assertEqual(sorted(os.listdir(self.path("mine/lessons"))),
                         ["answers.html", "index.html", *(f"main-{run}.html" for run in (1, 2, 3)), "main.html", "pictures"])
        self.assertEqual(os.listdir(self.path("mine/lessons/pictures")), ["main.svg"])

    def test_a_lesson_as_its_page_stands(self):
        for block in self.blocks("lions/main.md"):
            for command, shown in re.findall(r"^\$ (.*)\n((?:(?!\$ ).*\n)*)", block, re.M):
                self.assertEqual(self.user(command)[0].replace("\r", ""), shown, command)

    def test_a_console_without_an_image(self):
        """It types at a copy of the shell's disk, which is made once, and changed where it is asked for alone."""
        original, copy = read(os.path.join(TOP, "examples", "shell", "image")), self.path("mine/my.image")
        out, said = self.user("echo 'cat /usr/sys/ken/slp.c' | v6-console --script evening")
        self.assertIn("YOU ARE NOT EXPECTED TO UNDERSTAND THIS", out)
        self.assertIn("console: my.image is a copy of the shell's disk", said)
        self.assertEqual(read(copy), original)
        self.user("echo 'echo hi >/usr/x' | v6-console --disk my.image")
        kept = read(copy)
        out, said = self.user("echo 'cat /usr/x' | v6-console")
        self.assertEqual(out.replace("\r", ""), "# CAT /USR/X\nHI\n# ")
        self.assertIn("console: the disk is my.image, which was here\n", said)
        self.assertEqual(read(copy), kept)
        self.put("mine/my.image", b"no disk")
        _, said = self.user("echo ls | v6-console", status=1)
        self.assertEqual(read(copy), b"no disk")
        self.assertEqual(len(said.strip().split("\nconsole: ")), 2)
        os.unlink(copy)
        os.symlink("nowhere/there", copy)
        _, said = self.user("echo ls | v6-console", status=1)
        self.assertEqual(said.splitlines()[-1], "console: my.image: No such file or directory")

    def test_a_tool_from_there_and_back(self):
        """Also where DESTDIR stands before it, and by a link; it calls itself as it is called. Then all goes, with the folders that were
        made, and what Python has compiled; what was there before stays."""
        os.makedirs(self.path("usr/bin"))
        self.put("usr/bin/mine", b"mine")
        self.put("it.s", b"\t.globl\t_main\n_main:\n\tclr\tr0\n\trts\tpc\n")
        before, words = self.below(), ("PREFIX=/usr", f"DESTDIR={self.folder}")
        self.assertEqual(self.make("install", *words), "")
        self.parts()
        self.from_there()
        found = self.below("usr")
        self.assertEqual(self.installed("install", "/usr"), "")  # a second time nothing has changed
        self.assertEqual(self.below("usr"), [name for name in found if "__pycache__" not in name])
        self.user("./disk --help")
        self.assertTrue(self.compiled("program"))
        self.assertEqual(self.make("uninstall", *words), "")
        self.assertEqual([name for name in self.below() if not name.startswith("mine/")], before)
        self.assertIn("v6 isn't installed there\n", self.make("uninstall", *words, status=2))

    def parts(self):
        found = self.below()
        for name in ("usr/bin/v6", "usr/bin/v6-console", "usr/bin/v6-try", "usr/lib/v6/tools/v6/disk/volume.py",
                     "usr/lib/v6/examples/shell/image", "usr/lib/v6/examples/shell/src/lib.s", "usr/lib/v6/tools/c/build-gcc.sh", "usr/lib/v6/docs/tools/log.svg",
                     "usr/share/doc/v6", "usr/share/man/man1/v6.1", "usr/share/man/man5/v6log.5", "usr/share/man/man1/v6-cc.1",
                     "usr/share/bash-completion/completions/v6-disk"):
            self.assertIn(name, found)
        self.assertEqual(read(self.path("usr/bin/v6")), read(os.path.join(TOP, "bin", "v6")))

    def from_there(self):
        self.user(f"{self.folder}/usr/bin/v6-cc -o it ../it.s")
        os.symlink("../usr/bin/v6-disk", self.path("mine/disk"))
        self.assertEqual(self.user("./disk cat ../usr/lib/v6/examples/shell/image /usr/sys/ken/slp.c")[0][:4], "\t/*\n")
        self.assertEqual(self.user("./disk cat nofile /x", status=1)[1], "v6-disk: nofile: No such file or directory\n")
        self.assertEqual(self.user("./disk --help")[0][:14], "usage: v6-disk")
        self.assertIn(b"/usr/lib/v6/tools/v6/host/program.py", read(self.compiled("program")))  # so a fault would name it, too
        self.assertNotIn(self.folder.encode(), read(self.compiled("program")))

    def compiled(self, name):
        folder = self.path("usr/lib/v6/tools/v6/host/__pycache__")
        return os.path.join(folder, next(one for one in os.listdir(folder) if one.startswith(name + ".")))

    def pages(self):
        folder = os.path.join(self.there, "share/man")
        return {name: read(os.path.join(place, name)).decode() for place, _, names in os.walk(folder) for name in names}

    def test_pages(self):
        """Each tool has one; each request of roff is one of man(7), and what Markdown has for marks is gone."""
        pages, commands = self.pages(), os.listdir(os.path.join(self.there, "bin"))
        tools = "|".join(command[3:] for command in commands if command[2:])
        self.assertEqual(set(pages), {name + ".1" for name in commands} | {"v6script.5", "v6log.5", "v6shell.7"})
        self.assertGreater(len(commands), 9)
        for name, page in pages.items():
            lines = page.split("\n")
            self.assertEqual(lines[1], ".SH NAME")
            self.assertEqual(lines[2].replace("\\-", "-").split(" - ")[0], name[:-2])
            requests = {line.split()[0] for line in lines if line.startswith(".")}
            self.assertLessEqual(requests, {".TH", ".SH", ".SS", ".PP", ".TP", ".IP", ".nf", ".fi", ".br"})
            prose = "\n".join(line for line in lines if not line.startswith("\\&"))  # what is code stays as it is
            self.assertIsNone(re.search(r"\]\(|^\||`|\*\*|<!--", prose, re.M), name)
            self.assertIsNone(re.search(rf"(?<![\w/])(tools/)?({tools})\.py|bin/v6|(?<!/)\bexamples/", page.replace("\\-", "-")), name)
        self.assertIn("v6-disk check IMAGE", pages["v6.1"].replace("\\-", "-"))
        self.assertIn("\n.TP\n\\fBtick\\fR\none tick of the clock\n", pages["v6script.5"])

    @unittest.skipUnless(shutil.which("man"), "man isn't there")
    def test_man(self):
        """It shows each page without a warning, and what stands in code as it stands there."""
        for name in self.pages():
            place = os.path.join(self.there, f"share/man/man{name[-1]}", name)
            done = subprocess.run(["man", "--warnings", "-l", place], capture_output=True, text=True,
                                  env={**ENVIRONMENT, "MANWIDTH": "100", "LC_ALL": "C.UTF-8"})
            self.assertEqual((done.returncode, done.stderr), (0, ""), name)
            if name == "v6-as.1":
                self.assertIn("\n       tty:    </dev/tty8\\0>\n", done.stdout)
            self.assertRegex(done.stdout, rf"\n +{name[:-2]} - .")


class Completion(Case):
    def completed(self, words, at=None):
        """What the words are completed to, the last of them or one by its place."""
        at = len(words.split()) - 1 if at is None else at
        script = f"source {TOP}/tools/completion.bash; COMP_WORDS=({words}); COMP_CWORD={at}; _v6; echo ${{COMPREPLY[@]}}"
        return subprocess.run(["bash", "-c", script], capture_output=True, text=True).stdout.split()

    def options(self, name, *words):
        """The options that a tool's help names."""
        said = self.call(tool(name).main, *words, "--help")[1]
        return {word for word in re.findall(r"(?<![\w/-])--?[a-zA-Z0-9][\w-]*", said.replace("[", " ")) if word != "-h"}

    @unittest.skipUnless(shutil.which("bash"), "bash isn't there")
    def test_completion_knows_all_options(self):
        """Those that the help of each tool, and of each command of disk.py and log.py, names."""
        for name in ("as", "cc", "console", "lessonpages", "look", "page", "row", "run", "trace", "try"):
            self.assertEqual(set(self.completed(f"{TOP}/tools/{name}.py x -", 2)), self.options(name), name)
        for name in ("disk", "log"):
            self.assertEqual(set(self.completed(f"{name}.py -", 1)), self.options(name))
            commands = self.completed(f"{name}.py ''", 1)
            self.assertEqual(commands, re.findall(r"^    (\w+)", self.call(tool(name).main, "--help")[1], re.M))
            self.assertEqual(set(self.completed(f"{name}.py x -", 2)), set().union(*(self.options(name, one) for one in commands)))
        os.symlink(os.path.join(TOP, "tools"), self.path("tools"))
        for place in TOP, self.folder:  # also in a folder in which one plays
            self.assertEqual(self.completed(f"{place}/tools/row.py swapping/a_pass"), ["swapping/a_pass_of_64_moves"])
        done = subprocess.run(["tools/row.py", "-q", "swapping/a_pass_of_64_moves"], cwd=self.folder, capture_output=True)
        self.assertEqual((done.returncode, done.stderr), (0, b""))

    @unittest.skipUnless(shutil.which("bash"), "bash isn't there")
    def test_completion_knows_all_commands(self):
        """Those of the usage line, in its order."""
        self.assertEqual(self.completed("v6 ''", 1), re.findall(r"(?:v6|,) (\w+)", v6()[1]))

    @unittest.skipUnless(shutil.which("bash"), "bash isn't there")
    def test_completion(self):
        for words, wanted in (("v6-disk --v", "--v6 --version"), ("v6 ch", "check"), ("v6-disk re", "repair"), ("v6-console x --sc", "--script"),
                              ("v6-cc --co", "--compiler"), ("v6-cc --g", "--gcc"),
                              ("v6-trace --pr", "--process"), ("v6-look x --sy", "--symbols")):
            self.assertEqual(self.completed(words), wanted.split())
