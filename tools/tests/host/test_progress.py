"""How far a tool is: on a terminal after two seconds, and never in a pipe."""
import contextlib
import fcntl
import io
import os
import pty
import struct
import subprocess
import sys
import termios
import time
import unittest.mock

from tests.common import TESTS, TOOLS, TOP, V6, Case

from v6.host import progress

PROGRAM = """import sys, time
sys.path.insert(0, sys.argv[1])
from v6.host import progress
progress.AFTER = progress.APART = float(sys.argv[2])
with progress.Progress("tool.py") as one:
    with progress.Progress("other.py") as other:
        one.tell("1 of 3")
        other.tell("\\x1b2 of 3" + "x" * 200)
    print("said", file=sys.stderr)
    one.tell("3 of 3")
raise SystemExit(3)
"""


class Watched(Case):
    def shown(self, words, term="vt100", columns=30):
        """The status of a program, and what a terminal shows of its standard error."""
        ours, theirs = pty.openpty()
        fcntl.ioctl(theirs, termios.TIOCSWINSZ, struct.pack("4H", 24, columns, 0, 0))
        done, out = subprocess.Popen([sys.executable, *words], stderr=theirs, stdout=subprocess.DEVNULL, env={**os.environ, "TERM": term}), b""
        os.close(theirs)
        with contextlib.suppress(OSError):  # nobody has its other end open any more
            while data := os.read(ours, 4096):
                out += data
        os.close(ours)
        return done.wait(), out.decode().replace("\r\n", "\n")


class Terminal(Watched):
    def test_terminal(self):
        """The line fits, nothing that moves the cursor comes from a name, and it is taken away before anything else is said."""
        clear = "\r\033[K"
        text = f"{clear}tool.py: 1 of 3{clear}other.py: ?2 of 3{'x' * 12}{clear}said\n{clear}tool.py: 3 of 3{clear}"
        words = ["-c", PROGRAM, TOOLS]
        self.assertEqual(self.shown([*words, "0"]), (3, text))
        self.assertEqual(self.shown([*words, "60"]), (3, "said\n"))
        self.assertEqual(self.shown([*words, "0"], term="dumb"), (3, "said\n"))

    def test_pipe(self):
        done = subprocess.run([sys.executable, "-c", PROGRAM, TOOLS, "0"], capture_output=True, env={**os.environ, "TERM": "vt100"})
        self.assertEqual((done.returncode, done.stderr), (3, b"said\n"))


class Times(Case):
    def test_when(self):
        """Not before two seconds, and then four times a second at most."""
        now, error = [100.0], io.StringIO()
        error.isatty = lambda: True
        with unittest.mock.patch.object(time, "monotonic", lambda: now[0]), unittest.mock.patch("sys.stderr", error), \
                unittest.mock.patch.dict(os.environ, TERM="vt100"), progress.Progress("it") as one:
            for number in range(100):
                one.tell(str(number))
                now[0] += 0.125
        shown = [int(line.rpartition(" ")[2]) for line in error.getvalue().split(progress.CLEAR)[1:-1]]
        self.assertEqual(shown, [*range(16, 100, 2)])


class Tools(Watched):
    """The tools that tell it, made to do so at once."""

    def told(self, name, *words):
        call = (f"import sys; sys.path.insert(0, {TOOLS!r}); from v6.host import progress; progress.AFTER = progress.APART = 0; import importlib.util; "
                f"spec = importlib.util.spec_from_file_location('it', {os.path.join(TOOLS, name)!r}); it = importlib.util.module_from_spec(spec); "
                "spec.loader.exec_module(it); sys.exit(it.main(sys.argv[1:]))")
        return self.shown(["-c", call, *words], columns=80)

    def test_page(self):
        hi = os.path.join(TOP, "examples", "hi")
        words = "--v6", V6, "-o", self.path("page.html")
        status, out = self.told("page.py", os.path.join(hi, "image"), "1200", os.path.join(hi, "script"), "--replay", *words)
        self.assertEqual(status, 0, out)
        self.assertRegex(out, r"\r\033\[Kpage\.py: [0-9]+ moments counted\r.*\r\033\[Kpage\.py: line [0-9]+ of [0-9]+\r\033\[K$")

    def test_lessons(self):
        status, out = self.told("lessonpages.py", "main", "--moments", "5", "--v6", V6, "-o", self.path("lessons"))
        self.assertEqual(status, 0, out)
        self.assertIn("\r\033[Klessonpages.py: main: cat log\r\033[K", out)

    def test_searches(self):
        """look.py, where a run is gone through, and trace.py, where its lines go elsewhere; neither line is of a run that is at once."""
        shell = os.path.join(TOP, "examples", "shell")
        words = os.path.join(shell, "image"), "1200", self.put("script", b"run 10000\ntype ls\nrun 10000\n"), "--v6", V6
        status, out = self.told("look.py", *words, "-c", "until word 0 1 of 1")
        self.assertEqual(status, 1, out)
        self.assertRegex(out, r"^\r\033\[Klook\.py: slot [0-9]+ of 20000\r.*\r\033\[Klook\.py: word 0 1: not found after slot 0\n$")
        status, out = self.told("trace.py", *words)
        self.assertEqual(status, 0, out)
        self.assertRegex(out, r"^(\r\033\[Ktrace\.py: slot [0-9]+ of 20000)+\r\033\[K$")

    def test_rows(self):
        status, out = self.told("row.py", "-q", "buffers/*", "--v6", V6)
        self.assertEqual(status, 0, out)
        self.assertRegex(out, r"^\r\033\[Krow\.py: 1 of ([0-9]+): buffers/[a-z_0-9]+(\r\033\[Krow\.py: [0-9]+ of \1: buffers/[a-z_0-9]+)+\r\033\[K$")

    def test_tests(self):
        """The program that runs the tests tells how many classes have ended, and not what their tools say of themselves."""
        for name in ("a", "b"):
            self.put(f"test_{name}.py", f"import time, unittest\nclass {name.upper()}(unittest.TestCase):\n    def test(self):\n"
                                        f"        time.sleep(1.5)\n".encode())
        call = (f"import importlib.util, sys; sys.path.insert(0, {TOOLS!r}); from v6.host import progress; progress.AFTER = progress.APART = 0; "
                f"spec = importlib.util.spec_from_file_location('all_tests', {os.path.join(TESTS, 'run.py')!r}); "
                "it = sys.modules['all_tests'] = importlib.util.module_from_spec(spec); spec.loader.exec_module(it); "
                f"it.HERE = it.TOOLS = {self.folder!r}; sys.exit(it.main(it.options_of(['--jobs', '1'])))")
        status, out = self.shown(["-c", call], columns=80)
        self.assertEqual(status, 0, out)
        self.assertRegex(out, r"^(\r\033\[Ktests/run\.py: [012] of 2 classes of tests have ended)+\r\033\[KRan 2 tests in .*: 2 passed, 0 failed\n$")
        done = subprocess.run([sys.executable, "-c", call], capture_output=True, text=True, env={**os.environ, "TERM": "vt100"})
        self.assertRegex(done.stderr, r"^Ran 2 tests in .*: 2 passed, 0 failed\n$")
