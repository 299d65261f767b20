"""A run asks for no memory from the moment on at which it opens the first of its outputs, which is after the boot. Its requests
are counted, where a C compiler is there; and it comes to the same where the system gives it no page from that moment on."""
import collections
import contextlib
import os
import resource
import shutil
import subprocess
import sys
import time
import unittest
import unittest.mock

from tests.common import TESTS, TOP, Case, generated, read, tool, write

from v6.rows import file as rowfile

row_tool = tool("row")
V6 = row_tool.V6
COMPILER = next(filter(None, map(shutil.which, ("cc", "gcc", "clang"))), None)
HI = f"{TOP}/examples/hi/image", "1200", f"{TOP}/examples/hi/script"
SHELL = f"{TOP}/examples/shell/image", "3968", f"{TOP}/examples/shell/script"
LONG = 440_000  # slots
RUNS = "run", "run8", "run2", "memory"
# Families of rows: programs that mean harm, and those that want most of what a kernel keeps in tables and lists.
FAMILIES = ("hostile_programs", "hostile_calls", "memory", "swapping", "texts", "pipes", "second_disk", "eight_lines",
            "paced_output")
LOGS = 30  # rows of logs
LOG = b"boot 64 0\nsleep 0 -100 runout\ngo 1\n" + b"wake keys\n" * 100_000 + b"end\n"
LAWFUL = 0, b"lawful: 100004 lines\n"
WAYS = {
    "malloc": "malloc(1)", "calloc": "calloc(1, 1)", "realloc": "realloc(0, 1)", "aligned_alloc": "aligned_alloc(16, 16)",
    "posix_memalign": "posix_memalign(&it, 16, 16)", "sbrk": "sbrk(64)",
    "mmap": "mmap(0, 1, PROT_READ, MAP_PRIVATE | MAP_ANONYMOUS, -1, 0)",
}
ASKS = """#define _DEFAULT_SOURCE
#include <fcntl.h>
#include <stdlib.h>
#include <sys/mman.h>
#include <unistd.h>
int main(void) { void *it = 0; open("made", O_WRONLY | O_CREAT, 0666); it = (void *)(long)%s; return it == &it; }
"""
# It opens the file of its last word, as a run opens TERM, and asks for sixteen megabytes then.
GREEDY = "import sys; file = open(sys.argv[-1], 'wb'); file.write(b'x' * len(bytearray(1 << 24)) and b'done')"

Counts = collections.namedtuple("Counts", "opened made end calls")


def row_names():
    return [name for name in rowfile.names() if name.partition("/")[0] in FAMILIES]


class Counting(row_tool.Runner):
    """Runs rows, and keeps of each command with how many requests for memory it came to which moment."""

    def __init__(self, v6, folder, library):
        super().__init__(v6, folder)
        self.counts, self.library, self.found = os.path.join(folder, "counts"), library, []

    def call(self, words, report="", ask_in=0):
        write(self.counts, b"")
        with unittest.mock.patch.dict(os.environ, LD_PRELOAD=self.library, COUNTS=self.counts, ASK_IN=str(ask_in)):
            came = super().call(words)
        self.found.append((words, Counts(*map(int, read(self.counts).split()))))
        return came


def words_of(command, image, core, script):
    """The words of a command over these files. The second disk of run2 is the first one."""
    outputs = {"memory": ["final"], "run2": ["term", "log", "final", image, "final2"]}
    return [command, image, core, script, *outputs.get(command, ["term", "log", "final"])]


def late(words, counts):
    """How often a command asked for memory after the moment from which on it takes none; None where it has no such moment."""
    if words[0] == "audit" and len(words) == 2:
        return counts.end - counts.opened
    if words[0] in RUNS and counts.made >= 0:
        return counts.end - counts.made
    return None


@unittest.skipUnless(COMPILER, "no C compiler is there: requests for memory aren't counted")
class Requests(Case):
    def setUp(self):
        super().setUp()
        self.library = self.path("requests.so")
        self.compile("-shared", "-fPIC", "-o", self.library, os.path.join(TESTS, "program", "requests.c"), "-ldl")
        os.mkdir(self.path("there"))
        self.runner = Counting(V6, self.path("there"), self.library)

    def compile(self, *words):
        subprocess.run([COMPILER, "-O1", "-fno-builtin", *words], check=True)

    def none_late(self, wanted):
        """All that was run asked for memory before its moment alone; so many had one."""
        there = [(words, late(words, counts)) for words, counts in self.runner.found]
        self.assertEqual([(words, number) for words, number in there if number], [])
        self.assertGreaterEqual(sum(number is not None for _, number in there), wanted)

    def test_runs(self):
        """Each command over an example."""
        for command in RUNS:
            self.assertEqual(self.runner.call(words_of(command, *SHELL)), (0, b""))
        self.none_late(len(RUNS))

    def test_long_runs(self):
        """Three processes that compute under a clock, and eight lines on which keys are typed."""
        write(self.path("there/disk"), generated(3))
        part = b"run %d\ntype date\nhangup 0\n" % (LONG // 4)
        write(self.path("there/script"), b"clock 1000\ndisk 5\npace 3\ntype who\n" + 4 * part)
        for command in RUNS:
            self.assertEqual(self.runner.call(words_of(command, "disk", "1200", "script")), (0, b""))
        self.none_late(len(RUNS))

    def test_programs_that_mean_harm(self):
        """And others that want much: they come to what their rows say. Their logs are audited too."""
        names = row_names()
        for name in names:
            row = rowfile.Row(name)
            self.assertEqual(row_tool.differences(row, *self.runner.run(row)), [], name)
        self.none_late(len(names))

    def test_logs(self):
        """An audit takes no memory from the moment on at which it opens the log, of one line or a hundred thousand."""
        for name in [name for name in rowfile.names() if name.startswith("audit/")][:LOGS]:
            row = rowfile.Row(name)
            self.assertEqual(row_tool.differences(row, *self.runner.run(row)), [], name)
        write(self.path("there/log"), LOG)
        self.assertEqual(self.runner.call(["audit", "log"]), LAWFUL)
        self.none_late(LOGS // 2)

    def test_a_request_on_purpose(self):
        """Of the calls by which the kernel copies, clears and writes bytes after the boot, the first, one in the midst, or the
        last one asks for memory on purpose: each is noticed."""
        for command in RUNS:
            words = words_of(command, *HI)
            self.runner.call(words)
            calls = self.runner.found.pop()[1].calls
            self.assertGreater(calls, 100)
            for number in (1, calls // 2, calls):
                self.assertEqual(self.runner.call(words, ask_in=number), (0, b""))
                self.assertEqual(late(*self.runner.found.pop()), 1, (command, number))

    def test_each_way_of_asking(self):
        """By a program that makes a file and asks after that."""
        for name, call in {"none": "0", **WAYS}.items():
            self.compile("-w", "-o", self.path("asks"), self.put("asks.c", (ASKS % call).encode()))
            self.runner.words = [self.path("asks")]
            self.runner.call([])
            _, counts = self.runner.found.pop()
            self.assertEqual(counts.end - counts.made, int(name != "none"), name)


class NoMorePages(Case):
    """A file that is a pipe holds the program at its opening until somebody opens the other end."""

    def setUp(self):
        super().setUp()
        self.program = row_tool.Runner(V6, self.folder).words

    def held(self, command, name, data=None):
        """The status of a command in this folder, what it says, and what came through the pipe of a name, or how much went into
        it. From the moment on at which the program stands at the opening of the pipe the system gives it no page of data."""
        os.mkfifo(self.path(name))
        with subprocess.Popen(command, cwd=self.folder, stdout=subprocess.PIPE, stderr=subprocess.STDOUT) as process:
            try:
                while read(f"/proc/{process.pid}/stat").rpartition(b")")[2].split()[0] != b"S":  # asleep, as nowhere before
                    self.assertIsNone(process.poll())
                    time.sleep(0.001)
                resource.prlimit(process.pid, resource.RLIMIT_DATA, (0, 0))
                with open(self.path(name), "rb" if data is None else "wb") as file:
                    came = file.read() if data is None else file.write(data)
                return process.wait(60), process.stdout.read(), came
            finally:
                with contextlib.suppress(ProcessLookupError):
                    process.kill()
                os.remove(self.path(name))

    def test_runs(self):
        """They come to what they come to with all pages, and a run of the shell too."""
        for command, files, first in (
                ("run", HI, "term"), ("run", SHELL, "term"), ("run8", SHELL, "term"), ("run2", HI, "term"),
                ("memory", SHELL, "final")):
            words = [*self.program, *words_of(command, *files)]
            subprocess.run(words, cwd=self.folder, check=True)
            ample = {name: read(self.path(name)) for name in os.listdir(self.folder)}
            os.remove(self.path(first))
            self.assertEqual(self.held(words, first), (0, b"", ample.pop(first)), command)
            for name, data in ample.items():
                self.assertEqual(read(self.path(name)), data, (command, name))
                os.remove(self.path(name))

    def test_an_audit(self):
        self.assertEqual(self.held([*self.program, "audit", "log"], "log", LOG), (*LAWFUL, len(LOG)))

    def test_a_program_that_asks(self):
        """It is done with all pages; held so, it finds none."""
        command = [sys.executable, "-S", "-c", GREEDY]
        subprocess.run([*command, self.path("it")], check=True)
        os.remove(self.path("it"))
        status, said, came = self.held([*command, self.path("term")], "term")
        self.assertEqual((status, said.splitlines()[-1:], came), (1, [b"MemoryError"], b""))
