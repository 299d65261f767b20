"""What the tests of the tools share. The program v6 is bin/v6, or the command in the environment's V6."""
import contextlib
import functools
import importlib.util
import io
import os
import random
import signal
import sys
import tempfile
import unittest
import unittest.mock

TESTS = os.path.dirname(os.path.abspath(__file__))
TOOLS = os.path.dirname(TESTS)
TOP = os.path.dirname(TOOLS)
DISK_BYTES = 2494464  # of a disk that a run leaves
HANDLED = signal.SIGINT, signal.SIGQUIT, signal.SIGTERM, signal.SIGHUP  # signals for which tools have a handler
sys.path[:0] = [TOOLS, TOP]  # judge/ and speed/ stand in TOP
os.environ.update(PATH=f"{TESTS}/bin:{os.environ['PATH']}", V6_PYTHON=sys.executable)  # of the tools that are called
from v6.host.files import IN_MEMORY, ROOM
from v6.host.program import V6, parted, run


def in_memory():
    """Whether the files of tests may stand in memory: the host has room there, programs can be executed there, and nobody wants another
    place."""
    if "TMPDIR" in os.environ or not os.access(IN_MEMORY, os.W_OK | os.X_OK):
        return False
    found = os.statvfs(IN_MEMORY)
    return found.f_bavail * found.f_frsize >= ROOM and not found.f_flag & os.ST_NOEXEC


if in_memory():
    os.environ["TMPDIR"] = IN_MEMORY


def tool(name):
    """A tool's module; `as` isn't a name that can be imported."""
    spec = importlib.util.spec_from_file_location("tool_" + name, os.path.join(TOOLS, name + ".py"))
    module = importlib.util.module_from_spec(spec)
    spec.loader.exec_module(module)
    return module


def read(name):
    with open(name, "rb") as file:
        return file.read()


def write(name, data):
    with open(name, "wb") as file:
        file.write(data)


def v6(*words):
    """The status of the program, and what it says."""
    status, said = run([*parted(V6), *words])
    return status, said.decode()


@functools.lru_cache(maxsize=None)
def generated(number):
    """The bytes of a disk of the generator, which is made once for all tests."""
    with tempfile.TemporaryDirectory() as folder:
        name = os.path.join(folder, "made")
        assert v6("make", str(number), name) == (0, "")
        return read(name)


def words(text):
    """The bytes of octal words."""
    return b"".join(int(word, 8).to_bytes(2, "little") for word in text.split())


@functools.lru_cache(maxsize=None)
def with_init(source, name, *options):
    """The bytes of the generator's first disk with a program in the place of its /etc/init, which is made once for all tests. `name` is the
    file of the source, where the program tells it."""
    with tempfile.TemporaryDirectory() as folder:
        image, program, it = (os.path.join(folder, one) for one in ("image", "program", "it.s"))
        write(image, generated(0))
        write(it, source)
        assert not status_of(tool("as").main, [*options, "-o", program, name or it])
        assert not status_of(tool("disk").main, ["--v6", V6, "put", image, program, "/etc/init"])
        return read(image)


def status_of(main, words):
    """The status of a tool that is called here; what it does at signals is no more then."""
    handlers = {number: signal.getsignal(number) for number in HANDLED}
    try:
        return main(list(words))
    except SystemExit as ended:
        return ended.code
    finally:
        for number, handler in handlers.items():
            signal.signal(number, handler)


class Case(unittest.TestCase):
    """A test with a folder of its own, in which a tool is called by its words."""

    def setUp(self):
        self.random = random.Random(self.id()[self.id().index("test_"):])  # whatever folder its file is in
        folder = tempfile.TemporaryDirectory()
        self.addCleanup(folder.cleanup)
        self.folder = folder.name

    def path(self, name):
        return os.path.join(self.folder, name)

    def put(self, name, data):
        write(self.path(name), data)
        return self.path(name)

    def disk_of(self, source, *options, name="image"):
        """A disk whose /etc/init is the program of a source."""
        return self.put(name, with_init(read(source), source if "-g" in options else None, *options))

    def ran(self, main, *words, typed=None):
        """The status of a tool, the bytes of its standard output, and what it says on the other one. It is called here, which is
        cheaper than a process of its own; it reads what is typed, where there is anything."""
        out, error = (io.TextIOWrapper(io.BytesIO(), encoding="utf-8", errors="backslashreplace", newline="\n") for _ in range(2))
        with contextlib.redirect_stdout(out), contextlib.redirect_stderr(error), contextlib.ExitStack() as streams:
            if typed is not None:
                streams.enter_context(unittest.mock.patch("sys.stdin", io.TextIOWrapper(io.BytesIO(typed))))
            status = status_of(main, words)
        out.flush()
        error.flush()
        return status, out.buffer.getvalue(), error.buffer.getvalue().decode()

    def call(self, main, *words):
        """The status of a tool, and what it says on its two outputs."""
        status, out, error = self.ran(main, *words)
        return status, out.decode(), error


def begun():
    """The processes that this one has begun, those too that have ended and weren't waited for."""
    found = set()
    for name in filter(str.isdecimal, os.listdir("/proc")):
        with contextlib.suppress(OSError):
            parent = read(f"/proc/{name}/stat").rpartition(b")")[2].split()[1]
            if int(parent) == os.getpid():
                found.add(int(name))
    return found


class BeginsProcesses(Case):
    """A test that begins processes. Others were there before, as a browser that tests of pages share."""

    def setUp(self):
        super().setUp()
        self.there = begun()

    def none_left(self):
        self.assertEqual(begun() - self.there, set())
