"""What ends where something would be waited for without an end: tests, and processes that work ahead. Each test here has a limit itself."""
import contextlib
import os
import signal
import subprocess
import sys
import time
import unittest
import unittest.mock

from tests.common import TESTS, BeginsProcesses, Case, begun, write

from v6.host import parallel
from v6.host.parallel import in_order
from v6.run.moments import MomentError

LIMIT = 60  # seconds: what a busy machine never takes for one of these
# A test that waits for ever, and has started a program that holds what it prints to; and one after which a thread waits for ever.
WAITS = """
import os, subprocess, sys, threading, unittest
class Waits(unittest.TestCase):
    def test_it(self):
        subprocess.Popen(["sleep", "1000"])
        %s
"""
ENDS = """
import importlib.util, sys
about = importlib.util.spec_from_file_location("all_tests", sys.argv[1] + "/run.py")
run = sys.modules["all_tests"] = importlib.util.module_from_spec(about)
about.loader.exec_module(run)
run.HERE = run.TOOLS = sys.argv[2]
run.LONGEST, run.PATIENCE = int(sys.argv[3]), 1
sys.exit(run.main(run.options_of(["--jobs", "1"])))
"""


@contextlib.contextmanager
def limited():
    """Ends with an error what takes too long."""
    def late(*_):
        raise TimeoutError

    before = signal.signal(signal.SIGALRM, late)
    signal.alarm(LIMIT)
    try:
        yield
    finally:
        signal.alarm(0)
        signal.signal(signal.SIGALRM, before)


class Limits(Case):
    def all(self, body, longest):
        """The status of run.py for a folder with one test, and what it says; who reads that waits until nobody holds it any more."""
        write(self.path("test_it.py"), (WAITS % body).encode())
        done = subprocess.run([sys.executable, "-c", ENDS, TESTS, self.folder, str(longest)], capture_output=True, text=True, timeout=LIMIT)
        return done.returncode, done.stderr

    def test_a_test_that_waits(self):
        status, said = self.all("threading.Event().wait()", 1)
        self.assertEqual(status, 1)
        self.assertIn("in test_it\n", said)
        self.assertTrue(said.endswith("a process of tests has ended, or its class took too long\n"))

    def test_a_test_that_waits_for_a_process(self):
        """Which it has begun itself, as processes that work ahead are: it has all that its parent has open."""
        status, said = self.all("os.fork() and os.wait() or threading.Event().wait()", 1)
        self.assertEqual((status, said.splitlines()[-1]), (1, "a process of tests has ended, or its class took too long"))

    def test_an_end_from_outside(self):
        """As by timeout(1): nothing is left that holds what it printed to."""
        write(self.path("test_it.py"), (WAITS % "print('begun', flush=True); threading.Event().wait()").encode())
        command = [sys.executable, "-c", ENDS, TESTS, self.folder, str(LIMIT)]
        with subprocess.Popen(command, stdout=subprocess.PIPE, stderr=subprocess.STDOUT) as running:
            self.assertEqual(running.stdout.readline(), b"begun\n")
            running.terminate()
            self.assertEqual((running.communicate(timeout=LIMIT)[0], running.returncode), (b"", 128 + signal.SIGTERM))

    def test_what_is_said_beside_the_tests(self):
        """By a tool that is called, or by a program: it stands with a failure, and nowhere else."""
        body = "print('from', 'here', file=sys.stderr); os.system('echo from there >&2'); self.assertTrue({})"
        for passes in (True, False):
            status, said = self.all(body.format(passes), LIMIT)
            self.assertEqual((status, *(said.count(text) for text in ("from here\n", "from there\n"))), (int(not passes), *[int(not passes)] * 2))

    def test_a_handler_that_is_left(self):
        status, said = self.all("import signal; signal.signal(signal.SIGTERM, lambda *_: None)", LIMIT)
        self.assertEqual((status, said.splitlines()[0]), (1, "test_it.Waits leaves a handler of a signal"))

    def test_what_is_left(self):
        """A process of tests that doesn't end since a thread waits in it, and a program that it has started."""
        status, said = self.all("threading.Thread(target=threading.Event().wait).start()", LIMIT)
        self.assertEqual((status, said.rpartition(":")[2]), (0, " 1 passed, 0 failed\n"))


class Ahead(BeginsProcesses):
    """Processes that work ahead: parallel.py."""

    def test_one_that_is_left(self):
        """It is seen, also where it has ended; one that was there before isn't meant."""
        with subprocess.Popen(["sleep", "100"]) as running:
            for ends in (lambda: None, running.kill):
                ends()
                with self.assertRaises(AssertionError):
                    self.none_left()
            self.there = begun()
            self.none_left()

    def test_one_that_does_not_end(self):
        """It is ended in the end."""
        def does(number):
            if number:
                time.sleep(1000)
            return number

        with limited(), unittest.mock.patch.object(parallel, "PATIENCE", 0.1):
            with contextlib.closing(in_order(does, 2, 2, lambda number: lambda: None, MomentError)) as found:
                self.assertEqual(next(found), 0)
        self.none_left()

    def test_an_interrupt_at_its_end(self):
        """It goes no further, whatever comes then; and one that interrupts it, as a key does, ends it without the handlers of the tool."""
        own, leaves = os.getpid(), os._exit

        def late(status):
            os.kill(os.getpid(), signal.SIGTERM)
            os.kill(os.getpid(), signal.SIGINT)
            leaves(status)

        def interrupted(*_):
            raise KeyboardInterrupt

        def stop():
            raise SystemExit

        before = signal.signal(signal.SIGINT, interrupted)
        try:
            with limited(), unittest.mock.patch.object(os, "_exit", late):
                self.assertEqual(list(in_order(lambda number: number, 3, 2, lambda number: stop, MomentError)), [0, 1, 2])
                is_plain = in_order(lambda number: not signal.getsignal(signal.SIGINT), 2, 2, lambda number: stop, MomentError)
                self.assertEqual(list(is_plain), [True, True])
        finally:
            if os.getpid() != own:
                write(self.path("further"), b"")
                leaves(0)
            signal.signal(signal.SIGINT, before)
        self.assertFalse(os.path.exists(self.path("further")))
        self.none_left()

    def test_answers_that_are_cut(self):
        """Of a process that was ended while it gave one."""
        for data in (b"", b"\5\0", b"\5\0\0\0", b"\5\0\0\0abcd"):
            source, to = os.pipe()
            os.write(to, data)
            os.close(to)
            self.assertIsNone(parallel.read(source))
            os.close(source)

    def test_a_pipe_with_little_room(self):
        """The numbers of the work fit into a page of the host; the work after them is done here."""
        self.assertLessEqual(parallel.MOST * parallel.NUMBER.size, 4096)
        with limited(), unittest.mock.patch.object(parallel, "MOST", 3):
            self.assertEqual(list(in_order(lambda number: number * number, 6, 2, lambda number: lambda: None, MomentError)), [0, 1, 4, 9, 16, 25])
        self.none_left()
