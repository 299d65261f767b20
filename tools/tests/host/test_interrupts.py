"""An interrupt that comes before a tool has begun."""
import signal
import subprocess
import sys
import unittest

from tests.common import TOOLS

AT_IMPORT = """
import builtins, os, runpy, signal, sys
plain = builtins.__import__
def imported(name, *words):
    if name.startswith("v6.host"):
        os.kill(os.getpid(), signal.SIGINT)
    return plain(name, *words)
for name in sys.argv[2:]:
    child = os.fork()
    if not child:
        builtins.__import__ = imported
        sys.path.insert(0, sys.argv[1])
        sys.argv[:] = [f"{sys.argv[1]}/{name}.py", "--help"]
        sys.exit(runpy.run_path(sys.argv[0], run_name="__main__"))
    print(name, os.waitstatus_to_exitcode(os.waitpid(child, 0)[1]), flush=True)
"""


class Interrupts(unittest.TestCase):
    def test_while_python_imports(self):
        """Each tool ends by it, without a traceback."""
        names = ("as", "cc", "console", "disk", "log", "look", "page", "row", "run", "trace", "try")
        done = subprocess.run([sys.executable, "-S", "-c", AT_IMPORT, TOOLS, *names], stdin=subprocess.DEVNULL, capture_output=True, text=True)
        self.assertEqual((done.stdout.splitlines(), done.stderr), ([f"{name} {-signal.SIGINT}" for name in names], ""))
