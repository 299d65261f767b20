"""The example crowd: its page tells what its run prints, line by line."""
import os
import re
import subprocess

from tests.common import TOP, V6, Case, read

EXAMPLE = os.path.join(TOP, "examples", "crowd")
ROW = re.compile(r"^\| (`[^|]*`) \|", re.M)


class Crowd(Case):
    def printed(self):
        done = subprocess.run([os.path.join(EXAMPLE, "run.sh")], env={**os.environ, "V6": V6}, capture_output=True, text=True)
        self.assertEqual((done.returncode, done.stderr), (0, ""))
        return done.stdout.splitlines()

    def told(self):
        page = read(os.path.join(EXAMPLE, "README.md")).decode()
        return [line for row in ROW.findall(page) for line in re.findall("`([^`]*)`", row)]

    def test_page(self):
        """The lines of the table, one after another, are those that are printed."""
        self.assertEqual(self.printed(), self.told())
