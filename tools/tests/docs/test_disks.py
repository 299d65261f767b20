"""examples/disks: run.sh prints what the page shows."""
import os
import subprocess

from tests.common import TOP, V6, Case, read

EXAMPLE = os.path.join(TOP, "examples", "disks")


class Disks(Case):
    def test_page(self):
        shown = read(os.path.join(EXAMPLE, "README.md")).decode().split("```\n")[1]
        done = subprocess.run([os.path.join(EXAMPLE, "run.sh")], env={**os.environ, "V6": V6}, capture_output=True, text=True)
        self.assertEqual((done.returncode, done.stdout, done.stderr), (0, shown, ""))
