"""The commands of the page on the demo are played, and print what it shows."""
import os

from tests.common import TOP, read
from tests.pages import Runs

from v6.page.lesson import commands


class Demo(Runs):
    def test_page(self):
        found = commands(read(os.path.join(TOP, "docs", "manual", "demo.md")).decode())
        self.assertEqual(len(found), 5)
        for command, shown in found:
            self.assertEqual(self.play(command), (0, shown), command)
