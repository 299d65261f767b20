"""docs/tutorial.md: its commands, as they stand there."""
import os

from tests.common import TOP, read
from v6.page.lesson import commands
from tests.pages import Runs, broken_links


class Tutorial(Runs):
    def test_each_command(self):
        """Three lines are typed at, one is hung up, a log is audited, a pack is mounted, and files come home. What is printed is that of
        the page, which has no blanks at the ends of its lines."""
        found = commands(read(os.path.join(TOP, "docs", "tutorial.md")).decode())
        typed = " ".join(command for command, _ in found)
        for word in ("--lines", "~1", "~2", "~h 0", "v6 audit", "disk.py get after.image", "/etc/mount", "disk.py get my.pack", "log.py ask"):
            self.assertIn(word, typed)
        for command, shown in found:
            status, said = self.play(command)
            self.assertEqual((status, "\n".join(line.rstrip() for line in said.split("\n"))), (0, shown), command)

    def test_links(self):
        self.assertEqual(broken_links("tutorial.md"), [])
