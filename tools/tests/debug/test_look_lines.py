"""look.py on runs with eight lines and of two disks: the examples of time-sharing and of a found pack, whose terminals and logs a second
program has computed too."""
import os

from tests.common import TOP, V6, Case, read, tool
from tests.pages import Runs

from v6.run.moments import NO_MEMORY

look_main = tool("look").main
EVENING, PACK = (os.path.join(TOP, "examples", name) for name in ("timesharing", "pack"))


class Lines(Case):
    def looked(self, example, option, *commands, core="3968", script=None):
        """What commands show at an example, the words that name its kind between."""
        words = [os.path.join(example, "image"), core, script or os.path.join(example, "script"), *option]
        return self.call(look_main, "--v6", V6, *words, *(word for one in commands for word in ("-c", one)))

    def eight(self, *commands):
        return self.looked(EVENING, ["--eight"], *commands)

    def two(self, *commands):
        return self.looked(PACK, ["--second", os.path.join(PACK, "pack")], *commands)

    def rows(self, *path):
        return read(os.path.join(*path)).decode().replace("\r\n", "\n").split("\n")

    def test_terminals(self):
        """At the end each line has shown what its file has; at the hangup line 2 had shown less, and the others too."""
        left_out = f"look.py: {NO_MEMORY}: what it would tell is left out\n"
        for line, name in enumerate(("term", "term.1", "term.2")):
            wanted = self.rows(EVENING, name)
            self.assertEqual(self.eight("slot 432000", f"term {line} 3")[1].split("\n")[-4:], [*wanted[-3:], ""])
            status, shown, said = self.eight(f"term {line} 999", "next signal", f"term {line} 999")
            before, after = shown.split("slot 402000 of 432000")
            self.assertEqual((status, said, before), (0, left_out, "\n"))
            found = after.split("\n", 7)[7].removesuffix("\n").split("\n")
            self.assertTrue("\n".join(wanted).startswith("\n".join(found)), found)
            self.assertEqual(found == wanted, line == 0)
        self.assertEqual(self.eight("slot 432000", "term 3")[1].split("\n")[-2:], ["", ""])

    def test_processes(self):
        """Programs by their size, of which several may be as large, and who has ended."""
        status, shown, _ = self.eight("next signal", "ps", "process 3", "process 17", "core")
        self.assertEqual(status, 0)
        self.assertIn("process 4 (/bin/sh) runs\n", shown)
        self.assertIn("\nr     5    17     4   -  90 at 351        2   38    - -         (/bin/echo or /bin/sleep)\n", shown)
        self.assertIn("\nprocess 3 in entry 3, a child of process 1\nstate      w: waits for keys of line 1, at priority 10\n"
                      "image      89 clicks, in core from click 262 on\nprogram    (/bin/sh)\n", shown)
        self.assertIn("\n  351 to   388    38  process 17\n", shown)
        shown = self.eight("next exit", "ps")[1]
        self.assertIn("\ns     5     5     2   - -50 at 351        1   41    - disk.5    (/bin/who)\n", shown)
        self.assertIn("\nz     7     7     4   -   - swap 4000     0   47    - -\n", shown)

    def test_a_second_disk(self):
        """A program of the pack is named, and the machine has one line."""
        self.assertEqual(self.two("slot 9999", "term")[1].split("\n")[1:], ["# ", ""])
        shown = self.two("until state R of 9", "next image of 9", "ps")[1]
        self.assertRegex(shown, r"\nR     2     9 .* or /bin/factor of the second disk\)\n")
        self.assertEqual(self.two("slot 280000", "term 0 2")[1].split("\n")[-3:], ["mount: Block device required", "# ", ""])

    def test_what_core_would_tell(self):
        """It isn't known, and a line says so; the moment stays."""
        for command in ("code", "words 0", "until call read", "since call", "until pc 0", "until word 0", "break 0", "watch 0", "until break"):
            for looked in (self.eight, self.two):
                status, shown, said = looked(command)
                self.assertEqual((status, shown, said.splitlines()[1:]), (1, "", [f"look.py: {NO_MEMORY}"]), command)

    def test_what_is_refused(self):
        pack = os.path.join(PACK, "pack")
        status, _, said = self.looked(PACK, ["--eight", "--second", pack], "ps")
        self.assertEqual((status, said.splitlines()[-1]),
                         (2, "look.py: error: --eight and --second: a machine has eight lines, or a second disk"))
        self.assertEqual(self.looked(PACK, [], "ps")[::2],
                         (1, f"look.py: {os.path.join(PACK, 'script')} was typed beside a second disk: --second IMAGE2 plays it so\n"))
        none = self.path("none")
        self.assertEqual(self.looked(PACK, ["--second", none], "ps", script=self.put("script", b"run 5\n"))[::2],
                         (1, f"look.py: {none}: No such file or directory\n"))
        bad = self.put("bad", bytes(2000))
        self.assertEqual(self.looked(PACK, ["--second", bad, "--replay"], "ps")[::2], (1, f"look.py: {bad}: bad super-block\n"))
        for looked, command, why in ((self.two, "term 1", "line 1: the machine has one line, 0"), (self.eight, "term 8", "8: a line is 7 at most"),
                                     (self.eight, "term 0 x", "x: no number, where that of rows is wanted")):
            self.assertEqual(looked(command)[2].splitlines()[-1], f"look.py: {why}")


class Page(Runs):
    def test_page(self):
        """The commands after a $ on the page of look.py print what it shows."""
        self.played("tools", "look.md")
