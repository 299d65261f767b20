"""The example of time-sharing: its disk, its evening at three terminals, and more that init, getty, login, who and write do.
What the evening must show stands beside it, made by another program from the definitions; what else must come is by hand."""
import os
import subprocess

from tests.common import TOOLS, TOP, V6, Case, read, tool, v6

disk_main = tool("disk").main
EXAMPLE = os.path.join(TOP, "examples", "timesharing")
IMAGE = os.path.join(EXAMPLE, "image")
TERMS = "term", "term.1", "term.2"
START, ANSWER = b"run 20000\n", b"run 60000\n"


def typed(line, *texts):
    """The lines of a script that type lines on a line."""
    return b"".join(b"line %d\ntype %s\n%s" % (line, text.encode(), ANSWER) for text in texts)


def pressed(keys):
    """The lines of a script that type these keys."""
    return b"".join(b"byte %03o\n" % key for key in keys) + ANSWER


def shown(text):
    """What a terminal gets for these lines, where a return stands for a new line."""
    return text.replace("\n", "\r\n").encode()


def printed(text):
    """What run.sh prints, as a page has it: new lines alone, and nothing blank before them."""
    return "\n".join(line.rstrip() for line in text.decode().replace("\r\n", "\n").split("\n"))


class Timesharing(Case):
    def play(self, script, word="run8", image=IMAGE, before=START):
        """What the terminals show, by the numbers of their lines; the disk that is left is in the file final."""
        term, log, final = (self.path(name) for name in ("term", "log", "final"))
        self.assertEqual(v6(word, image, "3968", self.put("script", before + script), term, log, final), (0, ""))
        return [read(term), *(read(f"{term}.{line}") for line in range(1, 8) if word == "run8")]

    def test_evening(self):
        """Each terminal shows what stands beside the script, and the other lines nothing."""
        term, log, final = (self.path(name) for name in ("term", "log", "final"))
        self.assertEqual(v6("run8", IMAGE, "3968", os.path.join(EXAMPLE, "script"), term, log, final), (0, ""))
        self.assertEqual([read(self.path(name)) for name in TERMS], [read(os.path.join(EXAMPLE, name)) for name in TERMS])
        self.assertEqual([read(f"{term}.{line}") for line in range(3, 8)], [b""] * 5)
        self.assertEqual(v6("audit", log)[0], 0)
        self.assertEqual(v6("check", final)[0], 0)

    def test_readme(self):
        """run.sh prints what the page has."""
        done = subprocess.run([os.path.join(EXAMPLE, "run.sh")], env={**os.environ, "V6": V6}, capture_output=True)
        self.assertEqual((done.returncode, done.stderr), (0, b""))
        page = read(os.path.join(EXAMPLE, "README.md")).decode()
        self.assertEqual(printed(done.stdout), page.split("```\n")[1])

    def test_readme_tells_what_is_typed(self):
        """Each line that the script types stands in the page's table, in its order for each line."""
        rows = read(os.path.join(EXAMPLE, "README.md")).decode().partition("## What happens")[2].partition("\n\nThe same")[0]
        script = read(os.path.join(EXAMPLE, "script")).decode().splitlines()
        lines = [line[5:] for line in script if line.startswith("type ")]
        self.assertGreater(len(lines), 20)
        for line in set(lines) - {"CHESS", "nb", "a game on thursday?"}:
            self.assertIn(f"`{line}`", rows)

    def test_picture(self):
        """The page's commands draw the evening: a lane for each entry that is ever taken, and an axis of all slots of the script."""
        commands = read(os.path.join(EXAMPLE, "README.md")).decode().split("```\n")[3]
        for name, place in (("bin/v6", V6), ("examples/timesharing", EXAMPLE), ("tools/log.py", os.path.join(TOOLS, "log.py"))):
            self.assertIn(name, commands)
            commands = commands.replace(name, place)
        done = subprocess.run(["sh", "-ec", commands], cwd=self.folder, capture_output=True)
        self.assertEqual((done.returncode, done.stdout, done.stderr), (0, b"", b""))
        drawn = read(self.path("evening.svg")).decode()
        self.assertEqual([f">entry {slot}: " in drawn for slot in (0, 7, 8)], [True, True, False])
        self.assertIn(">432000</text>", drawn)

    def test_build(self):
        image = self.path("image")
        done = subprocess.run([os.path.join(EXAMPLE, "build.sh"), image], capture_output=True,
                              env={**os.environ, "V6": V6})
        self.assertEqual((done.returncode, done.stderr), (0, b""))
        self.assertEqual(read(image), read(IMAGE))

    def test_one_line(self):
        """Under run the other lines aren't there: init leaves them, and keeps on with the console."""
        found = self.play(typed(0, "guest", "who", "exit", "GUEST", "exit"), "run")
        self.assertEqual(found[0], shown(
            "\nlogin: guest\nThe chess club meets on Thursday.\n% who\nguest   tty8 19:28\n% exit\n"
            "\nlogin: GUEST\nTHE CHESS CLUB MEETS ON THURSDAY.\n% EXIT\n\nlogin: "))

    def test_single_user(self):
        """With the switches 173030 there is a shell on the console first, with nobody at the other lines until it ends."""
        switches = b"switch 173030\n" + START
        found = self.play(typed(0, "who", "cat /etc/motd"), before=switches)
        self.assertEqual(found[:2], [shown("# WHO\n# CAT /ETC/MOTD\nTHE CHESS CLUB MEETS ON THURSDAY.\n# "), b""])
        found = self.play(typed(0, "exit"), before=switches)
        self.assertEqual(found[:2], [shown("# EXIT\n\nlogin: "), b"\r\nlogin: "])

    def test_names(self):
        """Keys that erase and kill, an empty name, a name that nobody has, the end of a file, and a new line for a return."""
        keys = b"@", b"\r", b"x@", b"gust#\r", b"#est\r", b"\4"
        found = self.play(b"line 1\n" + b"".join(pressed(some) for some in keys))
        self.assertEqual(found[1], b"\r\nlogin: @\r\n\r\n\r\nlogin: x@\r\ngust#\r\nLogin incorrect.\r\nName: #est\r\n"
                                   b"Login incorrect.\r\nName: \r\nlogin: ")
        found = self.play(b"line 1\n" + pressed(b"guest\n"))
        self.assertEqual(found[1], b"\r\nlogin: guest\n\rThe chess club meets on Thursday.\n% ")

    def test_passwords(self):
        """The right one, one that is longer, and none for a user who has one; an interrupt brings getty back."""
        found = self.play(typed(1, "ken", "chess", "exit", "ken", "chesss", "ken", ""))
        self.assertEqual(found[1], shown(
            "\nlogin: ken\nPassword: \nThe chess club meets on Thursday.\n% exit\n\nlogin: ken\nPassword: \nLogin incorrect.\n"
            "Name: ken\nPassword: \nLogin incorrect.\nName: "))
        found = self.play(typed(2, "root") + b"byte 177\n" + ANSWER + typed(2, "guest"))
        self.assertEqual(found[2], shown("\nlogin: root\nPassword: \nlogin: guest\nThe chess club meets on Thursday.\n% "))

    def test_logged_in(self):
        """Who is, whose terminal it is, and what becomes of both when a shell ends or a line hangs up."""
        script = typed(0, "root", "pdp-11") + typed(1, "guest") + typed(2, "ken", "chess")
        gone = typed(1, "exit") + b"hangup 2\n" + ANSWER
        found = self.play(script + typed(0, "who") + gone + typed(0, "who"))
        self.assertEqual(found[0].split(b"# ", 1)[1], shown(
            "who\nguest   tty1 19:28\nken     tty2 19:28\nroot    tty8 19:28\n# who\nroot    tty8 19:28\n# "))
        self.assertEqual([found[line].count(b"login: ") for line in (0, 1, 2)], [1, 2, 2])
        for more, owners in (b"", "53"), (gone, "00"):
            self.play(script + more)
            status, listed, _ = self.call(disk_main, "--v6", V6, "list", self.path("final"), "/dev")
            self.assertEqual(status, 0)
            at = {line.split()[-1]: line.split()[3] for line in listed.splitlines()}
            self.assertEqual(at["/dev/tty1"] + at["/dev/tty2"], owners)

    def test_write(self):
        """To somebody who isn't there, without a name, and to somebody at two lines: the first has it."""
        here = typed(0, "root", "pdp-11") + typed(1, "guest") + typed(2, "guest")
        written = typed(0, "write ken", "write", "echo come ^ write guest", "write guest", "now") + pressed(b"\4")
        found = self.play(here + written)
        self.assertEqual(found[0].split(b"# ", 1)[1], shown(
            "write ken\nken not logged in.\n# write\nusage: write user\n# echo come ^ write guest\nwrite: no terminal\n"
            "# write guest\nnow\n# "))
        self.assertEqual(found[1].split(b"% ", 1)[1], shown("\nMessage from root tty8...\nnow\nEOT\n"))
        self.assertEqual(found[2].split(b"% ", 1)[1], b"")

    def test_ttys(self):
        """Lines of the file that let nobody in, that are too short or too long, or name no line; the last may lack its end."""
        image, ttys = self.put("image", read(IMAGE)), self.put("ttys", b"180\n010\n1\n\n120x\n1a0\n130\n140\n150")
        self.assertEqual(self.call(disk_main, "--v6", V6, "put", image, ttys, "/etc/ttys"), (0, "", ""))
        found = self.play(ANSWER, image=image)
        self.assertEqual([line for line, text in enumerate(found) if text == b"\r\nlogin: "], [0, 3, 4])
        self.assertEqual([text for text in found if text not in (b"", b"\r\nlogin: ")], [])
