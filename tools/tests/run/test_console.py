"""The console: what it makes of what is typed, of the log, and of a run that goes on or isn't taken."""
import errno
import hashlib
import importlib.util
import io
import os
import pty
import re
import select
import shutil
import signal
import struct
import subprocess
import sys
import termios
import time
import unittest
import unittest.mock

from tests.common import DISK_BYTES, TOOLS, TOP, V6, Case, generated, read, tool, v6, write
from tests.run.persons import Person, as_person

from v6.disk.volume import CHARACTER, Volume
from v6.run import dialogue
from v6.run.ends import Processes, programs_of
from v6.run.screen import echo, without_echo

console = tool("console")
as_main, disk_main = tool("as").main, tool("disk").main
SHELL = os.path.join(TOP, "examples", "shell")
TYPED = """\
ls
ls -l /bin
chdir /usr/sys/ken
cat slp.c
cta slp.c
mkdir /tmp
cp slp.c /tmp
ln /tmp/slp.c /tmp/again
ls -l /tmp
rm slp.c
ls
eck#ho hello, world >/tmp/greeting
cat /tmp/greeting
ls /bin ^ wc
echo again >>/tmp/greeting; cat </tmp/greeting ^ wc
cat
~^?
cat
~^\\
ls -l core
sleep 60 &
kill 22
rm core ^ ^ wc
chdir /nowhere
exit
"""
LONG = 300  # seconds: what a busy machine never takes for one of these
OVER = "\nconsole: nobody waits for a key any more: the run is over\n"
OTHER = """
import os, subprocess, sys
words, wanted = sys.argv[1:], b"byte 177" in open(sys.argv[-4], "rb").read()
if not wanted:
    sys.exit(subprocess.run(words).returncode)
with open(words[-3], "wb") as term:
    term.write(b"# ECHO A\\r\\nA\\r\\n# OOPS")
print("panic: out of swap space")
sys.exit(7)
"""
READER = """
	sys	open; tty; 2
{}loop:	clr	r0
	sys	read; line; 100.
	mov	r0,0f
	clr	r0
	sys	write; line; 0:0
	br	loop
spin:	mov	$20.,r0
	sys	nice
	br	.
tty:	</dev/tty8\\0>
	.even
	.bss
line:	.=.+100.
"""
COUNT = """	cmpb	line,$'c
	bne	2f
	mov	$30000.,r1
1:	sob	r1,1b
2:
"""
FORK = "fork 1 2 at 60\n"
LOGS = (
    ("", "runs"),
    ("sleep 1 10 keys\nidle\n", "waits"),
    ("sleep 1 10 keys\nidle\ntick i\ntick i\n", "waits"),
    ("sleep 1 10 keys\nidle\nwake keys\ngo 1\n", "runs"),
    ("exit 1 swap 4000\nidle\n", "over"),
    ("sleep 1 -50 disk.1\nidle\n", "runs"),  # slots go on, and end the wait
    ("sleep 1 20 show\nidle\n", "runs"),
    ("sleep 1 20 show\nidle\nwake show\ngo 1\nsleep 1 10 keys\nidle\n", "waits"),
    ("sleep 1 10 keys\nidle\nwake keys\ngo 1\nsleep 1 -50 disk.1\nidle\n", "runs"),
    ("sleep 1 10 keys\nwake keys\nidle\n", "over"),
    ("sleep 1 10 keys\nsignal 1 2\nidle\n", "over"),
    (FORK + "sleep 2 90 tout\nsleep 1 40 wait.1\nidle\n", "sleeps"),
    (FORK + "tick u\nsleep 2 90 tout\nsleep 1 40 wait.1\nidle\ntick i\n", "sleeps"),
    (FORK + "tick u\nsleep 2 90 tout\nsleep 1 10 keys\nidle\ntick i\n", "waits"),
    (FORK + "sleep 1 10 keys\ngo 2\n", "waits"),  # a child runs, and the reader reads again
    (FORK + "sleep 1 10 keys\ngo 2\nwake keys\ngo 1\n", "runs"),
    (FORK + "sleep 1 10 keys\ngo 2\nwake keys\ngo 1\nsleep 1 10 keys\ngo 2\n", "waits"),
    # two read, and one has the line: whether he is done can't be seen from the other
    (FORK + "sleep 1 10 keys\ngo 2\nsleep 2 10 keys\nidle\nwake keys\ngo 1\nsleep 1 10 keys\ngo 2\n", "busy"),
    (FORK + "sleep 1 10 keys\ngo 2\nsleep 2 10 keys\nidle\nwake keys\ngo 1\nsleep 1 10 keys\ngo 2\nexit 2 swap 4000\n",
     "waits"),
    # whoever had the line waits for the disk
    (FORK + "sleep 1 10 keys\ngo 2\nsleep 2 10 keys\nidle\nwake keys\ngo 1\nsleep 1 10 keys\ngo 2\nsleep 2 -50 disk.2\nidle\n",
     "busy"),
)
BOOT = "boot 1200 0\nsleep 0 -100 runout\ngo 1\n"


COUNTS = 'printf "run " >>"$1"\nshift\nexec "$@"\n'


class Parts(unittest.TestCase):
    def test_state(self):
        for log, wanted in LOGS:
            self.assertEqual(Processes((BOOT + log + "end\n").encode()).state(), wanted, log)

    def test_who_does_what(self):
        log = FORK + "go 2\nfork 2 3 at 99\nsleep 2 40 wait.2\ngo 3\nsleep 3 10 keys\ngo 1\n"
        self.assertEqual(Processes((BOOT + log).encode()).told(),
                         ["process 1 runs", "process 2, a child of 1, waits for a child",
                          "process 3, a child of 2, reads the terminal"])
        log += "exit 2 swap 4000\nreap 2\nfork 1 2 at 60\nsleep 1 90 tout\n"
        self.assertEqual(Processes((BOOT + log).encode()).told(),
                         ["process 1 sleeps for a time", "process 4, a child of 1, runs",
                          "process 3, a child of 1, reads the terminal"])

    def test_further_lines(self):
        """Who waits for the keys of any line waits for a key; who was woken on one line has to read again."""
        log = FORK + "go 2\nsleep 2 10 keys.1\ngo 1\nsleep 1 10 keys\nidle\n"
        self.assertEqual(Processes((BOOT + log).encode()).state(), "waits")
        self.assertEqual(Processes((BOOT + log).encode()).told(),
                         ["process 1 reads the terminal", "process 2, a child of 1, reads the terminal on line 1"])
        log += "wake keys.1\ngo 2\n"
        self.assertEqual(Processes((BOOT + log).encode()).state(), "busy")
        self.assertEqual(Processes((BOOT + log + "sleep 2 20 show.1\nidle\n").encode()).state(), "busy")
        self.assertEqual(Processes((BOOT + log + "sleep 2 10 keys.1\nidle\n").encode()).state(), "waits")
        self.assertEqual([dialogue.line_of(lines) for lines in ([], [b"line 3", b"type", b"run 1"], [b"line 3", b"line 0"])],
                         [0, 3, 0])

    def test_keys(self):
        self.assertEqual(dialogue.keys(b"ls -l\r"), [b"type ls -l"])
        self.assertEqual(dialogue.keys(b"\r"), [b"type"])
        self.assertEqual(dialogue.keys(b"a\tb\r"), [b"byte 141", b"byte 011", b"byte 142", b"byte 015"])
        self.assertEqual(dialogue.keys(b"x" * 290 + b"\r"), [b"type " + b"x" * 290])
        self.assertEqual(dialogue.keys(b"x" * 291 + b"\r"), [b"byte 170"] * 291 + [b"byte 015"])
        with self.assertRaisesRegex(dialogue.DialogueError, "only characters of ASCII can be typed"):
            dialogue.keys("é\r".encode())

    def read(self, keyboard):
        line = keyboard.read()
        return (line.lines, line.echo) if isinstance(line, console.Typed) else line

    def test_a_person(self):
        keyboard = console.Keyboard(Person(b"ls\nINTERRUPT\n~^D\n~^?\n~^\\\n~~a\n~:tick\n~u 3\n~l\n~x\n~l 3\n~u x\n~.\n"))
        wanted = [([b"type ls"], b"ls\r"), ([b"byte 177"], b""), ([b"byte 004"], b""), ([b"byte 177"], b""),
                  ([b"byte 034"], b""), ([b"type ~a"], b"~a\r"), ([b"tick"], b""), console.Order("u", 3), console.Order("l")]
        self.assertEqual([self.read(keyboard) for _ in wanted], wanted)
        for said in ("no command of the console", "no command of the console", "'x': no number"):
            with self.assertRaisesRegex(console.ConsoleError, said):
                keyboard.read()
        self.assertIsNone(keyboard.read())
        # the end of a file at the keyboard is typed; what stands before it on the line too
        keyboard = console.Keyboard(Person(b"ab"))
        self.assertEqual(self.read(keyboard), ([b"byte 141", b"byte 142", b"byte 004"], b"ab"))
        self.assertEqual(self.read(keyboard), ([b"byte 004"], b""))

    def test_a_file_of_another_host(self):
        """A carriage return before the end of a line isn't typed; one within a line is."""
        keyboard = console.Keyboard(io.BytesIO(b"ls\r\na\rb\r\n\r\nlast\r"))
        self.assertEqual([self.read(keyboard)[0] for _ in range(4)],
                         [[b"type ls"], [b"byte 141", b"byte 015", b"byte 142", b"byte 015"], [b"type"], [b"type last"]])

    def test_a_file(self):
        keyboard = console.Keyboard(io.BytesIO(b"ls\nno return"))
        self.assertEqual([self.read(keyboard) for _ in range(3)], [([b"type ls"], b""), ([b"type no return"], b""), None])

    def test_lines_that_are_tried_in_one_run(self):
        keyboard = console.Keyboard(io.BytesIO(b"a\nb\tc\n\n" + b"x" * 255 + b"\n"))
        keyboard.fill()
        self.assertEqual(keyboard.batch(), [[b"type a"], [b"byte 142", b"byte 011", b"byte 143", b"byte 015"], [b"type"]])
        for odd in (b"a\n~l\n", b"a\n\4\n", b"a\n\377\n"):
            keyboard = console.Keyboard(io.BytesIO(odd))
            keyboard.fill()
            self.assertEqual(keyboard.batch(), [[b"type a"]])

    def test_echo(self):
        """By the table of docs/manual/terminal.md: what goes out with LCASE, XTABS and CRMOD."""
        self.assertEqual(echo(b"a{b}|`~\r", 2, True, True, True), b"A\\(B\\)\\!\\'\\^\r\n")
        self.assertEqual(echo(b"a\tb\r", 2, True, True, True), b"A     B\r\n")
        self.assertEqual(echo(b"a\tb{\r", 2, False, False, False), b"a\tb{\r")
        for typed, shown in ((b"ls\r", b"LS\r\n"), (b"a{|}~\r", b"A\\(\\!\\)\\^\r\n"), (b"\tx\ty\r", b"      X       Y\r\n"),
                             (b"a\tb\r", b"a     b\r\n"), (b"a|b\r", b"a|b\r\n")):
            self.assertEqual(without_echo(b"LAST\r\n# ", shown + b"BIN\r\n# ", typed), b"BIN\r\n# ")
        self.assertEqual(without_echo(b"# ", b"BIN\r\n# ", b"ls\r"), b"BIN\r\n# ")

    def test_steps(self):
        lines = [b"clock 100", b"run 10000", b"type a", b"run 10000", b"byte 142", b"byte 004", b"run 5", dialogue.PASSES,
                 b"clock 1", b"run 60", b"clock 0", b"run 9", b"tick", b"run 7"]
        steps = dialogue.steps_of(lines)
        self.assertEqual([len(step) for step in steps], [2, 2, 8, 2])
        self.assertEqual([dialogue.shown(step) for step in steps], ["~:clock 100", "a", "b^D", "~:tick"])
        self.assertEqual(sum(steps, []), lines)
        self.assertEqual(dialogue.shown([b"line 2", b"type ls", b"run 5"]), "~2 ls")
        self.assertEqual(dialogue.shown([b"hangup 2", b"run 5"]), "~h 2")
        self.assertEqual((dialogue.total(lines), dialogue.clock(lines), dialogue.clock(lines[:2])), (20081, False, True))


class Sessions(Case):
    def session(self, typed, *words, image=os.path.join(SHELL, "image")):
        return self.ran(console.main, image, "--v6", V6, *words, typed=typed.encode())

    def script(self, lines, image=os.path.join(SHELL, "image"), core=3968):
        """A script of the console, with the line with which it begins."""
        return f"; console: image sha256 {hashlib.sha256(read(image)).hexdigest()} core {core}\n{lines}".encode()

    def disk_with(self, source):
        """A small disk with a console and a first program."""
        out, program = self.path("init"), self.put("init.s", source.encode())
        self.assertEqual(self.call(as_main, "-o", out, program), (0, "", ""))
        volume = Volume.empty(100, 16, 0)
        etc, dev = (volume.make_directory(1, name, 0o755, 0) for name in (b"etc", b"dev"))
        volume.make(dev, b"tty8", CHARACTER | 0o666, 0)
        volume.write_file(volume.make(etc, b"init", 0o755, 0), read(out), 0)
        return self.put("image", volume.image())

    def test_dialogue(self):
        script, disk = self.path("script"), self.path("disk")
        term = read(os.path.join(SHELL, "term"))
        self.assertEqual(self.session(TYPED, "--script", script, "--disk", disk), (0, term, OVER))
        self.assertEqual(read(script), read(os.path.join(SHELL, "script")))
        self.assertEqual(len(read(disk)), DISK_BYTES)

    def test_the_disk(self):
        """On the generator's disk, whose first program writes lines back: docs/manual/generator.md."""
        image, disk = self.put("made", generated(0)), self.path("disk")
        term = b"SUM 6\r\n% HELLO\r\nHELLO\r\n% "
        self.assertEqual(self.session("hello\n~^D\n", "--disk", disk, image=image), (0, term, OVER))
        self.assertEqual(v6("check", disk), (0, "ok 7 nodes 3933 free\n"))

    def test_a_disk_on_which_nothing_can_run(self):
        """The console says so once, with the way on, and ends; it has written no file, and one that was there stays."""
        script, disk, image = self.path("script"), self.put("disk", b"old"), self.put("pack", read(os.path.join(TOP, "examples", "pack", "pack")))
        way = "nothing can run on it. A disk that was mounted goes beside one that runs: --second, docs/tools/pack.md"
        self.assertEqual(self.session("ls\nls\n", "--script", script, "--disk", disk, image=image),
                         (1, b"", f"\nconsole: the disk has no /etc/init, so {way}\n"))
        self.assertEqual((os.path.exists(script), read(disk)), (False, b"old"))
        self.assertEqual(self.call(disk_main, "--v6", V6, "mkdir", image, "/etc"), (0, "", ""))
        self.assertEqual(self.call(disk_main, "--v6", V6, "put", image, disk, "/etc/init"), (0, "", ""))
        self.assertEqual(self.session("ls\n", image=image), (1, b"", "\nconsole: the disk's /etc/init can't be executed, so nothing can run on it\n"))

    def test_an_image_that_changes_meanwhile(self):
        """Each line is played on the disk that was read when the dialogue began, and a disk that another program has put in its
        place isn't written over."""
        image, other = self.put("image", read(os.path.join(SHELL, "image"))), self.put("made", generated(12))
        for words, disk in ((("--disk", self.path("disk")), self.path("disk")), (("--disk", image), image + ".1")):
            write(image, read(os.path.join(SHELL, "image")))
            command = [sys.executable, "-S", os.path.join(TOOLS, "console.py"), image, "--v6", V6, *words]
            with subprocess.Popen(command, stdin=subprocess.PIPE, stdout=subprocess.PIPE, stderr=subprocess.PIPE) as ran:
                self.assertEqual(ran.stdout.read(2), b"# ")
                write(image, read(other))
                out, said = ran.communicate(b"echo a >b\nls /b\n")
            self.assertEqual(out, b"ECHO A >B\r\n# LS /B\r\n/B\r\n# ")
            self.assertIn(f"{image} isn't any more what it was", said.decode())
            self.assertEqual(ran.returncode, int(disk != words[1]))
            self.assertEqual((len(read(disk)), read(image)), (DISK_BYTES, read(other)))

    def test_ended_by_a_signal(self):
        """What was typed until then is kept, the disk is written, and no folder is left."""
        os.mkdir(self.path("tmp"))
        for number in (signal.SIGTERM, signal.SIGHUP):
            script, disk = self.path(f"script{number}"), self.path(f"disk{number}")
            command = [sys.executable, "-S", os.path.join(TOOLS, "console.py"), os.path.join(SHELL, "image"), "--v6", V6, "--script", script,
                       "--disk", disk]
            with subprocess.Popen(command, stdin=subprocess.PIPE, stdout=subprocess.PIPE, stderr=subprocess.PIPE,
                                  env={**os.environ, "TMPDIR": self.path("tmp")}) as ran:
                self.assertEqual(ran.stdout.read(2), b"# ")
                ran.stdin.write(b"echo a >b\n")
                ran.stdin.flush()
                self.assertEqual(ran.stdout.read(13), b"ECHO A >B\r\n# ")
                while ran.poll() is None and b"echo a" not in read(script):
                    time.sleep(0.01)
                ran.send_signal(number)
                out, error = ran.communicate()
            self.assertEqual((ran.returncode, out, error), (128 + number, b"", b""))
            self.assertEqual(read(script), self.script("run 10000\ntype echo a >b\nrun 10000\n"))
            self.assertEqual(self.call(tool("disk").main, "cat", disk, "/b"), (0, "a\n", ""))
            self.assertEqual(os.listdir(self.path("tmp")), [])

    def test_two_consoles_with_one_script(self):
        """The lines of neither are lost: the later one is told, and keeps its own beside them."""
        script = self.path("script")
        command = [sys.executable, "-S", os.path.join(TOOLS, "console.py"), os.path.join(SHELL, "image"), "--v6", V6, "--script", script]
        pipes = {"stdin": subprocess.PIPE, "stdout": subprocess.PIPE, "stderr": subprocess.PIPE}
        with subprocess.Popen(command, **pipes) as one, subprocess.Popen(command, **pipes) as other:
            self.assertEqual((one.stdout.read(2), other.stdout.read(2)), (b"# ", b"# "))
            self.assertEqual(one.communicate(b"echo one\n")[0], b"ECHO ONE\r\nONE\r\n# ")
            out, said = other.communicate(b"echo two\necho more\n")
        self.assertEqual(out, b"ECHO TWO\r\nTWO\r\n# ECHO MORE\r\nMORE\r\n# ")
        self.assertEqual(said.decode(), f"\nconsole: another program has changed {script}, and its lines stay there; this dialogue is "
                                        f"kept in {script}.1\n")
        self.assertEqual((one.returncode, other.returncode), (0, 1))
        self.assertEqual(read(script), self.script("run 10000\ntype echo one\nrun 10000\n"))
        self.assertEqual(read(script + ".1"), self.script("run 10000\ntype echo two\nrun 10000\ntype echo more\nrun 10000\n"))

    def test_two_consoles_with_one_new_disk(self):
        """The one that ends last doesn't write over what the other has left."""
        disk, words = self.path("disk"), ("--disk", self.path("disk"))
        self.assertEqual(self.session("echo one >/usr/a\n", *words)[::2], (0, ""))
        one = read(disk)
        os.unlink(disk)
        real = console.talk

        def talk(*words):  # another console ends meanwhile
            real(*words)
            write(disk, one)

        with unittest.mock.patch.object(console, "talk", talk):
            status, _, said = self.session("echo two >/usr/a\n", *words)
        self.assertEqual((status, said), (1, f"\nconsole: another program has written {disk} since the dialogue began. It is left so, "
                                             f"and the disk of this dialogue goes to {disk}.1\n"))
        self.assertEqual(read(disk), one)
        self.assertNotEqual(read(disk + ".1"), one)
        self.assertEqual(self.session("echo three >/usr/a\n", *words)[::2], (0, ""))  # over what was there before
        self.assertNotEqual(read(disk), one)

    def test_a_host_without_room(self):
        """A person is told so after each line and types on, and the script is kept when there is room again."""
        script, full, real = self.path("script"), [False, True, True, False], console.replace

        def replace(name, *words):
            if full.pop(0) if full else False:
                raise OSError(errno.ENOSPC, "No space left on device", name)
            real(name, *words)

        with unittest.mock.patch.object(console, "replace", replace), \
                unittest.mock.patch.object(console.Keyboard, "__init__", as_person(console.Keyboard.__init__)):
            status, _, said = self.session("echo a\necho b\necho c\n~.\n", "--script", script)
        told = f"\nconsole: {script}: No space left on device: what is typed isn't kept until there is room\n"
        self.assertEqual((status, said.count(told)), (0, 2))
        self.assertIn(b"type echo a\nrun 10000\ntype echo b\nrun 10000\ntype echo c\n", read(script))
        full[:] = [False, True]
        with unittest.mock.patch.object(console, "replace", replace):  # what a file types ends
            self.assertEqual(self.session("echo a\n", "--script", self.path("other"))[0], 1)

    def test_a_script_goes_on(self):
        script = self.put("script", b"run 10000\ntype chdir /usr\nrun 10000\n")
        self.assertEqual(self.session("ls\n", "--script", script), (0, b"# CHDIR /USR\r\n# LS\r\nSYS\r\n# ", ""))
        wanted = self.script("run 10000\ntype chdir /usr\nrun 10000\ntype ls\nrun 10000\n")
        self.assertEqual(read(script), wanted)
        self.assertEqual(self.session("", "--script", script)[0], 0)

    def test_a_script_without_slots(self):
        """The machine starts before the first line is typed."""
        script = self.put("script", b"switch 173030\n")
        self.assertEqual(self.session("ls\n", "--script", script), (0, b"# LS\r\nBIN\r\nDEV\r\nETC\r\nUSR\r\n# ", ""))
        self.assertEqual(read(script), self.script("switch 173030\nrun 10000\ntype ls\nrun 10000\n"))

    def test_a_script_of_another_disk(self):
        """After --disk has written the disk back, its script would do all once more."""
        image, script = self.put("image", read(os.path.join(SHELL, "image"))), self.path("script")
        words = ("--script", script, "--disk", image)
        self.assertEqual(self.session("mkdir /tmp\n", *words, image=image)[0], 0)
        before = read(script), read(image)
        said = (f"\nconsole: {script} was typed at another disk than {image}: another --script begins a new dialogue, and "
                "--replay plays this one\n")
        self.assertEqual(self.session("ls\n", *words, image=image), (1, b"", said))
        self.assertEqual((read(script), read(image)), before)
        status, term, _ = self.session("ls\n", "--replay", "--script", script, image=image)
        self.assertEqual((status, term.count(b"CANNOT MAKE DIRECTORY")), (0, 1))
        self.assertIn(hashlib.sha256(read(image)).hexdigest().encode(), read(script))
        self.assertIn("was typed with another size of core",
                      self.session("", "--script", script, "--core", "1200", image=image)[2])
        self.assertEqual(self.session("", "--script", self.put("old", self.script("run 9000\n", core=1200)))[0], 0)
        self.assertIn(b" core 1200\n", read(self.path("old")))

    def test_what_is_taken_back(self):
        script = self.path("script")
        status, term, said = self.session("echo a\n~:walk\necho é\necho b\n", "--script", script)
        self.assertEqual((status, term), (1, b"# ECHO A\r\nA\r\n# ECHO B\r\nB\r\n# "))
        back = "\nconsole: this line is taken back\n"
        self.assertEqual(said, f"\nconsole: script: line 5: 'walk': no line of a script{back}\nconsole: only characters of ASCII can be typed{back}")
        self.assertEqual(read(script), self.script("run 10000\ntype echo a\nrun 10000\ntype echo b\nrun 10000\n"))
        self.assertEqual(self.session("~x\n"), (1, b"# ", "\nconsole: no command of the console; ~? tells which there are\n"))
        self.assertEqual(self.session("~?\n"), (0, b"# ", f"\nconsole: lines that begin with ~:\n{console.HELP}"))

    def test_signals(self):
        """The shell ignores an interrupt, and its child ends by it."""
        script = self.path("script")
        status, term, said = self.session("~^?\ncat\n~^?\necho b\n", "--script", script)
        self.assertEqual((status, term, said), (0, b"# CAT\r\n\r\n# ECHO B\r\nB\r\n# ", ""))
        self.assertEqual(read(script), self.script("run 10000\nbyte 177\nrun 10000\ntype cat\nrun 10000\nbyte 177\nrun 10000\n"
                                                   "type echo b\nrun 10000\n"))

    def test_keys_that_make_signals(self):
        """What a person presses to interrupt or to quit, while the console reads, goes to the machine."""
        for pressed, line in ((KeyboardInterrupt, b"byte 177"), (console.Quit, b"byte 034")):
            file = unittest.mock.Mock(isatty=lambda: True, read1=unittest.mock.Mock(side_effect=pressed))
            self.assertEqual(console.Keyboard(file).read().lines, [line])
        with self.assertRaises(console.Quit):
            console.quit_key()

    def test_names_of_programs(self):
        """Programs of 100 and 200 bytes have images of 16, 20 and two or four clicks; a text of 0410 is no part of one."""
        for name, words in (("one", (0o407, 60, 20, 20)), ("two", (0o407, 200, 0, 0)), ("three", (0o407, 0, 0, 193)),
                            ("four", (0o410, 60, 20, 20))):
            folder = "bin/more" if name == "three" else "bin"
            os.makedirs(self.path("disk/" + folder), exist_ok=True)
            self.put(f"disk/{folder}/{name}", struct.pack("<8H", *words, 0, 0, 0, 0) + bytes(80))
        self.assertEqual(self.call(tool("disk").main, "--v6", V6, "new", self.path("image"), self.path("disk"))[0], 0)
        found = programs_of(read(self.path("image")))
        self.assertEqual(found, {(38, 0): ["/bin/one"], (40, 0): ["/bin/more/three", "/bin/two"], (37, 1): ["/bin/four"]})
        log = "bare 1\nimage 1 40 at 1\nfork 1 2 at 41\ngo 2\nbare 2\nimage 2 38 at 81\nsize 2 40 at 81\nsleep 2 10 keys\n"
        self.assertEqual(Processes((BOOT + log).encode()).told(found),
                         ["process 1 runs (/bin/more/three or /bin/two)", "process 2, a child of 1, reads the terminal (/bin/one)"])
        log += "bare 2\ntext 2 0 1 swap 4000\nimage 2 37 swap 4001\nfork 2 3 swap 4006\nbare 1\nshare 1 0\nimage 1 37 at 1\n"
        self.assertEqual([line.rpartition(" ")[2] for line in Processes((BOOT + log).encode()).told(found)], ["(/bin/four)"] * 3)
        log += "bare 2\nimage 2 37 at 81\n"  # of a program that is not on the disk
        self.assertEqual(Processes((BOOT + log).encode()).told(found)[1], "process 2, a child of 1, reads the terminal")

    def test_back_and_forth(self):
        status, term, said = self.session("chdir /usr\nls\n~u 2\n~l\nls\nls\n~u\n~l\n~w\n~g 2\n~u 3\n~g 4\n", "--script",
                                          self.path("new"))
        root = b"LS\r\nBIN\r\nDEV\r\nETC\r\nUSR\r\n# "
        self.assertEqual(term, b"# CHDIR /USR\r\n# LS\r\nSYS\r\n# " + root + root + root)
        self.assertEqual(said, "\nconsole: before the first line\n"
                               "\nconsole: 0 lines, as they were typed\ntaken back:\n    1  chdir /usr\n    2  ls\n"
                               "\nconsole: after line 1: ls\n"
                               "\nconsole: 1 line, as it was typed\n    1  ls\ntaken back:\n    2  ls\n"
                               "\nconsole: process 1 reads the terminal: /etc/init\n\nconsole: after line 2: ls\n"
                               "\nconsole: 2 lines can be taken back: ~u 2, or ~g 0\n\nconsole: there are 2 lines\n")
        self.assertEqual(read(self.path("new")), self.script("run 10000\n" + "type ls\nrun 10000\n" * 2))

    def test_lines_taken_back_are_kept(self):
        """In FILE.old, with those before them; a file of that name that isn't a console's stays."""
        script = self.path("script")
        self.session("ls\necho a\n~u\necho b\n", "--script", script)
        lines = "run 10000\ntype ls\nrun 10000\ntype echo {}\nrun 10000\n"
        self.assertEqual((read(script), read(script + ".old")), (self.script(lines.format("b")), self.script(lines.format("a"))))
        self.session("~u\n", "--script", script)
        self.assertEqual(read(script + ".old"), self.script(lines.format("b")))
        self.put("script.old", b"mine\n")
        self.session("~u\n", "--script", script)
        self.assertEqual((read(script + ".old"), len(read(script + ".old.1").splitlines())), (b"mine\n", 4))

    def test_arguments_of_processes(self):
        """Those that memory has, of each that has any: a child in the background, and the shell that has read on."""
        said = self.session("sleep 100 &\n~w\n")[2]
        self.assertEqual(said, "\nconsole: process 1 reads the terminal: /etc/init\nprocess 2, a child of 1, sleeps for a time: "
                               "sleep 100\n")

    def test_keys_without_a_return(self):
        script = self.path("script")
        self.assertEqual(self.session("cat\n~k ab^D^D\n", "--script", script), (0, b"# CAT\r\nABAB# ", ""))
        self.assertEqual(read(script), self.script("run 10000\ntype cat\nrun 10000\nbyte 141\nbyte 142\nbyte 004\nbyte 004\n"
                                                   "run 10000\n"))

    def test_a_run_that_does_not_end(self):
        """A program that answers as v6 does where it comes to a panic."""
        other = self.put("other.py", OTHER.encode())
        script = self.path("script")
        words = ("--v6", f"{sys.executable} {other} {V6}", "--script", script)
        status, term, said = self.session("echo a\n~^?\necho b\n", *words)
        self.assertEqual((status, term), (1, b"# ECHO A\r\nA\r\n# OOPSECHO B\r\nB\r\n# "))
        self.assertEqual(said, "\nconsole: panic: out of swap space\nconsole: this line is taken back\n")
        self.assertEqual(read(script), self.script("run 10000\ntype echo a\nrun 10000\ntype echo b\nrun 10000\n"))

    def test_a_program_that_runs_on(self):
        image = self.disk_with("\tbr\t.\n")
        script = self.path("script")
        more = ("\nconsole: the machine runs on after 500 slots (process 1 runs); ~:run N gives it more, and what you type "
                "waits for it")
        still = ". No clock runs, so that no signal reaches a program that makes no call: ~:clock 1000 lets it, or ~u takes the line back\n"
        self.assertEqual(self.session("x\n", "--slots", "500", "--script", script, image=image), (0, b"", 2 * (more + still)))
        self.assertEqual(read(script), self.script("run 500\ntype x\nrun 500\n", image))
        self.assertEqual(self.session("", "--slots", "500", "--clock", "100", image=image), (0, b"", more + "\n"))

    def test_the_slots_of_a_script(self):
        """At most 200,000,000: what a line is given is what is left of them, and without any it isn't the line's fault."""
        image = self.disk_with(READER.format(""))
        script = self.put("script", self.script("run 199999000\n", image))
        status, term, said = self.session("x\ny\n", "--script", script, image=image)
        self.assertEqual(read(script), self.script("run 199999000\ntype x\nrun 1000\n", image))
        self.assertEqual((status, term, said.count("are used up; ~u takes lines back")), (1, b"X\r\nX\r\n", 1))

    def test_a_child_in_the_background(self):
        """A line costs no more slots than without the child, which counts for ever."""
        image = self.disk_with(READER.format("\tsys\tfork\n\tbr\tspin\n"))
        script = self.path("script")
        self.assertEqual(self.session("ab\ncd\n", "--script", script, image=image), (0, b"AB\r\nAB\r\nCD\r\nCD\r\n", ""))
        self.assertEqual(read(script), self.script("run 10000\ntype ab\nrun 10000\ntype cd\nrun 10000\n", image))

    def test_the_clock(self):
        """A program that sleeps for two seconds, which are 120 ticks, and then ends."""
        image = self.disk_with("\tmov\t$2,r0\n\tsys\tsleep\n\tsys\texit\n")
        script = self.path("script")
        self.assertEqual(self.session("", "--clock", "100", "--script", script, image=image), (0, b"", OVER))
        self.assertEqual(read(script), self.script("clock 100\nrun 100000\n", image))

    def test_sleep_without_a_clock(self):
        """Time passes at once where all sleep: as many ticks as are missing, and a line can be typed after them."""
        image = self.disk_with(READER.format("\tmov\t$2,r0\n\tsys\tsleep\n"))
        script = self.path("script")
        self.assertEqual(self.session("ab\n", "--script", script, image=image), (0, b"AB\r\nAB\r\n", ""))
        passes = "; time passes until the next sleeper wakes\nclock 1\nrun 120\nclock 0\n"
        self.assertEqual(read(script), self.script(f"run 10000\n{passes}run 10000\ntype ab\nrun 10000\n", image))
        again = self.session("cd\n", "--script", script, image=image)
        self.assertEqual(again, (0, b"AB\r\nAB\r\nCD\r\nCD\r\n", ""))
        typed = "sleep 3\necho a >b\nsleep 75\ndate\n"
        term = b"# SLEEP 3\r\n# ECHO A >B\r\n# SLEEP 75\r\n# DATE\r\nTHU JAN  1 00:01:18 GMT 1970\r\n# "
        self.assertEqual(self.session(typed), (0, term, ""))
        # a time that is too long for the limit: the console says so, and goes on
        image = self.disk_with("\tmov\t$100.,r0\n\tsys\tsleep\n\tsys\texit\n")
        status, _, said = self.session("~:clock 1\n~:run 4000\n", "--slots", "2000", image=image)
        self.assertEqual((status, said.count("everybody sleeps for a time, and that is long"), OVER in said), (0, 1, True))

    def test_a_long_file(self):
        """Few runs for a piped file of many lines: not a run a line. The script is that of lines that are typed one by one."""
        typed = "".join(f"echo {n}\n" for n in range(1000))
        script, counter, runs = self.path("script"), self.put("counts.sh", COUNTS.encode()), self.path("runs")
        words = ("--v6", f"sh {counter} {runs} {V6}", "--script", script)
        status, term, said = self.session(typed, *words)
        self.assertEqual((status, said), (0, ""))
        self.assertLessEqual(len(read(runs).split()), 10)
        self.assertEqual(term, b"# " + b"".join(b"ECHO %d\r\n%d\r\n# " % (n, n) for n in range(1000)))
        self.assertEqual(read(script), self.script("run 10000\n" + "".join(f"type echo {n}\nrun 10000\n" for n in range(1000))))
        os.remove(runs)
        self.assertEqual(self.session("echo x\n", *words)[1], term + b"ECHO X\r\nX\r\n# ")
        self.assertEqual(len(read(runs).split()), 2)  # of the script, and of the script with this line

    def test_lines_with_more_and_fewer_slots(self):
        """Each has what it needs, also where many are tried in one run: a line `c` counts for a while."""
        image = self.disk_with(READER.format("").replace("\tclr\tr0\n\tsys\twrite", COUNT + "\tclr\tr0\n\tsys\twrite"))
        one, many = self.path("one"), self.path("many")
        typed = ["a", "c", "a", "a", "c", "c", "a"]
        status, term, said = self.session("".join(line + "\n" for line in typed), "--script", many, image=image)
        self.assertEqual((status, term, said), (0, b"".join(2 * (line.upper().encode() + b"\r\n") for line in typed), ""))
        for line in typed:
            self.session(line + "\n", "--script", one, image=image)
        self.assertEqual(read(many), read(one))
        self.assertEqual(read(many).count(b"run 100000\n"), 3)

    def test_faults(self):
        bad = self.put("bad", bytes(2000))
        self.assertEqual(self.session("", image=bad), (1, b"", f"\nconsole: {bad}: bad super-block: tools/disk.py check {bad} tells all faults\n"))
        packed = self.put("his.gz", b"\037\213" + bytes(600))
        said = f"\nconsole: {packed}: bad super-block: it is compressed, and gunzip makes the disk of it\n"
        self.assertEqual(self.session("", image=packed), (1, b"", said))
        script = self.put("script", b"walk\n")
        self.assertEqual(self.session("", "--script", script), (1, b"", f"\nconsole: {script}: line 1: 'walk': no line of a script\n"))
        self.assertEqual(read(script), b"walk\n")
        self.assertEqual(self.session("", "--core", "63"), (1, b"", "\nconsole: core size: 63 clicks, and 64 to 3968 are wanted\n"))
        for option in ("--script", "--disk"):
            said = "\nconsole: /dev/full: not a file, and only a file is replaced\n"
            self.assertEqual(self.session("ls\n", option, "/dev/full"), (1, b"", said))
        absent = os.path.join(self.folder, "no", "file")
        for option in ("--script", "--disk"):
            status, term, said = self.session("ls\n", option, absent)
            self.assertNotIn(b"LS", term)
            self.assertEqual((status, said), (1, f"\nconsole: {absent}: No such file or directory\n"))
        for words, fault in ((("--core", "-5"), "argument --core: '-5': no number of one to nine digits"),
                             (("--clock", "1000000000"), "argument --clock: '1000000000': no number of one to nine digits"),
                             (("--slots", "0"), "--slots: at least 1"),
                             (("--script", absent, "--disk", absent), "--script and --disk are the same file"),
                             (("--script", os.path.join(SHELL, "image")), "--script and image are the same file")):
            status, _, said = self.session("", *words)
            self.assertEqual((status, said.splitlines()[-1]), (2, f"console.py: error: {fault}"))

    def test_the_program(self):
        """A folder of a clone may have a blank in its name; words that can't be parted are told."""
        top = self.path("a clone's")
        os.makedirs(top + "/bin")
        shutil.copytree(TOOLS, top + "/tools", ignore=shutil.ignore_patterns("__pycache__", "tests"))
        write(top + "/bin/v6", b'#!/bin/sh\neval exec "$TRUE" \'"$@"\'\n')
        os.chmod(top + "/bin/v6", 0o755)
        environment = {key: value for key, value in os.environ.items() if key != "V6"}
        command = [sys.executable, top + "/tools/console.py", os.path.join(SHELL, "image")]
        done = subprocess.run(command, env={**environment, "TRUE": V6}, input=b"", capture_output=True)
        self.assertEqual((done.returncode, done.stdout, done.stderr), (0, b"# ", b""))
        done = subprocess.run([*command, "--v6", "'"], stdin=subprocess.DEVNULL, capture_output=True, text=True)
        said = "\nconsole: ': No closing quotation: the program v6 is wanted; --v6 names it\n"
        self.assertEqual((done.returncode, done.stderr), (1, said))


class EightLines(Case):
    """The disk of examples/timesharing, with a getty on the lines 0, 1 and 2."""

    IMAGE = os.path.join(TOP, "examples", "timesharing", "image")
    MOTD = "The chess club meets on Thursday.\n% "

    def session(self, typed, *words):
        return self.ran(console.main, self.IMAGE, "--v6", V6, *words, typed=typed.encode())

    def shown(self, text):
        return text.replace("\n", "\r\n").encode()

    def test_three_lines(self):
        """Each shows what is new on it when one goes there, and the script tells on which line was typed."""
        script = self.path("script")
        status, term, said = self.session("guest\n~1\ndennis\nnb\nwho\n~0\nwho\n~1\n~2\n", "--lines", "--script", script)
        self.assertEqual((status, said), (0, "\nconsole: line 1\n\nconsole: line 0\n\nconsole: line 1\n\nconsole: line 2\n"))
        who = "who\ndennis  tty1 19:28\nguest   tty8 19:28\n% "
        self.assertEqual(term, self.shown(f"\nlogin: guest\n{self.MOTD}\nlogin: dennis\nPassword: \n{self.MOTD}{who}{who}"
                                          "\nlogin: "))
        head, *lines = read(script).decode().splitlines()
        self.assertTrue(head.endswith(" core 3968 lines"))
        slots = ["run 10000"]
        self.assertEqual(lines, slots + [line for one in (["type guest"], ["line 1", "type dennis"], ["type nb"], ["type who"],
                                                          ["line 0", "type who"]) for line in one + slots])

    def test_page(self):
        """The command of docs/tools/console.md gives what stands under it."""
        page = read(os.path.join(TOP, "docs", "tools", "console.md")).decode()
        command, told = next(block for block in page.split("```\n")[1::2] if "--lines" in block).split("\n", 1)
        done = subprocess.run(["sh", "-c", command], cwd=TOP, env={**os.environ, "V6": V6}, stdout=subprocess.PIPE,
                              stderr=subprocess.STDOUT)
        shown = [line.rstrip() for line in done.stdout.decode().replace("\r\n", "\n").split("\n")]
        self.assertEqual((done.returncode, "\n".join(shown)), (0, told.removesuffix("\n")))

    def test_hanging_up(self):
        """The shell of the line ends, and getty comes again: on the line that is named, or on the one that is shown."""
        typed = "~2\nguest\n~0\nguest\n~h 2\nwho\n~2\n~h\n"
        status, term, said = self.session(typed, "--lines", "--script", self.path("script"))
        self.assertEqual((status, said), (0, "\nconsole: line 2\n\nconsole: line 0\n\nconsole: line 2\n"))
        self.assertEqual(term, self.shown(f"\nlogin: \nlogin: guest\n{self.MOTD}guest\n{self.MOTD}who\nguest   tty8 19:28\n% "
                                          "\nlogin: \nlogin: "))
        self.assertEqual(read(self.path("script")).count(b"\nhangup 2\nrun 10000\n"), 2)

    def test_taking_back(self):
        """What other lines have shown since goes too, and lines are listed with the line that they were typed on."""
        script = self.path("script")
        typed = "guest\n~1\nguest\n~0\nwho\n~h 1\n~l\n~u 3\n~1\n~0\nwho\n~g 2\n~1\nguest\n~l\n"
        _, term, said = self.session(typed, "--lines", "--script", script)
        come = f"\nlogin: guest\n{self.MOTD}"
        self.assertEqual(term, self.shown(f"{come}{come}who\nguest   tty1 19:28\nguest   tty8 19:28\n% "
                                          f"who\nguest   tty8 19:28\n% guest\n{self.MOTD}"))
        told = [one for one in said.split("\n\nconsole: ") if "typed" in one or "after" in one]
        self.assertEqual(told, ["4 lines, as they were typed\n    1  guest\n    2  ~1 guest\n    3  ~0 who\n    4  ~h 1",
                                "after line 1: guest", "after line 2: who",
                                "3 lines, as they were typed\n    1  guest\n    2  who\n    3  ~1 guest\n"])

    def test_new_after_taking_back(self):
        """What comes to a line that showed more before it was taken back."""
        term = self.session("guest\n~1\nguest\nwho\n~0\n~u 2\necho hello >/dev/tty1\n~1\n", "--lines")[1]
        come = f"\nlogin: guest\n{self.MOTD}"
        self.assertEqual(term, self.shown(f"{come}{come}who\nguest   tty1 19:28\nguest   tty8 19:28\n% echo hello >/dev/tty1\n% ")
                         + b"hello\n")

    def test_a_script_of_eight_lines(self):
        """It goes on with eight lines, and on the line of its end; other tools refuse it, or play it with eight."""
        script, term, final = (self.path(name) for name in ("script", "term", "final"))
        self.session("~1\nguest\n", "--lines", "--script", script)
        status, shown, said = self.session("who\n", "--script", script, "--disk", final)
        self.assertEqual((status, said), (0, "\nconsole: line 1\n"))
        self.assertEqual(shown, self.shown(f"\nlogin: guest\n{self.MOTD}who\nguest   tty1 19:28\n% "))
        self.assertEqual(v6("check", final)[0], 0)
        run = tool("run").main
        status, said = self.call(run, "--v6", V6, self.IMAGE, script, "--term", term)[::2]
        self.assertEqual((status, said), (3, f"run.py: {script} was typed at eight lines: --eight plays it so\n"))
        self.assertEqual(self.call(run, "--v6", V6, "--eight", self.IMAGE, script, "--term", term), (0, "", ""))
        self.assertEqual(read(term + ".1"), shown)
        one = self.path("one")
        self.session("guest\n", "--script", one)
        self.assertEqual(self.session("", "--lines", "--script", one)[2], (
            f"\nconsole: {one} was typed at one line of the terminal: another --script begins a new dialogue, and --replay plays "
            "this one\n"))

    def test_a_script_of_other_lines(self):
        """One without a first line of the console's is refused too where it names a line that isn't there, and so is a line that is put
        into the script: what is typed at it would be lost."""
        script = self.put("script", b"run 1000\nline 1\ntype guest\nrun 1000\n")
        for more in ((), ("--replay",)):
            self.assertEqual(self.session("ls\n", "--script", script, *more),
                             (1, b"", f"\nconsole: {script}: line 2: 'line 1': this run has line 0 alone: --lines gives eight\n"))
        self.assertEqual(self.session("who\n", "--script", script, "--lines")[0], 0)
        status, _, said = self.session("~:line 1\n~:hangup 7\n~:line 0\n")
        self.assertEqual((status, said), (1, "".join(f"\nconsole: there is no line {line}: --lines gives eight, 0 to 7\n" for line in (1, 7))))

    def test_waits(self):
        """A line gets slots enough where programs wait for the disk, and bytes go out one by one."""
        term = self.session("~:disk 100\n~:pace 200\n~1\nguest\nwho\n", "--lines")[1]
        self.assertEqual(term, self.shown(f"\nlogin: \nlogin: guest\n{self.MOTD}who\nguest   tty1 19:28\n% "))

    def test_lines_that_are_not_there(self):
        for typed, line, more in (("~1", 1, ": --lines gives eight, 0 to 7"), ("~h 7", 7, ": --lines gives eight, 0 to 7"),
                                  ("~h 8", 8, "")):
            self.assertEqual(self.session(typed + "\n"), (1, b"\r\nlogin: ", f"\nconsole: there is no line {line}{more}\n"))
        self.assertIn("no command of the console", self.session("~8\n", "--lines")[2])
        self.assertEqual(self.session("~h 5\n", "--lines"), (0, b"\r\nlogin: ", ""))  # nobody has opened it
        self.assertEqual(self.session("guest\n~h\n")[1], self.shown(f"\nlogin: guest\n{self.MOTD}\nlogin: "))

    def test_who(self):
        said = self.session("~1\nguest\nsleep 60 &\n~w\n", "--lines")[2]
        self.assertIn("process 2, a child of 1, reads the terminal (/etc/getty)\n", said)
        self.assertIn("process 3, a child of 1, reads the terminal on line 1 (/bin/sh)\n", said)


class Terminals(Case):
    """A person at a terminal of the host: a pair of pseudo-terminals. A dumb one edits its lines by itself."""

    TERM, WORDS = "dumb", ()

    def setUp(self):
        super().setUp()
        self.ours, theirs = pty.openpty()
        self.addCleanup(os.close, self.ours)
        command = [sys.executable, "-S", os.path.join(TOOLS, "console.py"), self.image(), "--v6", V6, *self.WORDS]
        self.console = subprocess.Popen(command, stdin=theirs, stdout=theirs, stderr=theirs, env={**os.environ, "TERM": self.TERM})
        os.close(theirs)
        self.addCleanup(self.console.wait)
        self.addCleanup(self.console.kill)

    def image(self):
        return self.put("made", generated(0))

    def until(self, wanted):
        """What the host's terminal shows until there is this. Only a console that hangs meets the end."""
        shown, end = b"", time.monotonic() + LONG
        while wanted not in shown and select.select([self.ours], [], [], max(end - time.monotonic(), 0))[0]:
            shown += os.read(self.ours, 4096)
        self.assertIn(wanted, shown)
        return shown

    def test_the_end_of_a_file_on_a_line(self):
        self.until(b"% ")
        os.write(self.ours, b"abc\4")
        self.assertEqual(self.until(b"ABC% "), b"abcABC% ")

    def test_echo_and_prompt(self):
        self.until(b"% ")
        os.write(self.ours, b"a{b}\n")
        self.assertEqual(self.until(b"% ").replace(b"\r", b""), b"a{b}\nA\\(B\\)\n% ")
        os.write(self.ours, b"a\tb\n")
        self.assertEqual(re.sub(b"[ \t]+", b" ", self.until(b"% ").replace(b"\r", b"")), b"a b\nA B\n% ")
        os.write(self.ours, "é\n".encode())
        self.assertTrue(self.until(b"taken back\r\n% "))
        os.write(self.ours, b"~u\n")
        self.until(b"% ")
        os.write(self.ours, b"~l\n")
        self.assertIn(b"    1  a{b}\r\ntaken back:\r\n    2  a^Ib\r\n% ", self.until(b"a^Ib\r\n% "))
        os.write(self.ours, b"~.\n")
        self.assertEqual(self.console.wait(LONG), 0)


class Passwords(Terminals):
    """A person who logs in: what isn't echoed isn't shown on the host's terminal either, nor listed."""

    def image(self):
        return EightLines.IMAGE

    def test_the_end_of_a_file_on_a_line(self):
        self.until(b"login: ")
        os.write(self.ours, b"dennis\n")
        self.until(b"Password:")
        while termios.tcgetattr(self.ours)[3] & termios.ECHO:
            time.sleep(0.01)
        os.write(self.ours, b"nb\n")
        self.assertNotIn(b"nb", self.until(b"% "))
        os.write(self.ours, b"~l\n")
        self.assertIn(b"    1  dennis\r\n    2  (not shown)\r\n", self.until(b"(not shown)\r\n% "))
        os.write(self.ours, b"echo hello\n")
        self.assertIn(b"echo hello", self.until(b"\nhello\r\r\n"))

    def test_echo_and_prompt(self):
        """Who meets a login is told how to leave it."""
        self.assertIn(b"console: ~? tells what the console does itself, and ~. ends it\r\n", self.until(b"login: "))
        os.write(self.ours, b"~.\n")
        self.assertEqual(self.console.wait(LONG), 0)


class FurtherLines(Terminals):
    """A person at eight lines, of which three ask for a name."""

    WORDS = ("--lines",)

    def image(self):
        return EightLines.IMAGE

    def test_the_end_of_a_file_on_a_line(self):
        """What is new on other lines is told once, until one has been there."""
        self.assertIn(b"console: new on line 1, line 2: ~N shows line N\r\nlogin: ", self.until(b"line N\r\nlogin: "))
        os.write(self.ours, b"guest\n")
        self.assertNotIn(b"new on", self.until(b"% "))
        os.write(self.ours, b"~1\n")
        self.assertIn(b"console: line 1\r\n", self.until(b"login: "))
        os.write(self.ours, b"guest\n")
        self.until(b"% ")
        os.write(self.ours, b"echo hello >/dev/tty8\n")
        self.until(b"console: new on line 0: ~N shows line N\r\n% ")
        os.write(self.ours, b"~0\n")
        self.until(b"hello\r\r\n")
        os.write(self.ours, b"~1\n")
        self.until(b"line 1\r\n% ")
        for _ in range(2):  # told anew after it was taken back
            os.write(self.ours, b"echo again >/dev/tty8\n")
            self.until(b"console: new on line 0: ~N shows line N\r\n% ")
            os.write(self.ours, b"~u\n")
            self.until(b"after line 3: echo hello >/dev/tty8\r\n% ")

    def test_echo_and_prompt(self):
        """A line is shown once; going to the line where one is shows its end again, and so does hanging up the line."""
        self.until(b"line N\r\nlogin: ")
        os.write(self.ours, b"guest\n")
        self.assertEqual(self.until(b"% ").replace(b"\r", b""), b"guest\nThe chess club meets on Thursday.\n% ")
        os.write(self.ours, b"~0\n")
        self.assertEqual(self.until(b"% ").replace(b"\r", b""), b"~0\n\nconsole: line 0\n% ")
        os.write(self.ours, b"~h\n")
        self.assertEqual(self.until(b"login: ").replace(b"\r", b""), b"~h\n\nlogin: ")
        os.write(self.ours, b"~.\n")
        self.assertEqual(self.console.wait(LONG), 0)


@unittest.skipUnless(importlib.util.find_spec("readline"), "Python has no readline")
class Editing(Terminals):
    TERM = "vt100"

    def until(self, wanted):
        """The same without carriage returns, by which the prompt is shown once more, and the host ends its lines."""
        shown, end = b"", time.monotonic() + LONG
        while wanted not in shown and select.select([self.ours], [], [], max(end - time.monotonic(), 0))[0]:
            shown = (shown + os.read(self.ours, 4096)).replace(b"\r", b"")
        self.assertIn(wanted, shown)
        return shown

    def test_the_end_of_a_file_on_a_line(self):
        """It is typed where nothing stands on the line; keys without a return are those of ~k."""
        self.until(b"% % ")
        os.write(self.ours, b"~k abc^D\n")
        self.until(b"\nABCABC% % ")

    def test_echo_and_prompt(self):
        """A line is edited, and an older one comes back by a key; a tab is a tab."""
        self.until(b"% % ")
        os.write(self.ours, b"axc\x1b[D\x7fb\n")  # to the left, and the x goes
        self.until(b"\nABC\n% % ")
        os.write(self.ours, b"a\tb\n")
        self.until(b"\nA       B\n% % ")
        os.write(self.ours, b"\x1b[A\x1b[A\n")
        self.until(b"\nABC\n% % ")
        os.write(self.ours, b"\4")
        self.until(b"the run is over")
        self.assertEqual(self.console.wait(LONG), 0)
