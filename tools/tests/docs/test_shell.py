"""The example of the shell: its disk, its dialogue, and more that its commands do. What they must show is by hand."""
import os
import subprocess

from tests.common import DISK_BYTES, TOP, V6, Case, read, tool, v6

as_main, disk_main, try_main = tool("as").main, tool("disk").main, tool("try").main
SHELL = os.path.join(TOP, "examples", "shell")
# What is typed stands after the prompt, in small letters; the terminal shows capitals.
MORE = """\
# echo

# echo  a   b\x20
A B
#\x20\x20\x20
# echo a>b
# cat<b
A
# cat b - <b b
A
A
A
# cat nosuch b
A
# cat <nosuch
NOSUCH: CANNOT OPEN
# echo >/
/: CANNOT CREATE
# echo a >
SYNTAX ERROR
# chdir
CHDIR: ARG COUNT
# chdir b
CHDIR: BAD DIRECTORY
# /bin/echo yes
YES
# b
B: NOT FOUND
# usr
USR: NOT FOUND
# ls b
B
# ls nosuch
NOSUCH NOT FOUND
# ls -a usr
.
..
SYS
# ls b usr etc
B
USR:
SYS
ETC:
INIT
# ls -l dev
CRW-RW-RW-  1  0    8,  2 NULL
CRW-RW-RW-  1  0    0,  0 TTY8
# ls -la usr
DRWXR-XR-X  3  0      48 .
DRWXR-XR-X  6  0     112 ..
DRWXR-XR-X  3  0      48 SYS
# cp b
USAGE: CP OLDFILE NEWFILE
# cp nosuch c
CANNOT OPEN OLD FILE.
# cp b b
COPYING FILE TO ITSELF.
# cp b nosuch/c
CAN'T CREATE NEW FILE.
# cp usr/sys/ken/slp.c .
# cat slp.c
        /*
         * YOU ARE NOT EXPECTED TO UNDERSTAND THIS.
         */
# ln
ARG COUNT
# ln usr
NO DIRECTORY LINK
# ln nosuch c
CAN'T LINK
# ln b b
CAN'T LINK
# mkdir d d/e
# mkdir d nosuch/d
D: CANNOT MAKE DIRECTORY
NOSUCH/D: CANNOT MAKE DIRECTORY
# ls -la d
DRWXRWXRWX  3  0      48 .
DRWXR-XR-X  7  0     144 ..
DRWXRWXRWX  2  0      32 E
# chdir d/e
# ln ../../b
# cat b
A
# rm b ../../b nosuch ..
NOSUCH: NON EXISTENT
..: DIRECTORY
# chdir ..
# ls
E
# date
THU JAN  1 00:00:00 GMT 1970
# echo one two >n
# wc n nosuch
      1      2      8 N
WC: CANNOT OPEN NOSUCH
# wc <n
      1      2      8
# od n
0000000 067157 020145 073564 005157
0000010
# mv n e
# mv e/n m
# ls e
# cat m
ONE TWO
# mv e f
MV: A DIRECTORY KEEPS ITS NAME
# mv nosuch f
MV: CANNOT FIND THE FILE
# mv m m
MV: ONE FILE
# mv m
USAGE: MV OLDNAME NEWNAME
# chmod 711 m nosuch
NOSUCH: CAN'T CHANGE
# ls -l m
-RWX--X--X  1  0       8 M
# chmod 8 m
USAGE: CHMOD MODE FILE ...
# cmp m m
# echo one teo >n
# cmp m n
5 167 145
# echo one >n
# cmp m n
3 40 12
# cmp m nosuch
CMP: CANNOT OPEN
# sleep
USAGE: SLEEP SECONDS
# stty
ERASE = '#'; KILL = '@'
-TABS LCASE ECHO -NL -RAW\x20
# stty nosuch
NOSUCH: UNKNOWN MODE
# stty erase
ERASE: UNKNOWN MODE
"""
EDITED = (
    ("a\none\ntwo\nthree\n.\n", ""), ("1,$p\n", "one\ntwo\nthree\n"), ("2\n", "two\n"), ("=\n", "3\n"), (".=\n", "2\n"),
    ("s/two/deux/p\n", "deux\n"), ("1i\nzero\n.\n", ""), ("$\n", "three\n"), ("\n", "?\n"), ("-\n", "deux\n"),
    ("/one/\n", "one\n"),
    ("/o/p\n", "zero\n"), ("\n", "one\n"), ("2,3d\n", ""), ("1,$p\n", "zero\nthree\n"), ("w f\n", "11\n"),
    ("1,2c\nx\n.\n", ""),
    ("1,$p\n", "x\n"), ("r f\n", "11\n"), ("1,$p\n", "x\nzero\nthree\n"), ("s/nosuch/y/\n", "?\n"), ("9p\n", "?\n"),
    ("zz\n", "?\n"),
    ("2,1p\n", "?\n"), ("/nosuch/\n", "?\n"), ("e f\n", "11\n"), ("1,$s/e/E/p\n", "thrEe\n"), ("1,$p\n", "zEro\nthrEe\n"),
    ("$a\nlast\n.\n", ""), ("w\n", "16\n"), ("f\n", "f\n"), ("$-1p\n", "thrEe\n"), ("1+1p\n", "thrEe\n"), ("e g\n", "?\n"),
    ("0a\nfirst\n.\n", ""), (".-1,.p\n", "?\n"), ("1s,first,a/b,p\n", "a/b\n"), ("f h\n", "h\n"), ("q\n", ""),
)


class Shell(Case):
    def play(self, script, image=os.path.join(SHELL, "image")):
        """What the terminal shows, with new lines alone, and the disk at the end."""
        term, log, final = (self.path(name) for name in ("term", "log", "final"))
        status, said = v6("run", image, "1200", self.put("script", script), term, log, final)
        self.assertEqual((status, said), (0, ""))
        return read(term), read(final)

    def test_readme(self):
        with open(os.path.join(SHELL, "README.md"), encoding="ascii") as file:
            told = file.read().split("```\n")[1]
        self.assertEqual(read(os.path.join(SHELL, "term")), told.replace("\n", "\r\n").encode())

    def test_the_first_listing(self):
        """What the README of the repository says that the first command prints is the beginning of it, but for some lines."""
        told = read(os.path.join(TOP, "README.md")).decode().split("```\n")[3]
        first, more = told.split(" " * 25 + "(and seventeen lines more)\n")
        lines = read(os.path.join(SHELL, "term")).decode().split("\r\n")
        start, end = first.split("\n")[:-1], more.split("\n")[:-1]
        self.assertEqual(lines[: len(start)], start)
        self.assertEqual(lines[len(start) + 17 : len(start) + 17 + len(end)], end)

    def test_a_first_evening(self):
        """The program and the dialogue of docs/tools/README.md."""
        with open(os.path.join(TOP, "docs", "tools", "README.md"), encoding="ascii") as file:
            blocks = file.read().split("```\n")[1::2]
        told = blocks[2].split("\n", 2)[2]
        typed = [line[2:].lower() for line in told.splitlines() if line.startswith("# ")]
        hello, image = self.path("hello"), self.put("my.image", read(os.path.join(SHELL, "image")))
        sources = self.put("hello.s", blocks[0].encode()), os.path.join(SHELL, "src", "lib.s")
        self.assertEqual(self.call(as_main, "-o", hello, *sources), (0, "", ""))
        self.assertEqual(self.call(disk_main, "--v6", V6, "put", image, hello, "/bin"), (0, "", ""))
        term, final = self.play(("run 10000\n" + "".join(f"type {line}\nrun 20000\n" for line in typed)).encode(), image)
        self.assertEqual(term.decode().replace("\r\n", "\n"), told)
        who = self.path("who")
        self.assertEqual(self.call(disk_main, "--v6", V6, "get", self.put("after", final), "/usr/who", who), (0, "", ""))
        self.assertEqual(read(who), b"hello, ken\nhello, dennis\n")

    def test_an_evening_in_another_folder(self):
        """The commands of docs/tools/README.md, as they stand there."""
        blocks = read(os.path.join(TOP, "docs", "tools", "README.md")).decode().split("```\n")[1::2]
        commands = next(block for block in blocks if "$V6DIR" in block)
        self.put("hello.s", blocks[0].encode())
        done = subprocess.run(["sh", "-ec", commands], cwd=self.folder, capture_output=True,
                              env={**os.environ, "V6DIR": TOP, "V6": V6})
        self.assertEqual((done.returncode, done.stderr), (0, b"\nconsole: nobody waits for a key any more: the run is over\n"))
        self.assertEqual(read(self.path("who")), b"hello, ken\nhello, dennis\n")
        self.assertIn(b"# HELLO KEN DENNIS >/USR/WHO\r\n", read(self.path("term")))

    def test_a_source_before_the_library(self):
        """It may end in another part, or with a byte too few."""
        for end in (".bss\nx:\t.=.+2\n", "<abc>\n"):
            source, out = self.put("it.s", f"\tjsr\tpc,puts\n{end}".encode()), self.path("it")
            self.assertEqual(self.call(as_main, "-o", out, source, os.path.join(SHELL, "src", "lib.s")), (0, "", ""))

    def test_build(self):
        image = self.path("image")
        done = subprocess.run([os.path.join(SHELL, "build.sh"), image], env={**os.environ, "V6": V6},
                              capture_output=True)
        self.assertEqual((done.returncode, done.stderr), (0, b""))
        self.assertEqual(read(image), read(os.path.join(SHELL, "image")))

    def test_dialogue(self):
        term, final = self.play(read(os.path.join(SHELL, "script")))
        self.assertEqual(term, read(os.path.join(SHELL, "term")))
        self.assertEqual(len(final), DISK_BYTES)
        back, disk = self.path("back"), self.put("disk", final)
        self.assertEqual(self.call(disk_main, "--v6", V6, "get", disk, "/", back, "--table", self.path("table")), (0, "", ""))
        source = read(os.path.join(SHELL, "disk", "usr", "sys", "ken", "slp.c"))
        for name, data in (("again", source), ("slp.c", source), ("greeting", b"hello, world\nagain\n")):
            self.assertEqual(read(f"{back}/tmp/{name}"), data)
        self.assertEqual(os.listdir(f"{back}/usr/sys/ken"), ["core"])

    def test_more(self):
        typed = [line[2:] for line in MORE.splitlines() if line.startswith("# ")]
        script = "run 10000\n" + "".join(f"type {line}\nrun 20000\n" for line in typed)
        self.assertEqual(self.play(script.encode())[0].decode().split("\r\n"), (MORE.upper() + "# ").split("\n"))

    def test_modes_of_the_terminal(self):
        """Small letters, another key that erases, and none is shown; then all as before."""
        typed = ["stty -lcase erase %", "echo Ab#%%c", "stty", "stty -echo", "echo x", "stty echo lcase erase #", "echo Y#z"]
        script = "run 10000\n" + "".join(f"type {line}\nrun 20000\n" for line in typed)
        shown = ("# STTY -LCASE ERASE %\n# echo Ab#%%c\nAc\n# stty\nerase = '%'; kill = '@'\n-tabs -lcase echo -nl -raw \n"
                 "# stty -echo\n# x\n# # ECHO Y#Z\nZ\n# ")
        self.assertEqual(self.play(script.encode())[0].decode().replace("\r\n", "\n"), shown)

    def try_it(self, name, *words):
        """What a command prints, run alone."""
        more = ("--with", os.path.join(SHELL, "src", "lib.s"), *words[:2], os.path.join(SHELL, "src", name + ".s"),
                *words[2:])
        status, out, error = self.ran(try_main, "--v6", V6, *more, typed=b"")
        self.assertEqual((status, error), (0, ""))
        return out.decode()

    def test_ed(self):
        """Each command and each form of an address; what is typed stands before what ed must answer."""
        told, typed = "", ""
        for lines, answer in EDITED:
            typed += lines
            told += answer
        words = ("--final", self.path("final"), "--with", os.path.join(SHELL, "src", "lib.s"), os.path.join(SHELL, "src", "ed.s"))
        self.assertEqual(self.ran(try_main, "--v6", V6, *words, typed=typed.encode()), (0, told.encode(), ""))
        self.assertEqual(self.call(disk_main, "--v6", V6, "cat", self.path("final"), "/f"), (0, "zEro\nthrEe\nlast\n", ""))

    def test_ps(self):
        """Of the processes the command sees itself: under try.py it is number 2, of user 0."""
        self.assertEqual(self.try_it("ps", "--slots", "5000", "-a", "x"), "  pid  uid command\n    2    0 ps -a x\n")

    def test_dates(self):
        """Of times that others tell: the last second of February and the first of a leap day, the end of a year, and 1975."""
        empty, image = self.path("empty"), self.path("image")
        os.mkdir(empty)
        for time, shown in ((68169599, "Mon Feb 28 23:59:59 GMT 1972"), (68169600, "Tue Feb 29 00:00:00 GMT 1972"),
                            (94694399, "Sun Dec 31 23:59:59 GMT 1972"), (169171203, "Tue May 13 00:00:03 GMT 1975"),
                            (4102444799, "Thu Dec 31 23:59:59 GMT 2099")):
            self.assertEqual(self.call(disk_main, "--v6", V6, "new", "--replace", "--short", "--time", str(time), image,
                                       empty)[0], 0)
            self.assertEqual(self.try_it("date", "--disk", image), shown + "\n")

    def test_a_large_file(self):
        """Beyond what a word counts: 70,400 bytes in 1,000 lines of two words, and each of their words by its place."""
        data = b"".join(b"%05d %s\n" % (n, bytes(97 + (n + k) % 26 for k in range(63))) for n in range(1000))
        data += bytes(400)
        file = self.put("large", data)
        self.assertEqual(self.try_it("wc", "--file", file, "large"), "   1000   2000  70400 large\n")
        rows = [" ".join(f"{int.from_bytes(data[n : n + 2], 'little'):06o}" for n in range(at, at + 16, 2))
                for at in range(0, len(data), 16)]
        wanted = [f"{16 * n:07o} {row}\n" for n, row in enumerate(rows[:4376])] + ["*\n", f"{len(data):07o}\n"]
        self.assertEqual(self.try_it("od", "--file", file, "large"), "".join(wanted))

    def test_a_long_line(self):
        """The shell takes lines of 254 bytes, as many as the terminal gives; so a longer one comes from a file."""
        half = "byte 170\n" * 150 + "byte 004\nrun 9000\n"
        script = f"run 9000\ntype cat >f\nrun 9000\n{half}{half}type\nrun 9000\nbyte 004\nrun 9000\ntype sh <f\nrun 20000\n"
        shown = f"# CAT >F\n{'X' * 300}\n# SH <F\n# COMMAND LINE OVERFLOW\n# # "
        self.assertEqual(self.play(script.encode())[0].decode().replace("\r\n", "\n"), shown)
