"""try.py: one program as a command. What the programs must show is by hand."""
import os
import unittest

from tests.common import TOP, V6, Case, read, tool
from tests.pages import Runs, broken_links

try_main, as_main, disk_main = tool("try").main, tool("as").main, tool("disk").main
SHELL = os.path.join(TOP, "examples", "shell", "src")
COPY = """
loop:	clr	r0
	sys	read; buffer; 100.
	bes	done
	tst	r0
	beq	done
	add	r0,r4
	mov	r0,0f
	mov	$1,r0
	sys	write; buffer; 0:0
	br	loop
done:	mov	r4,r0
	sys	exit
	.bss
buffer:	.=.+100.
"""


class Try(Case):
    def run_it(self, *words, typed=b""):
        return self.ran(try_main, "--v6", V6, *words, typed=typed)

    def source(self, text):
        return self.put("it.s", text.encode())

    def test_input_and_output(self):
        """Each byte comes as it is, also those that erase, escape and end at a terminal; the status is how many they were. But
        no terminal shows 004."""
        typed = b"a\\#b\\@@\\\\#\tc{|}~\4\\\4\n" + b"x" * 230 + b"\nlast"
        self.assertEqual(self.run_it(self.source(COPY), typed=typed), (len(typed) % 256, typed.replace(b"\4", b""), ""))
        status, _, said = self.run_it(self.source(COPY), typed=b"\177")
        self.assertEqual((status, said), (125, "try.py: the byte 177 of the standard input can't be typed\n"))

    def test_slots(self):
        """A hundred times sob, and three instructions more; and a program that reads a line."""
        self.assertEqual(self.run_it("-t", self.source("\tmov\t$100.,r1\n1:\tsob\tr1,1b\n\tmov\t$3,r0\n\tsys\texit\n")),
                         (3, b"", "try.py: status 3, 103 slots\n"))
        # 2 up to the read that waits; 11, from its going on to the read that waits next; and 6 from there to the exit
        self.assertEqual(self.run_it("-t", self.source(COPY), typed=b"ab\n"), (3, b"ab\n", "try.py: status 3, 19 slots\n"))
        self.assertEqual(self.run_it("-t", self.source("\tsys\texit\n"))[2], "try.py: status 0, 1 slot\n")

    def test_a_program_and_its_arguments(self):
        program = self.path("echo")
        sources = os.path.join(SHELL, "echo.s"), os.path.join(SHELL, "lib.s")
        self.assertEqual(self.call(as_main, "-o", program, *sources), (0, "", ""))
        self.assertEqual(self.run_it(program, "a  b", "-t", "--", ""), (0, b"a  b -t -- \n", ""))
        self.assertEqual(self.run_it("--with", sources[1], sources[0], "x"), (0, b"x\n", ""))

    def test_files(self):
        file, final = self.put("greeting", b"hello\n"), self.path("final")
        words = ("--file", file, "--final", final, "--with", os.path.join(SHELL, "lib.s"), os.path.join(SHELL, "cp.s"))
        self.assertEqual(self.run_it(*words, "greeting", "/tmp/copy"), (0, b"", ""))
        self.assertEqual(self.call(disk_main, "--v6", V6, "cat", final, "/tmp/copy"), (0, "hello\n", ""))
        image = os.path.join(TOP, "examples", "shell", "image")
        before = read(image)
        words = ("--disk", image, "--with", os.path.join(SHELL, "lib.s"), os.path.join(SHELL, "ls.s"), "/usr")
        self.assertEqual(self.run_it(*words), (0, b"sys\n", ""))
        self.assertEqual(read(image), before)

    def test_what_does_not_end(self):
        forks = self.source("\tsys\tbreak; 140000\n1:\tsys\tfork\n2:\tbr\t2b\n\tbr\t1b\n")
        self.assertEqual(self.run_it("--core", "900", forks), (126, b"", "try.py: panic: out of swap space\n"))
        self.assertEqual(self.run_it(self.source("\t0\n")), (132, b"", "try.py: Illegal instruction -- Core dumped\n"))
        self.assertEqual(self.run_it("--slots", "1000", self.source("\tbr\t.\n")),
                         (124, b"", "try.py: it runs on after 1000 slots\n"))

    def test_a_signal(self):
        """How it ended is told in a line; an exit with such a number has none."""
        for source, status, said in (("mov\t1,r0\n", 138, "Bus error -- Core dumped"), ("bpt\n", 133, "Trace/BPT trap -- Core dumped"),
                                     ("clr\t*$140000\n", 139, "Memory fault -- Core dumped")):
            self.assertEqual(self.run_it(self.source("\t" + source)), (status, b"", f"try.py: {said}\n"))
        self.assertEqual(self.run_it(self.source("\tmov\t$138.,r0\n\tsys\texit\n")), (138, b"", ""))

    def test_what_is_refused(self):
        text = self.put("text", b"no program")
        self.assertEqual(self.run_it(text), (125, b"", f"try.py: {text}: it is no program\n"))
        bad = self.source("\tmov\tr0\n")
        self.assertEqual(self.run_it(bad), (125, b"", f"try.py: {bad}:1: the end of the line where ',' is wanted\n"))
        absent = self.path("absent")
        self.assertEqual(self.run_it(absent), (125, b"", f"try.py: {absent}: No such file or directory\n"))
        long = self.path("a.name.of.fifteen")
        self.assertEqual(self.run_it(self.put("a.name.of.fifteen", b""))[2],
                         f"try.py: {long}: the name has 17 bytes, and a directory keeps 14\n")
        self.assertEqual(self.run_it(self.source("\tsys\texit\n"), "x" * 511)[::2],
                         (125, f"try.py: {self.path('it.s')}: its arguments have more than 510 bytes\n"))


ALL_BYTES = """
	clr	r1
	mov	$buffer,r2
1:	movb	r1,(r2)+
	inc	r1
	cmp	r1,$256.
	blo	1b
	mov	$1,r0
	sys	write; buffer; 256.
	mov	$2,r0
	sys	write; told; 5
	mov	$3,r0
	sys	exit
told:	<told\\n>
	.bss
buffer:	.=.+256.
"""
FILLS = """
1:	mov	$1,r0
	sys	write; 0; 8192.
	bec	1b
	mov	$%d.,r0
	sys	exit
	.bss
	.=.+8192.
"""
STOPS = """
	sys	creat; name; 644
	sys	write; name; 4
	mov	$1,r0
	sys	write; name; 4
	sys	break; 140000
1:	sys	fork
2:	br	2b
	br	1b
name:	<file\\0>
"""
GOES = """
	sys	unlink; name
	sys	exit
name:	</here\\0>
"""
# Of 4000 blocks 62 are the super-block's and the inodes', and eight are taken: the root, /etc, /dev, /bin, /tmp, init, the
# program, and the word that tells how it ended. Of the 3930 left, seven indirect blocks lead to 256 each, nine more to the rest,
# and one leads to the nine.
FULL = 512 * (3930 - 7 - 9 - 1)


class Home(Case):
    """What comes home: the output byte for byte, and a folder."""

    run_it, source = Try.run_it, Try.source

    def test_bytes(self):
        """All 256 bytes come home as they were written; a terminal has seven bits. The console goes beside them."""
        it = self.source(ALL_BYTES)
        self.assertEqual(self.run_it("--binary", it), (3, bytes(range(256)), "told\n"))
        self.assertEqual(self.run_it(it)[1], bytes(byte & 0o177 for byte in range(256) if byte & 0o177 != 4) + b"told\n")

    def made(self):
        os.makedirs(self.path("in/sub/deep"))
        for name, data in (("a", b"one\n"), ("sub/b", bytes(range(256))), ("sub/deep/c", b"")):
            self.put("in/" + name, data)
        os.link(self.path("in/a"), self.path("in/sub/a2"))
        os.chmod(self.path("in/sub/b"), 0o755)
        return self.path("in")

    def tree(self, folder):
        """The files below a folder, each with its bytes and whether it can be executed."""
        paths = [os.path.join(at, name) for at, _, names in os.walk(folder) for name in names]
        return {os.path.relpath(path, folder): (read(path), os.stat(path).st_mode & 0o100 > 0) for path in paths}

    def test_folder(self):
        """It is the current directory; its copy has what the program has changed, and the folder itself stays."""
        folder, back = self.made(), self.path("back")
        before = self.tree(folder)
        words = ("--folder", folder, "--back", back, "--with", os.path.join(SHELL, "lib.s"))
        self.assertEqual(self.run_it(*words, os.path.join(SHELL, "mv.s"), "sub/b", "moved"), (0, b"", ""))
        moved = {"moved" if name == "sub/b" else name: found for name, found in before.items()}
        self.assertEqual((self.tree(folder), self.tree(back)), (before, moved))
        self.assertEqual(os.stat(os.path.join(back, "a")).st_ino, os.stat(os.path.join(back, "sub", "a2")).st_ino)
        self.assertTrue(os.path.isdir(os.path.join(back, "sub", "deep")))
        self.assertEqual(self.run_it(*words, os.path.join(SHELL, "echo.s"), "x"),
                         (125, b"", f"try.py: {back}: there already, and a folder is to be made\n"))

    def test_a_folder_that_is_made(self):
        """Without --folder the directory is empty; --final has it too."""
        back, final = self.path("back"), self.path("final")
        source = self.source("\tsys\tcreat; name; 755\n\tmov\t$5,r0\n\tsys\texit\nname:\t<file\\0>\n")
        self.assertEqual(self.run_it("--back", back, "--final", final, source), (5, b"", ""))
        self.assertEqual(self.tree(back), {"file": (b"", True)})
        self.assertEqual(self.call(disk_main, "--v6", V6, "cat", final, "/here/file"), (0, "", ""))

    def test_folders_that_are_refused(self):
        """A line and a status, and nothing is made."""
        source, nowhere, folder = self.source(ALL_BYTES), self.path("nowhere"), self.path("in")
        back = os.path.join(nowhere, "back")
        for words, said in ((("--folder", nowhere), f"{nowhere}: No such file or directory"),
                            (("--folder", source), f"{source}: not a folder"),
                            (("--back", back), f"{back}: No such file or directory")):
            self.assertEqual(self.run_it(*words, source), (125, b"", f"try.py: {said}\n"))
        os.mkdir(folder)
        # 2100000 bytes are 4102 blocks, and 18 indirect ones as above
        for name, size, said in (("a" * 15, 0, f"/here/{'a' * 15}: the name has 15 bytes, and a directory keeps 14"),
                                 ("large", 2**24, f"{folder}/large: 16777216 bytes are too many for a file: at most 16777215"),
                                 ("full", 2100000, "/here/full: no room for 2100000 bytes: they need 4120 blocks, and 3930 are free")):
            with open(self.put("in/" + name, b"x"), "wb") as file:
                file.write(b"x" * size if size < 2**24 else b"")
                file.truncate(size)
            words = ("--folder", folder, "--back", self.path("back"))
            self.assertEqual(self.run_it(*words, source), (125, b"", f"try.py: {said}\n"))
            os.unlink(self.path("in/" + name))
        self.assertEqual(sorted(os.listdir(self.path("."))), ["in", "it.s"])

    def test_a_full_disk(self):
        """All that was written comes home, and a line tells that it may be less than all. The program's own error stays."""
        said = "try.py: the disk is full, so what was written may have been cut\n"
        for status, found in ((0, 125), (7, 7)):
            done = self.run_it("--binary", self.source(FILLS % status))
            self.assertEqual((done[0], len(done[1]), done[2]), (found, FULL, said))

    def test_a_system_that_stops(self):
        back = self.path("back")
        done = self.run_it("--core", "900", "--binary", "--back", back, self.source(STOPS))
        self.assertEqual(done, (126, b"file", "try.py: panic: out of swap space\n"))
        self.assertEqual(self.tree(back), {"file": (b"file", False)})

    def test_a_folder_that_cannot_come_back(self):
        """The disk is kept where it is told, and the output is there."""
        back = self.path("back")
        status, out, said = self.run_it("--back", back, self.source(GOES))
        self.assertEqual((status, out), (125, b""))
        start, _, kept = said.strip().partition("; the disk is in ")
        self.assertTrue(start.startswith(f"try.py: {back}: ") and kept.startswith(back + "."), said)
        self.assertIn(" /bin/it\n", self.call(disk_main, "--v6", V6, "list", kept)[1])


class Page(Runs):
    def test_page(self):
        self.played("tools", "try.md")
        self.assertEqual(broken_links("tools", "try.md"), [])


del Runs  # has no page of its own

if __name__ == "__main__":
    unittest.main()
