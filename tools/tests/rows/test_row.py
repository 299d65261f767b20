"""Rows: their sources make their words, their comments tell the places of the disk, and the tool runs them."""
import functools
import os
import re
import subprocess
import sys
import unittest
import unittest.mock

from tests.common import TOP, Case, read, tool

row_tool = tool("row")
row_main = row_tool.main
from v6.rows import file as rowfile

DATA = rowfile.DATA
ROW = """\
# hi, twice
core 64
over
        10  000003 005000           ; 3; clr r0
disk
       924  05 00 34 12             ; super-block: time
script
    2 times run 10
term
    "H"
    "I\\r\\012"
log
    booted
    trap 1
    ..
"""


def comments(path):
    """The lines of bytes of a disk with their comments: (place, count of bytes, comment)."""
    with open(path, encoding="ascii") as file:
        for line in file:
            found = re.fullmatch(r" +(\d+)  ([0-9a-f]{2}(?: [0-9a-f]{2})*) +; (.*)\n", line)
            if found:
                yield int(found[1]), len(found[2].split()), found[3]


@functools.lru_cache(maxsize=None)
def row_of(name, data=DATA):
    """A row, which all tests read once."""
    return rowfile.Row(name, data)


class All(Case):
    """All rows of the repository."""

    def test_sources_make_their_words(self):
        """Words without a source are zeros."""
        for name in rowfile.names():
            row = row_of(name)
            with self.subTest(name):
                row.check_sources()
                for sources in (*row.sources.values(), *(file[3] for file in row.files())):
                    for at, words, source in sources:
                        self.assertTrue(source or source is None or not any(words), f"at {at:o}")

    def test_places_are_told(self):
        for folder, _, files in os.walk(DATA):
            for file in files:
                for at, count, comment in comments(os.path.join(folder, file)):
                    self.assertEqual(comment, rowfile.place(at, count), f"{file}: {at}")

    def test_list(self):
        """The program's output, which the gate compares, has each row in its order."""
        with open(os.path.join(TOP, "crates", "run_rows", "stdout"), encoding="ascii") as file:
            self.assertEqual(file.read(), "".join(f"ok {name}\n" for name in rowfile.names()))

    def test_every_row_says_what_it_shows(self):
        for name in rowfile.names():
            title, page = row_of(name).remarks[:2]
            self.assertTrue(title and page.startswith("docs/manual/"), name)
            for there in re.findall(r"[\w-]+\.md", page):
                self.assertTrue(os.path.exists(os.path.join(TOP, "docs", "manual", there)), f"{name}: {there}")

    @unittest.mock.patch.object(row_tool, "Row", row_of)
    def test_rows_hold(self):
        """Each row, by the program as it is built and by its own host; the gate runs them over files in memory."""
        names = rowfile.names()
        status, out, error = self.call(row_main, "-q", "*")
        self.assertEqual([line for line in out.split("\n") if line and not line.startswith("ok ")], [])
        self.assertEqual((status, out, error), (0, "".join(f"ok {name}\n" for name in sorted(names)), ""))

    @unittest.mock.patch.object(row_tool, "Row", row_of)
    def test_all_are_listed(self):
        status, out, _ = self.call(row_main)
        self.assertEqual((status, out.count("\n")), (0, len(rowfile.names())))


class Language(Case):
    def row(self, text):
        """The row of a file."""
        os.makedirs(os.path.join(self.folder, "rows", "some"), exist_ok=True)
        self.put(os.path.join("rows", "some", "row"), text.encode())
        return rowfile.Row(os.path.join("some", "row"), self.folder)

    def fault(self, text):
        with self.assertRaises(rowfile.RowError) as caught:
            self.row(text)
        return str(caught.exception)

    def test_a_row(self):
        row = self.row(ROW.replace("    ..\n", ""))
        self.assertEqual((row.script, row.terms[0]), (b"run 10\nrun 10\n", b"HI\r\n"))
        with open(rowfile.HI, "rb") as file:
            base = file.read()
        image = row.image(base)
        wanted = bytearray(base)
        wanted[rowfile.TEXT + 8 : rowfile.TEXT + 12] = b"\3\0\0\n"
        wanted[924:928] = b"\5\0\x34\x12"
        self.assertEqual(image, bytes(wanted))
        log = b"boot 64 332340\nsleep 0 -100 runout\ngo 1\nbare 1\nimage 1 37 at 1\ntrap 1\ngo 1\ntrap 1\n"
        self.assertEqual(row.wanted_log(image), log)
        self.assertEqual(row.command(), "run image 64 script term log final")

    def test_lines_and_a_second_disk(self):
        """Each terminal has a section; what stands after `second` tells of that disk, and not of the first."""
        text = 'made 3\nterm\n    "a"\nterm 7\n    "b"\n    2 times "c"\naudit lawful: 2 lines\ncheck ok\nleft\n    5  01\n'
        row = self.row(text + "second\nsize 40000\nfile 9 67\n    header 1 2 3 4 5 6 7 10\ndisk\n    1040  ff\nleft all\ncheck no\n")
        self.assertEqual((row.terms[0], row.terms[6], row.terms[7], row.lines["audit"]), (b"a", b"", b"bcc", b"lawful: 2 lines\n"))
        self.assertEqual([(d.numbers, d.left, d.left_all, d.check) for d in row.disks()],
                         [({"size": None, "made": 3}, [(5, b"\1")], False, b"ok\n"),
                          ({"size": 40000, "made": None}, None, True, b"no\n")])
        image, wanted = row.second.image(bytes(39999)), bytearray(40000)
        wanted[1040] = 255
        wanted[1286:1288], wanted[67 * 512 : 67 * 512 + 16] = b"\x10\0", b"\1\0\2\0\3\0\4\0\5\0\6\0\7\0\10\0"
        self.assertEqual(image, bytes(wanted))
        self.assertEqual(row.second.wanted(image), bytes(wanted).ljust(rowfile.DISK_BYTES, b"\0"))

    def test_faults(self):
        for text, wanted in ((ROW, "15: .. is the first line of a log"), ("init\n    2  0\n", "2: the address is 0, and not 2"),
                             ("nothing\n", "1: nothing: no such line"), ("term 8\n", "1: term 8: no such line"),
                             ("second\nsecond\n", "2: second: no such line"), ("  run 5\n", "1: a line of no section"),
                             ('term\n  "a\n', '2: "a: the text has no end'), ('term\n  "\\q"\n', '2: "\\q": \\q: no such escape'),
                             ('term\n  "\\08"\n', '2: "\\08": \\0: no such escape'), ("told 8\n", "1: 8: octal words are wanted"),
                             ("disk\n    5  1\n", "2: 1: bytes in hexadecimal are wanted"),
                             ("file 8 67\n  header 407\n", "2: a header has eight words, and stands first")):
            with self.subTest(text):
                self.assertEqual(self.fault(text), f"rows/some/row:{wanted}")


class Command(Case):
    def test_a_closed_pipe(self):
        """A reader that goes ends the list without a word."""
        out, into = os.pipe()
        os.close(out)
        with os.fdopen(into, "wb") as file:
            command = [sys.executable, os.path.join(TOP, "tools", "row.py")]
            done = subprocess.run(command, stdout=file, stderr=subprocess.PIPE)
        self.assertEqual((done.returncode, done.stderr), (141, b""))

    def test_shown(self):
        status, out, error = self.call(row_main, "a_child_is_told_of_once", "wait_a_child_is_told_of_once")
        self.assertEqual((status, out, error), (1, "", "row.py: a_child_is_told_of_once: no such row\n"))
        status, out, error = self.call(row_main, "wait_a_child_is_told_of_once")
        self.assertEqual((status, error), (0, ""))
        for line in ("# wait: a child is told of once", "      32  104402                  ; sys fork",
                     "      42  010037 000014           ; mov r0,*$14", '    "run 60\\n"', '    "\\r\\n"', "ok calls/wait_a_child_is_told_of_once"):
            self.assertIn(line, out.split("\n"))

    def test_rows_that_cannot_be_read(self):
        """Each is told in a line, and the others are listed and run."""
        os.makedirs(self.path("rows/some"))
        self.put("rows/some/good", b"# good\ncore 63\nstatus 4\nreport core size\n")
        self.put("rows/some/odd", "# one\n# Ä\ncore 63\n".encode())
        self.put("rows/some/other", b"# word\ninit\n    0  010001  ; mov r0,r1\n    2  010002  ; mov r0,r1\nscript\n    run 5\n")
        self.put("rows/some/place", b"# place\ndisk\n    924  05  ; super-block: nfree\nscript\n    run 5\n")
        odd = "row.py: rows/some/odd:2: the byte 303 isn't ASCII\n"
        place = "row.py: rows/some/place:3: 'super-block: nfree': what stands at 924 is 'super-block: time'\n"
        self.assertEqual(self.call(row_main, "--data", self.folder), (1, "some/good: good\nsome/other: word\n", odd + place))
        word = "row.py: some/other: init, 2: 'mov r0,r1' is 010001, and 010002 stands there\n"
        self.assertEqual(self.call(row_main, "--data", self.folder, "-q", "*"), (1, "ok some/good\n", odd + word + place))

    def test_a_new_row(self):
        """Its program has the words of the source and the sources beside them, and texts; it says what is left to be said."""
        source = self.put("it.s", b"start:\tmov\t$name,r0\t/ a name\n\tsys\tdup; sys exit\n\n\t.data\nname:\t</a\\0>\n\t.even\n\t5\n")
        words = ("--data", self.folder, "new", "some/row_of_mine", "--from", source, "--page", "names.md", "--slots", "7")
        path = self.path("rows/some/row_of_mine")
        to_say = ("{}: say there what it must come to, by hand; then row.py --data " + self.folder + " {}\n").format
        self.assertEqual(self.call(row_main, *words), (0, "some: a new family\n" + to_say(path, "some/row_of_mine"), ""))
        text = read(path).decode()
        self.assertEqual(text.split("\n")[:2], ["# row of mine", "# docs/manual/names.md"])
        self.assertEqual(text.partition("made 0\n")[2], """\
init
         0  012700 000010              ; mov $10,r0
         4  104451                     ; sys dup
         6  104401                     ; sys exit
        10  "/a\\000"
        13  "\\000"
        14  000005                     ; 5
script
    run 7
""")
        self.assertEqual(self.call(row_main, *words)[::2], (1, f"row.py: {path}: there already\n"))
        again = self.call(row_main, *(word.replace("of_mine", "of_yours") for word in words))
        self.assertEqual(again, (0, to_say(self.path("rows/some/row_of_yours"), "some/row_of_yours"), ""))

    def test_a_new_row_is_not_ok(self):
        """Not before its author has said what it must come to, though the program ends with status 0 and shows nothing."""
        source, own = self.put("it.s", b"\tsys\texit\n"), ("--data", self.folder)
        self.assertEqual(self.call(row_main, *own, "new", "some/one", "--from", source)[0], 0)
        unsaid = "some/one: it doesn't say yet what is to be seen, and what it must come to\n"
        self.assertEqual(self.call(row_main, *own, "-q", "some/one"), (1, unsaid, ""))
        self.assertTrue(self.call(row_main, *own, "some/one")[1].endswith(unsaid))
        lines = read(self.path("rows/some/one")).decode().splitlines(True)
        said = [*lines[:2], "# It ends at once.\n", *lines[4:], "status 0\n"]
        self.put("rows/some/one", "".join(said).encode())
        self.assertEqual(self.call(row_main, *own, "-q", "some/one"), (0, "ok some/one\n", ""))

    def test_another_folder(self):
        os.makedirs(self.path("rows/fuzz"))
        self.put("rows/fuzz/seed_1", b'# one\n# docs/manual/commands.md\nscript\n    run 20\nterm\n    "HI\\r\\n"\n')
        self.put("rows/fuzz/seed_2", b"# two\n# docs/manual/commands.md\ncore 63\nstatus 4\nreport core size\n")
        self.assertEqual(self.call(row_main, "--data", self.folder), (0, "fuzz/seed_1: one\nfuzz/seed_2: two\n", ""))
        wanted = 0, "ok fuzz/seed_1\nok fuzz/seed_2\n", ""
        self.assertEqual(self.call(row_main, "--data", self.folder, "-q", "fuzz/*"), wanted)

    def test_a_row_that_does_not_hold(self):
        image = rowfile.Row("programs/hi_over_memory")
        image.terms[0] = b"HO\r\n"
        runner = row_tool.Runner(row_tool.V6, self.folder)
        found = row_tool.differences(image, *runner.run(image))
        self.assertEqual(found, [("term", b"HO\r\n", b"HI\r\n")])
