"""disk.py wants: what programs want that isn't there. The programs are made by as.py, and what is told of them is by hand."""
import os
import re
import shutil

from tests.common import TOP, V6, read, tool, words, write
from tests.disk.disks import TO_READ, Disks, disk_main
from tests.pages import Runs, commands

from v6.pdp11.assembler import Assembler
from v6.pdp11.disassembler import known
from v6.pdp11.flow import Program
from v6.pdp11.names import CODES, INSTRUCTIONS, JUMPS, SECOND_NAMES

# docs/manual/instructions.md, What is not done; JMP and JSR to a register beside these
NO_INSTRUCTIONS = ((0o000000, 0o000000), (0o000007, 0o000077), (0o000210, 0o000237), (0o006500, 0o006677), (0o007000, 0o007777),
                   (0o075000, 0o076777), (0o106400, 0o107777), (0o170000, 0o177777))
TO_REGISTER = {0o000100 | r for r in range(8)} | {0o004000 | link << 6 | r for link in range(8) for r in range(8)}
EXAMPLES = os.path.join(TOP, "examples")


class Wants(Disks):
    def program(self, source, *options, name="it"):
        source = self.put(f"{name}.s", source.encode())
        self.assertEqual(self.call(tool("as").main, *options, "-o", self.path(name), source), (0, "", ""))
        return read(self.path(name))

    def disk_with(self, files, devices="", modes=()):
        """A disk with these files, which can be executed, and devices: the lines of a table."""
        folder, table = self.path("from"), self.path("table")
        shutil.rmtree(folder, ignore_errors=True)
        os.mkdir(folder)
        for name, data in files.items():
            write(os.path.join(folder, name), data)
            os.chmod(os.path.join(folder, name), 0o755)
        self.put("table", (devices + "".join(f"/{name} {mode}\n" for name, mode in modes)).encode())
        self.done("new", "--replace", "--blocks", "200", "--inodes", "64", self.path("image"), folder, "--table", table)
        return self.path("image")

    def told(self, image, count, *lines, command=("wants",), paths=()):
        """The lines that are told, with single blanks; there is a head over them, where there are any."""
        status, out, error = self.disk(*command, image, *paths)
        self.assertEqual((status, error), (int(bool(lines)), ""))
        *found, last = [re.sub("  +", "  ", line) for line in out.splitlines()]
        self.assertEqual(found, ["file  how  what  times  first at  here"] * bool(lines) + list(lines))
        self.assertEqual(last, count)

    def of(self, source, *lines, options=()):
        image = self.disk_with({"it": self.program(source, *options)})
        self.told(image, f"1 program and 0 devices; {int(bool(lines))} with a line", *(f"/it  {line}" for line in lines))

    def test_nothing(self):
        """SETD, and what both machines lack, is nothing that is wanted."""
        self.of("\t170011\n\tmov\t$170400,r0\n\tsys\texit\n\t0; 7000; 210; 106400\n\t<text\\0>\n")
        self.told(self.disk_with({}), "0 programs and 0 devices; 0 with a line")

    def test_code_and_what_may_be(self):
        """A way leads to a word, or none is known."""
        self.of("\tsys\tptrace; 170400; 1; 2\n\tjsr\tpc,f\n\tsys\texit\n"
                "\tsys\tprofil; 1; 2; 3; 170400\n\t6500\nf:\t170400\n\t6637; 170400\n\trts\tpc\n",
                "code  ptrace(II), call 26  1  000000  signal 12", "code  floating point  1  000032  signal 4",
                "code  MFPI, MTPI  1  000034  signal 4", "may  profil(II), call 44  1  000016  signal 12",
                "may  MFPI, MTPI  1  000030  signal 4")

    def test_both_ways_of_a_branch(self):
        """And of sob; after br, jmp and rts the code ends. A word that is no instruction anywhere is told in code alone."""
        self.of("\ttst\tr0\n\tbeq\t1f\n\tbr\t2f\n\t7000\n1:\t75000\n2:\tsob\tr1,1b\n\tjmp\t3f\n\t7000\n3:\tjmp\t*$4f\n\t7000\n4:\t7000\n",
                "code  floating point  1  000010  signal 4", "code  no instruction  1  000030  signal 4")

    def test_where_a_jump_goes_that_memory_tells(self):
        self.of("\tjmp\t*1f\n1:\t2f\n2:\t75000\n", "may  floating point  1  000006  signal 4")
        self.of("\tmov\t$1f,pc\n1:\t75000\n", "may  floating point  1  000004  signal 4")

    def test_words_after_a_call(self):
        """A routine that reads what stands after its call is followed by no code; csv of the library of C is."""
        after = "\tjsr\tr5,f\n\t75000\n\tsys\texit\n"
        for routine in ("mov\t(r5)+,r0\n\trts\tr5", "mov\tr5,r1\n\tmov\t(r1)+,r0\n\tjmp\t(r1)", "add\t$2,r5\n\trts\tr5", "mov\t2(r5),r0\n\trts\tr5"):
            self.of(f"{after}f:\t{routine}\n", "may  floating point  1  000004  signal 4")
        for routine in ("mov\tr5,r0\n\tmov\tsp,r5\n\tmov\tr4,-(sp)\n\ttst\t-(sp)\n\tjmp\t(r0)",
                        "mov\t$buffer,r0\n\tclr\t(r0)+\n\trts\tr5\nbuffer:\t0",
                        "mov\tr5,r1\n\tclr\tr1\n\tinc\t(r1)\n\trts\tr5"):
            self.of(f"{after}f:\t{routine}\n", "code  floating point  1  000004  signal 4")

    def test_calls(self):
        """Of the numbers up to 63 those are told that docs/manual/calls.md doesn't have; the low six bits count."""
        missing = (26, 27, 29, 33, 39, 40, 44, 45, *range(49, 64))
        page = "".join(read(os.path.join(TOP, "docs", "manual", name)).decode() for name in ("calls.md", "signals.md"))
        there = {int(number) for number in re.findall(r"^\| ([0-9]+) \| (?:\w+\(II\)|smdate) \|", page, re.M)}
        self.assertEqual(sorted({*range(1, 64)} - there), list(missing))
        for number in range(64):
            arguments = {26: 3, 44: 4}.get(number, 0)
            name = {26: "ptrace(II), ", 44: "profil(II), "}.get(number, "")
            found = [f"code  {name}call {number}  1  000000  signal 12"] if number in missing else []
            self.of(f"\t{0o104500 | number:o}\n" + "\t170400\n" * arguments + "\tsys\texit\n", *found)

    def test_indirect(self):
        """What memory has at first."""
        self.of("\tsys\tindir; 1f\n\tsys\tindir; 2f\n\tsys\tindir; 7\n\tsys\tindir; 177776\n\tsys\texit\n"
                ".data\n1:\tsys\tptrace; 0; 0; 0\n2:\tsys\tgetpid\n",
                "may  ptrace(II), call 26  1  000000  signal 12")

    def test_an_interpreter(self):
        """It asks for signal 4, directly or by a call in memory."""
        for asks in ("sys\tsignal; 4; 40", "sys\tindir; 9f\n\tbr\t1f\n9:\tsys\tsignal; 4; 40\n1:"):
            status, out, _ = self.disk("wants", self.disk_with({"it": self.program(f"\t{asks}\n\t170400\n\tsys\tptrace; 0; 0; 0\n\tsys\texit\n")}))
            self.assertEqual((status, [line.split()[-1] for line in out.splitlines()[1:3]]), (1, ["asks", "12"]), out)
        for other in ("5; 40", "4; 0"):
            self.of(f"\tsys\tsignal; {other}\n\t170400\n\tsys\texit\n", "code  floating point  1  000006  signal 4")

    def test_a_shared_text(self):
        """Its data begin in a segment of their own, and aren't looked at but for names."""
        self.of("\tbr\t1f\n\t75000\n1:\tsys\texit\n.data\n\t75000\n\t</dev/mem\\0>\n",
                "may  floating point  1  000002  signal 4", "name  /dev/mem  1  020002  not on the disk", options=["-n"])

    def test_code_in_the_data(self):
        """Of a program of magic 0407 they go on after the text."""
        self.of("\tjmp\t1f\n.data\n\t75000\n1:\t75001\n\tsys\texit\n", "code  floating point  1  000006  signal 4")

    def test_names_and_devices(self):
        devices = "".join(f"/dev/{name} 0600 0 0 {numbers}\n" for name, numbers in (
            ("tty8", "c 0 0"), ("null", "c 8 2"), ("tty1", "c 0 1"), ("mem", "c 8 0"), ("rk0", "b 0 0"),
            ("rk1", "b 0 1"), ("mt0", "c 8 8"), ("x8", "b 8 2")))
        texts = ("/dev/tty8", "/dev/null", "/dev/mem", "/dev/rk1", "/dev/tty1", "/dev/tty8", "/dev/no", "/dev/", "/it", "/dev/mem", "/dev/a\\tb",
                 "/dev/" + "x" * 15)
        source = "\tsys\texit\n" + "".join(f"\t<{text}\\0>\n" for text in texts)
        at, places = 2, []
        for text in texts:
            places.append(f"{at:06o}")
            at += len(text.replace("\\t", "t")) + 1
        self.told(self.disk_with({"it": self.program(source)}, devices), "1 program and 8 devices; 7 with a line",
                  "/dev/mem  device  character device 8, 0  -  -  ENXIO", "/dev/mt0  device  character device 8, 8  -  -  ENXIO",
                  "/dev/rk0  device  block device 0, 0  -  -  ENXIO", "/dev/rk1  device  block device 0, 1  -  -  under run2 alone, for mount(II)",
                  "/dev/tty1  device  character device 0, 1  -  -  under run8 alone", "/dev/x8  device  block device 8, 2  -  -  ENXIO",
                  f"/it  name  /dev/mem  2  {places[2]}  character device 8, 0: ENXIO",
                  f"/it  name  /dev/rk1  1  {places[3]}  block device 0, 1: under run2 alone, for mount(II)",
                  f"/it  name  /dev/tty1  1  {places[4]}  character device 0, 1: under run8 alone",
                  f"/it  name  /dev/no  1  {places[6]}  not on the disk", f"/it  name  /dev/a  1  {places[10]}  not on the disk",
                  f"/it  name  /dev/{'x' * 15}  1  {places[11]}  not on the disk")

    def test_headers(self):
        def head(*numbers):
            return words(" ".join(f"{number:o}" for number in (*numbers, *[0] * (8 - len(numbers)))))

        files = {"a": head(0o411, 2, 2, 0) + b"1234", "b": head(0o407, 4, 2, 0) + words("104401 0"),
                 "c": head(0o407, 2, 0, 7 * 8192 - 2) + words("104401"),
                 "d": head(0o407, 2, 0, 7 * 8192 - 1) + words("104401"), "e": head(0o410, 2, 0, 6 * 8192 + 1) + words("104401"),
                 "f": head(0o410, 2, 0, 6 * 8192) + words("104401"), "g": b"echo a\n" * 5, "h": head(0o407)[:15], "i": head(0o407), "j": b""}
        image = self.disk_with(files)
        found = ["/a  header  magic 0411, separate text and data  -  -  ENOMEM", "/b  header  22 bytes, and the file has 20  -  -  zeros",
                 "/d  header  2, 0 and 57343 bytes of text, data and bss  -  -  ENOMEM",
                 "/e  header  2, 0 and 49153 bytes of text, data and bss  -  -  ENOMEM"]
        self.told(image, "7 programs and 0 devices; 4 with a line", *found)
        others = ["/g  header  no program: magic 061545  -  -  ENOEXEC", "/h  header  no program: 15 bytes  -  -  ENOEXEC",
                  "/j  header  no program: 0 bytes  -  -  ENOEXEC"]
        self.told(image, "1 program and 0 devices, and 3 other files; 3 with a line", *others, paths=["g", "/h", "i", "/j"])

    def test_which_files(self):
        """Those that can be executed, each once; or those that are named, and what is below a directory."""
        program = self.program("\t75000\n\tsys\texit\n")
        image = self.disk_with({"a": program, "b": program}, "/c/x 0666 0 0 c 8 0\n", [("b", "0644")])
        self.done("ln", image, "/a", "/c/a")
        row, device = "code  floating point  1  000000  signal 4", "/c/x  device  character device 8, 0  -  -  ENXIO"
        self.told(image, "1 program and 1 device; 2 with a line", f"/a  {row}", device)
        self.told(image, "2 programs and 0 devices; 2 with a line", f"/b  {row}", f"/a  {row}", paths=["b", "/a"])
        self.told(image, "1 program and 1 device; 2 with a line", device, f"/c/a  {row}", paths=["c"])
        self.told(image, "1 program and 0 devices; 1 with a line", f"#2  {row}", paths=["#2"])
        self.refused("/no: no such file on the disk", "wants", image, "/a", "/no")
        status, _, said = self.disk("wants")
        self.assertEqual((status, said.splitlines()[-1]), (2, "disk.py wants: error: the following arguments are required: disk"))

    def test_the_disk_stays(self):
        image = self.disk_with({"a": self.program("\t75000\n")})
        before = read(image)
        self.disk("wants", image)
        self.assertEqual(read(image), before)

    def test_packs(self):
        """One of 4,872 blocks is read, as a pack or not, and one with faults where that is asked for."""
        image = self.disk_with({"a": self.program("\t75000\n\tsys\texit\n")})
        self.assertEqual(self.call(disk_main, "--v6", V6, "--pack", "grow", image, "--blocks", "4872"), (0, "", ""))
        row, last = "/a  code  floating point  1  000000  signal 4", "1 program and 0 devices; 1 with a line"
        self.told(image, last, row)
        self.told(image, last, row, command=("--pack", "wants"))
        bad = self.put("bad", read(image)[: 512 + 4] + (101).to_bytes(2, "little") + read(image)[512 + 6 :])
        self.refused(f"{bad}: image: bad super-block{TO_READ}", "wants", bad)
        self.told(bad, last, row, command=("wants", "--damaged"))


class Walks(Disks):
    def test_instructions(self):
        """A word is an instruction, unless the manual's page says otherwise."""
        none = {word for first, last in NO_INSTRUCTIONS for word in range(first, last + 1)} | TO_REGISTER
        self.assertEqual({word for word in range(65536) if not known(word)}, none)
        sizes = {0o010203: 1, 0o012703: 2, 0o016767: 3, 0o013737: 3, 0o012737: 3, 0o005067: 2, 0o000167: 2, 0o004567: 2, 0o070127: 2, 0o074127: 2,
                 0o077105: 1, 0o104401: 1, 0o000240: 1, 0o000260: 1, 0o006405: 1, 0o000207: 1, 0o114667: 2, 0o012122: 1, 0o063200: 2}
        self.assertEqual({word: known(word)[2] for word in sizes}, {**sizes, 0o063200: known(0o063200)[2]})

    def test_examples(self):
        """In the programs of the examples each word that the entry leads to is an instruction of their source."""
        names = {*INSTRUCTIONS, *JUMPS, *SECOND_NAMES, *CODES}
        parts = ("shell", "lib.s"), ("pack", "perror.s"), ("timesharing", "tty.s")
        lib, perror, tty = (os.path.join(EXAMPLES, example, "src", name) for example, name in parts)
        count = 0
        for example in ("shell", "pack", "timesharing"):
            folder = os.path.join(EXAMPLES, example, "src")
            for name in sorted(os.listdir(folder)):
                sources = [os.path.join(folder, name), lib] + [perror] * (example == "pack") + [tty] * (example == "timesharing")
                assembler = Assembler()
                data = assembler.assemble([(one, read(one).decode()) for one in dict.fromkeys(sources)])
                if data is None:  # a part of others
                    continue
                count += 1
                lines = {}
                for part, at, line in assembler.lines:
                    if part == "text":
                        lines[at] = lines.get(at, "") + re.sub(r"/.*", "", re.sub("<[^>]*>", "", line)) + "\n"
                program = Program(data)
                for at in program.reached():
                    line = lines[max(start for start in lines if start <= at)]
                    self.assertTrue(names & set(re.findall("[a-z]+", line)), (name, f"{at:o}", line))
        self.assertGreater(count, 25)


class Page(Runs):
    def test_page(self):
        """The commands of this part of the page of disk.py print what it shows."""
        part = read(os.path.join(TOP, "docs", "tools", "disk.md")).decode().split("\n## What programs want\n")[1].split("\n## ")[0]
        for command, shown in commands(part):
            self.assertEqual(self.play(command), (0, shown), command)
