"""The assembler and the disassembler. Words are those of the PDP-11/40 Processor Handbook, written by hand."""
import os
import struct
import subprocess
import sys
from unittest import mock

from tests.common import TOOLS, Case, read, tool, words
from tests.pages import Runs

from v6.pdp11 import disassembler
from v6.pdp11.assembler import Assembler

as_main = tool("as").main

HI = """
	sys	open; tty; 1
	sys	write; text; 3
	mov	$0,r0
	sys	exit
tty:	</dev/tty8\\0>
text:	<hi\\n\\0>
"""
HI_WORDS = """
000407 000040 0 0 0 0 0 0
104405 000022 000001 104404 000034 000003 012700 000000
104401 062057 073145 072057 074564 000070 064550 000012
"""
INIT = """
/ the first program of the disks that `v6 make` writes
	sys	open; tty; 2
	mov	$3,r4
1:	sys	fork
	br	child
	sob	r4,1b
	mov	$3,r4
1:	sys	wait
	add	r1,r3
	sob	r4,1b
	swab	r3
	add	$'0,r3
	movb	r3,*$digit
	clr	r0
	sys	write; sum; 6
loop:	clr	r0
	sys	write; prompt; 2
	clr	r0
	sys	read; buffer; 100.
	tst	r0
	beq	done
	mov	r0,*$0f
	clr	r0
	sys	write; buffer; 0:0
	br	loop
done:	clr	r0
	sys	exit
child:	mov	$1000.,r5
1:	sob	r5,1b
	mov	r4,r0
	sys	exit
tty:	</dev/tty8\\0>
sum:	<sum >
digit:	<\\0\\n>
prompt:	<% >
	.bss
buffer:	.=.+100.
"""
INIT_WORDS = """
000407 000156 000000 000144 0 0 0 0
104405 000134 000002 012704 000003 104402 000442 077403
012704 000003 104407 060103 077403 000303 062703 000060
110337 000152 005000 104404 000146 000006 005000 104404
000154 000002 005000 104403 000156 000144 005700 001407
010037 000112 005000 104404 000156 000000 000757 005000
104401 012705 001750 077501 010400 104401 062057 073145
072057 074564 000070 072563 020155 005000 020045
"""
LINES = {  # a line, and its words at address 0
    "mov r1,r2": "010102", "mov (r1),*r2": "011112", "mov (r1)+,*(r2)+": "012132", "mov -(r1),*-(r2)": "014152",
    "mov 2(r1),*4(r2)": "016172 2 4", "mov *(r1),(sp)": "017116 0", "mov $12,*$34": "012737 12 34",
    "mov 10,*20": "016777 4 12", "movb $'a,(pc)": "112717 141", "cmp r0,$-1": "020027 177777", "cmpb r0,r1": "120001",
    "bit r0,r1": "030001", "bitb r0,r1": "130001", "bic r0,r1": "040001", "bicb r0,r1": "140001", "bis r0,r1": "050001",
    "bisb r0,r1": "150001", "add r0,r1": "060001", "sub r0,r1": "160001", "clr r5": "005005", "clrb r5": "105005",
    "com r5": "005105", "inc r5": "005205", "decb r5": "105305", "neg r5": "005405", "adc r5": "005505", "sbc r5": "005605",
    "tst (r5)+": "005725", "ror r5": "006005", "rolb r5": "106105", "asr r5": "006205", "asl r5": "006305",
    "swab r5": "000305", "sxt r5": "006705", "mul $3,r2": "070227 3", "div (r4),r2": "071214", "ash r1,r2": "072201",
    "ashc $-1,r2": "073227 177777", "xor r3,(r4)": "074314", "sob r2,.": "077201", "br .": "000777", "bne .+4": "001001",
    "beq .": "001777", "bge .": "002377", "blt .": "002777", "bgt .": "003377", "ble .": "003777", "bpl .": "100377",
    "bmi .": "100777", "bhi .": "101377", "blos .": "101777", "bvc .": "102377", "bvs .": "102777", "bcc .": "103377",
    "bec .": "103377", "bhis .": "103377", "bcs .": "103777", "bes .": "103777", "blo .": "103777", "jmp (r1)": "000111",
    "jmp 100": "000167 74", "jsr pc,*$100": "004737 100", "jsr r5,(r1)": "004511", "rts r5": "000205", "mark 3": "006403",
    "rti": "000002", "rtt": "000006", "wait": "000001", "reset": "000005", "bpt": "000003", "iot": "000004",
    "emt 377": "104377", "sys ptrace; 1; 2; 3": "104432 1 2 3", "sys profil; 1; 2; 3; 4": "104454 1 2 3 4",
    "sys 0": "104400", "sys 377": "104777", "sys indir; 7": "104400 7", "clc": "000241",
    "clc|clv": "000243", "sec|sev|sez|sen": "000277", "nop": "000240", "1; 2 ; 10.": "1 2 12", "-1": "177777",
    "5+3-1": "7", "77&60": "60", "\"ab": "061141", "'\\n": "12", ".byte 1,-1,377": "177401 377",
    "<a/b;\\>\\\\\\t>": "027541 035542 056076 011", "a=3; a+a": "6", "a: b: b": "0", "mov a,r0; a: 1": "016700 0 1",
    "br 1f; 1: br 1b": "000400 000777", "mov r0,r1 / a comment": "010001", "": "", ".byte 1; .even; 2": "1 2",
    ".=.+4; 1": "0 0 1",
    # operators and brackets of as(I)
    "6*[2+3]": "36", "-7\\/2": "177775", "-7%2": "177777", "7%3": "1", "1\\<3": "10", "177777\\>17": "1", "!7": "177770",
    "5!177776": "5", "[1+2]*[3+4]; 5-[2-1]": "25 4", "mov [3*4](r1),r0": "016100 14",
    "a: 0; b=5; b^a; a^b": "0 5 0",
    # jumps: near, and with a condition
    "jbr 1f; 1: jeq 1b; jne 1b; jlo 1b; jec 1b": "000400 001777 001376 103775 103374",
    "mpy r1,r0; dvd r1,r0; als r1,r0; alsc r1,r0": "070001 071001 072001 073001",
    # registers, and programs that stand elsewhere
    "x=r5; mov x,(x)+; rts x": "010525 000205",
    "..=1000; a: mov $a,r0; jmp a; b-a; b: .": "012700 1000 000167 177770 12 1012",
    # conditions
    ".if 1; 5; .endif; 6": "5 6", ".if 0; 5; .endif; 6": "6", "a=2; .if a-2\n{garbage\n.if 1; 4; .endif; 5\n.endif\n6": "6",
    ".if 1\n.if 0\n4\n.endif\n5\n.endif": "5", ".globl a,b; a: 3; b=4": "3",
}
FAULTS = {  # a source, and the fault of its last line
    "mov r0": "the end of the line where ',' is wanted", "mov r0,r1 r2": "'r2' isn't expected here",
    "mov": "the end of the line where a value is wanted", "mov $r0,r1": "'r0' where a value is wanted",
    "rts 5": "'5' where a register is wanted", "xor 5,r0": "'5' where a register is wanted",
    "mov 1(5),r0": "'5' where a register is wanted", "mov 1(a),r0": "'a' where a register is wanted",
    "mov (r0,r1": "',' where ')' is wanted", "rts": "the end of the line where a register is wanted",
    "a: 0\na: 0": "'a' is defined twice", "nosuch": "'nosuch' isn't defined", "r0: 1": "'r0' has a meaning already",
    "clc = 1": "'clc' has a meaning already", "a: 0\na = 1": "'a' has a meaning already",
    "12: 1": "'12': no name for a label",
    "br 1f": "'1f': there is no label 1: that way", "br 1b": "'1b': there is no label 1: that way",
    "9": "'9': no number; one in decimal ends with a point", "200000": "'200000': too large for a word",
    "<abc": "the text has no end: > is missing", "<\\q>": "'\\q': no such escape",
    "<\u00e9>": "'\u00e9': no character of ASCII",
    "{": "'{': no character of a program", ".byte 400": "a number that doesn't fit a byte",
    ".byte 1\nmov r0,r0": "a word at an odd address: .even is wanted before it",
    "br .+402": "the branch is too far: 256 bytes", "br .-400": "the branch is too far: -258 bytes",
    "sob r0,.+4": "the branch is too far: 2 bytes", "sob r0,.-200": "the branch is too far: -130 bytes",
    "br .+3": "a branch to an odd address", "jmp r0": "a register has no address to go to",
    ".bss; 5": "the bss has no bytes of its own: .=.+N takes room", ".=.-2": "'.' can only move on, in its own part",
    "sys 400": "a number above 255", "mark 100": "a number above 63", "a: b: a+b": "addresses can't be put together so",
    "frob r0,r1": "'frob': no instruction", "MOV (r0),r1": "'MOV': no instruction", "mov: 1": "'mov' has a meaning already",
    ".even = 1": "'.even' has a meaning already", "1 = 2": "'=' isn't expected here",
    ".=.+n; n=2": "'.' can't go by a name that stands further on", "mov $x,r0; x=n; n=2": "'x' isn't defined",
    ".if 1": ".if without .endif", ".endif": ".endif without .if",
    ".if n; .endif; n=1": "'.if' can't go by a name that stands further on",
    "5\\/0": "division by 0", "a: 5*a": "addresses can't be put together so", "[5": "the end of the line where ']' is wanted",
    "jbr": "the end of the line where a value is wanted", "jbr nosuch": "'nosuch' isn't defined",
    "jeq = 3": "'jeq' has a meaning already",
    ".comm a": "the end of the line where ',' is wanted", ".globl 5": "'5' where a name is wanted",
    "x=r5; x: 0": "'x' has a meaning already",
    ".=.+1f; 1: 0": "'.' can't go by a name that stands further on", "x=x+1": "'x' isn't defined",
}


class Words(Case):
    def assemble(self, source, shared=False):
        assembler = Assembler()
        return assembler.assemble([("it.s", source)], shared), assembler.errors

    def test_worked_programs(self):
        self.assertEqual(self.assemble(HI), (words(HI_WORDS), []))
        self.assertEqual(self.assemble(INIT), (words(INIT_WORDS), []))

    def test_lines(self):
        for line, wanted in LINES.items():
            with self.subTest(line):
                made, errors = self.assemble(line)
                self.assertEqual(errors, [])
                self.assertEqual(made[16:], words(wanted))

    def test_parts(self):
        source = ".data; a: 5; .bss; b: .=.+3; .text; mov a,b; .data; 6"
        self.assertEqual(self.assemble(source)[0], words("407 6 4 4 0 0 0 0 016767 2 4 5 6"))
        shared = "410 6 4 4 0 0 0 0 016767 017774 017776 5 6"
        self.assertEqual(self.assemble(source, True)[0], words(shared))

    def test_lines_of_the_source(self):
        """The table of symbols has a file's name in pieces of eight bytes, and of each line with words its address."""
        assembler = Assembler()
        sources = [("longer_name.s", "\tclr\tr0\na:\n\tclr\tr1; clr r2\n.data\n1\n.text\n\trts\tpc\n"), ("other.s", "\tnop\n")]
        made = assembler.assemble(sources, False, True, ("longer_name.s",))
        table = [struct.unpack("<8s2H", made[at : at + 12]) for at in range(16 + 12, len(made), 12)]
        self.assertEqual(table, [(b"a".ljust(8, b"\0"), 2, 2), (b"longer_n", 0o37, 0), (b"ame.s\0\0\0", 0o37, 0),
                                 *((struct.pack("<4H", 0, line, 0, 0), 0o36, at) for line, at in ((1, 0), (3, 2), (7, 6), (0, 8)))])

    def test_every_word_that_has_a_name(self):
        named, more, lines, wanted, at = 0, [0o1234, 0o177770], [], [], 0
        for word in range(65536):
            found = disassembler.instruction([word, *more], at)
            if found:
                named, text, count = named + 1, *found
                lines.append(text)
                wanted += [word, *more][:count]
                at += 2 * count
            if at > 65000 or word == 65535:
                made, errors = self.assemble("\n".join(lines))
                self.assertEqual(errors, [])
                self.assertEqual(made[16:], struct.pack(f"<{len(wanted)}H", *wanted))
                lines, wanted, at = [], [], 0
        # all but those that the page of instructions calls none, and 260, which sets no code
        none = 1 + 0o71 + 0o30 + 8 + 64 + 0o200 + 0o1000 + 0o2000 + 0o1400 + 0o10000
        self.assertEqual(named, 65536 - none - 1)

    def test_faults(self):
        for source, fault in FAULTS.items():
            with self.subTest(source):
                count = source.count("\n") + 1
                self.assertEqual(self.assemble(source), (None, [f"it.s:{count}: {fault}"]))

    def test_names_further_on(self):
        """What such a name gives isn't known in the first pass, also through another name; in the second it is."""
        for source, wanted in (("a: mov $b-a,r0; b: 0", "012700 4 0"), ("x=n; mov $x,r0; n=2", "012700 2"),
                               ("a: mov $1f-a,r0; 1: 0", "012700 4 0"), ("a: .byte b-a,7&n; b: n=5", "002402")):
            self.assertEqual((self.assemble(source)[0] or b"")[16:], words(wanted), source)

    def test_jumps(self):
        """A jump is a branch as far as one reaches, on both sides, and no further: by hand, 127 words ahead and 128 after."""
        for gap, wanted in ((127, "000577"), (128, "000167 000400")):
            self.assertEqual(self.assemble(f"jbr 1f; .=.+{2 * gap:o}; 1: 0")[0][16:16 + 2 * len(wanted.split())],
                             words(wanted))
        for gap, wanted in ((127, "001177"), (128, "001402 000167 000400")):
            self.assertEqual(self.assemble(f"jne 1f; .=.+{2 * gap:o}; 1: 0")[0][16:16 + 2 * len(wanted.split())],
                             words(wanted))
        for gap, wanted in ((127, "000600"), (128, "000167 177374")):
            self.assertEqual(self.assemble(f"1: .=.+{2 * gap:o}; jbr 1b")[0][16 + 2 * gap:], words(wanted))
        # one that grows moves the target of another out of reach
        made, errors = self.assemble("jbr a; .=.+374; jbr b; a: .=.+1000; b: 0")
        self.assertEqual((errors, made[16:20], made[20 + 252:24 + 252]), ([], words("000167 000400"), words("000167 001000")))

    def test_common(self):
        """Names that .comm gives room stand in the bss after what else is there; one that has a place keeps it."""
        source = ".comm a,3; .comm b,4; .comm c,2; .globl a; mov $a,r0; mov $b,r0; c: 0; .bss; .=.+2; .comm b,6"
        made, errors = self.assemble(source)
        self.assertEqual(errors, [])
        self.assertEqual(made[:16], words("407 12 0 14 0 0 0 0"))
        self.assertEqual(made[16:], words("012700 14 012700 20 0"))

    def test_symbols(self):
        """The table of a.out(V): eight bytes of a name, a type and a value, after the data."""
        assembler = Assembler()
        made = assembler.assemble([("it.s",
                                    ".globl a,longer_name; x=5; a: 0; b: 0; .data; longer_name: 6; .bss; z: .=.+2")],
                                    False, True)
        table = [(b"x", 0o1, 5), (b"a", 0o42, 0), (b"b", 0o2, 2), (b"longer_n", 0o43, 4), (b"z", 0o4, 6)]
        self.assertEqual(made[:16], words("407 4 2 2 74 0 0 0"))
        self.assertEqual(made[22:], b"".join(struct.pack("<8s2H", *row) for row in table))

    def test_size(self):
        half, fault = ".bss; .=.+100000; .=.+77776; .text; 1", "the program has more than 65536 bytes"
        self.assertEqual(self.assemble(half)[1], [])
        self.assertEqual(self.assemble(half + "; 1"), (None, [fault]))
        self.assertEqual(self.assemble(".bss; .=.+100000; .=.+100000; .=.+1"), (None, ["it.s:1: " + fault]))
        for part in ("text", "data", "bss"):
            source = f".{part}; .=.+100000; .=.+77777"
            self.assertEqual(self.assemble(source), (None, [f"the {part} has more than 65534 bytes"]))
            self.assertEqual(self.assemble(f".{part}; .=.+100000; .=.+77776")[1], [])


class Command(Case):
    def test_files_one_after_the_other(self):
        first, second = self.put("a.s", b"\tjsr\tpc,low\n"), self.put("b.s", b"low:\trts\tpc\n")
        out = self.path("out")
        self.assertEqual(self.call(as_main, "-o", out, first, second), (0, "", ""))
        self.assertEqual(read(out), words("407 6 0 0 0 0 0 0 004767 0 000207"))
        status, text, _ = self.call(as_main, "--disassemble", out)
        again, out2 = self.put("c.s", text.encode()), self.path("out2")
        self.assertEqual(self.call(as_main, "-o", out2, again), (0, "", ""))
        self.assertEqual(read(out2), read(out))

    def test_listing(self):
        source = self.put("a.s", b"a:\tmov\t$5,r0\n\t.data\n<abc>\n")
        status, text, _ = self.call(as_main, "-l", "-o", self.path("out"), source)
        self.assertEqual(text, "    0 000000  012700 000005            a:\tmov\t$5,r0\n"
                               "    4 000004                           \t.data\n"
                               "    4 000004  061141 000143            <abc>\n"
                               "    7 000007\n")

    def test_the_source_itself(self):
        source = self.put("x.s", b"\tnop\n")
        wanted = f"as.py: {source}: the source itself, and the program would take its place\n"
        self.assertEqual((self.call(as_main, "-o", source, source), read(source)), ((1, "", wanted), b"\tnop\n"))

    def test_several_programs(self):
        """Each has the name of its file, and what stands after it; one that is wrong leaves the others."""
        os.mkdir(self.path("bin"))
        one, two, bad = (self.put(f"{name}.s", text) for name, text in (("one", b"\tjsr\tpc,f\n"), ("two", b"\tbr\tf\n"), ("bad", b"\tmov\tr0\n")))
        behind = [word for name, text in (("f", b"f:\tmov\tx,r0\n"), ("x", b"x:\t5\n")) for word in ("--with", self.put(f"{name}.s", text))]
        status, out, said = self.call(as_main, "--into", self.path("bin"), *behind, one, bad, two)
        self.assertEqual((status, out, sorted(os.listdir(self.path("bin")))), (1, "", ["one", "two"]))
        self.assertEqual(said, f"as.py: {bad}:1: the end of the line where ',' is wanted\n")
        for name, source in (("one", one), ("two", two)):
            self.assertEqual(self.call(as_main, "-o", self.path("alone"), source, *behind[1::2])[0], 0)
            self.assertEqual(read(self.path(f"bin/{name}")), read(self.path("alone")))
        self.assertEqual(self.call(as_main, "-o", self.path("alone"), *behind, two)[0], 0)
        self.assertEqual(read(self.path("bin/two")), read(self.path("alone")))
        kept = self.put("kept", b"\tnop\n")
        self.assertEqual(self.call(as_main, "--into", self.path("none"), kept)[::2], (1, f"as.py: {self.path('none/kept')}: No such file or directory\n"))
        self.assertEqual(self.call(as_main, "--into", self.folder, "-o", "x", one)[0], 2)
        self.assertEqual(self.call(as_main, "--into", self.folder, kept)[::2],
                         (1, f"as.py: {kept}: the source itself, and the program would take its place\n"))

    def test_standard_streams(self):
        source = self.put("x.s", b"\tnop\n")
        made = words("407 2 0 0 0 0 0 0 240")
        for name in ("-", "/dev/stdout"):
            done = subprocess.run([sys.executable, "-S", os.path.join(TOOLS, "as.py"), "-o", name, source], capture_output=True)
            self.assertEqual((done.returncode, done.stdout, done.stderr), (0, made, b""))
        done = subprocess.run([sys.executable, "-S", os.path.join(TOOLS, "as.py"), "-o", "-", "-"], input=b"\tnop\n",
                              capture_output=True)
        self.assertEqual((done.returncode, done.stdout), (0, made))

    def test_a_file_without_an_end(self):
        with mock.patch("v6.host.files.MOST", 1000):
            self.assertEqual(self.call(as_main, "-o", self.path("out"), "/dev/zero"),
                             (1, "", "as.py: /dev/zero: more than 1000 bytes\n"))

    def test_a_closed_pipe(self):
        source = self.put("x.s", b"\tnop\n" * 20000)
        reads, writes = os.pipe()
        os.close(reads)
        done = subprocess.run([sys.executable, "-S", os.path.join(TOOLS, "as.py"), "-l", "-o", self.path("out"), source],
                              stdout=writes,
                              stderr=subprocess.PIPE)
        os.close(writes)
        self.assertEqual((done.returncode, done.stderr), (141, b""))

    def test_listing_with_symbols(self):
        source = self.put("a.s", b"a:\tmov\t$5,r0\nx = 7\n.globl a\n")
        text = self.call(as_main, "-l", "-s", "-o", self.path("out"), source)[1]
        self.assertTrue(text.endswith("\n    7 000007  absolute          x\n    0 000000  text      global  a\n"), text)

    def test_what_is_no_source(self):
        """The first errors are told, and how many there are more."""
        for count, said in (20, ""), (21, "as.py: and 1 more\n"), (350, "as.py: and 330 more\n"):
            name = self.put("it.s", b"a page, and no source\n" * count)
            status, out, error = self.call(as_main, "-o", self.path("it"), name)
            lines = error.removesuffix(said).splitlines()
            self.assertEqual((status, out, [line.split(":")[2] for line in lines]), (1, "", [str(line) for line in range(1, 21)]))
            self.assertTrue(error.endswith(said))

    def test_faults_leave_the_program(self):
        out = self.put("out", b"before")
        bad = self.put("bad.s", b"\tmov\tr0\n\tnop\n\tjmp\tr1\n")
        wanted = (f"as.py: {bad}:1: the end of the line where ',' is wanted\n"
                  f"as.py: {bad}:3: a register has no address to go to\n")
        self.assertEqual(self.call(as_main, "-o", out, bad), (1, "", wanted))
        self.assertEqual(read(out), b"before")
        absent = self.path("absent.s")
        self.assertEqual(self.call(as_main, absent), (1, "", f"as.py: {absent}: No such file or directory\n"))
        good = self.put("good.s", b"\tnop\n")
        self.assertEqual(self.call(as_main, "-o", "", good), (1, "", "as.py: '': Is a directory\n"))
        wanted = f"as.py: {out}: no program of magic 0407 or 0410\n"
        self.assertEqual(self.call(as_main, "--disassemble", out), (1, "", wanted))


class Page(Runs):
    def test_page(self):
        """The commands after a $ on the page: a program is assembled, put on a disk, and run."""
        self.played("tools", "as.md")
