"""cc.py, its library, and the programs of examples/c. What the programs must print is by hand, or as Python reckons it."""
import os
import random
import shutil
import subprocess
import unittest

from tests.pdp11 import expressions
from tests.common import TOOLS, TOP, V6, Case, read, tool, v6
from v6.page.lesson import commands
from tests.pages import Runs

from v6.debug import symbols
from v6.pdp11 import compiler

cc, disk_main, try_main = tool("cc"), tool("disk").main, tool("try").main
EXAMPLE = os.path.join(TOP, "examples", "c")
HERE = os.path.isfile(os.path.join(cc.HOME, "ccom"))
WITH_GCC = os.path.isfile(os.path.join(cc.HOME, "cc1"))
wants_gcc = unittest.skipUnless(WITH_GCC, f"no GCC in {cc.HOME}: tools/c/build-gcc.sh makes it")
wants_compiler = unittest.skipUnless(HERE, f"no compiler of C in {cc.HOME}: tools/c/build.sh makes it")
MAIN = "\t.globl\t_main\n_main:\n"
WORD = 0xFFFF


class Program(Case):
    options = ()

    def run_it(self, *words, typed=b""):
        """The status of a program under try.py, what it prints, and what try.py says."""
        status, out, error = self.ran(try_main, "--v6", V6, *words, typed=typed)
        return status, out.decode("latin-1"), error

    def made(self, source, name="it.c", *options):
        """The program of a source."""
        words = (*self.options, *options, "-o", self.path("it"), self.put(name, source.encode()))
        self.assertEqual(self.call(cc.main, *words), (0, "", ""))
        return self.path("it")


class WithoutCompiler(Program):
    """The start of a program and the routines in assembly need no compiler."""

    def assembled(self, source):
        return self.made(source, "it.s", "--compiler", self.folder)

    def test_refused(self):
        source = self.put("it.c", b"int main(void) { return 0; }\n")
        for words, wanted in (
                (("--gcc", source), f"{self.folder}/cc1: no compiler there; tools/c/build-gcc.sh makes it, and --compiler names "
                                    "its folder"),
                ((source,), f"{self.folder}/cpp: no compiler there; tools/c/build.sh makes it, and --compiler names its folder"),
                (("-o", source, source), f"{source}: the source itself, and the program would take its place"),
                ((self.path("it.o"),), f"{self.path('it.o')}: neither a source in C, NAME.c, nor one in assembly, NAME.s"),
                ((self.path("no.c"),), f"{self.path('no.c')}: No such file or directory"),
                ((self.path("no.s"),), f"{self.path('no.s')}: No such file or directory")):
            self.assertEqual(self.call(cc.main, "--compiler", self.folder, "-o", self.path("it"), *words),
                             (1, "", f"cc.py: {wanted}\n"))
        self.assertEqual(os.listdir(self.folder), ["it.c"])
        plain = self.put("it.s", MAIN.encode() + b"\trts\tpc\n")
        for out, why in (("/dev/null", "not a file, and only a file is replaced"), (self.folder, "Is a directory")):
            self.assertEqual(self.call(cc.main, "--compiler", self.folder, "-o", out, plain), (1, "", f"cc.py: {out}: {why}\n"))
        wrong = self.put("it.s", MAIN.encode() + b"\tjsr\tpc,_none\n\tmov\tr9,r0\n")
        self.assertEqual(self.call(cc.main, "--compiler", TOP, "-o", self.path("it"), wrong)[0], 1)

    def test_a_byte_of_eight_bits(self):
        """It is refused in a text, with its line; in a comment it may stand."""
        source = self.put("it.c", 'int main(void)\n{\n\treturn *"\303\244"; /* \303 " */ // \303\'\n}\n'.encode("latin-1"))
        wanted = (f"cc.py: {source}, line 3: the byte 303 in a text: a character has seven bits, and \\303 writes a byte with eight\n")
        self.assertEqual(self.call(cc.main, "--compiler", self.folder, "-o", self.path("it"), source), (1, "", wanted))
        self.put("it.c", "/* \303 */ int main(void) { return '\\''; } // \303\n".encode("latin-1"))
        self.assertIn("no compiler there", self.call(cc.main, "--compiler", self.folder, "-o", self.path("it"), source)[2])

    def test_another_archive(self):
        """build.sh and build-gcc.sh build of the archive alone whose sum they know."""
        wrong, folder = self.put("it.tar.gz", b"no archive"), self.path("made")
        for script in ("build.sh", "build-gcc.sh"):
            done = subprocess.run([os.path.join(TOOLS, "c", script), "-a", wrong, folder], capture_output=True, text=True)
            self.assertNotEqual(done.returncode, 0)
            self.assertIn("it.tar.gz: FAILED", done.stdout)
            self.assertEqual(os.listdir(self.folder), ["it.tar.gz"])

    def tools(self, *names):
        """A folder with what the scripts call, and with these names, which do nothing."""
        os.mkdir(self.path("some"))
        for name in ("dirname", "mktemp", "realpath", "rm", "cat", "sha256sum"):
            os.symlink(shutil.which(name), self.path(f"some/{name}"))
        for name in names:
            self.put(f"some/{name}", b"#!/bin/sh\n")
            os.chmod(self.path(f"some/{name}"), 0o755)
        return {**os.environ, "PATH": self.path("some")}

    def test_no_archive(self):
        """Where apt has no such package, a line names it and the option, and no host; and no sum is told of a file that isn't there."""
        path = self.tools("make", "patch", "cc", "c++", "bison", "flex", "xz")
        self.put("some/apt-get", b"#!/bin/sh\necho 'E: You must put some deb-src URIs in your sources.list' >&2\nexit 100\n")
        os.chmod(self.path("some/apt-get"), 0o755)
        for script, told in (("build.sh", "build.sh: the source package pcc, 1.2.0~DEVEL+20220331-1 of Debian 12, hasn't come: apt needs a source "
                                          "of source packages (deb-src), or -a names its file, pcc_1.2.0~DEVEL+20220331.orig.tar.gz\n"),
                             ("build-gcc.sh", "build-gcc.sh: the package hasn't come: ")):
            script = os.path.join(TOOLS, "c", script)
            done = subprocess.run([script, self.path("made")], capture_output=True, text=True, env=path)
            self.assertEqual((done.returncode, done.stdout), (1, ""))
            self.assertIn(told, done.stderr)
            self.assertNotIn("://", done.stderr)
            done = subprocess.run([script, "-a", self.path("none"), self.path("made")], capture_output=True, text=True)
            self.assertEqual((done.returncode, done.stdout), (1, ""))
            self.assertEqual(done.stderr, f"{os.path.basename(script)}: {self.path('none')}: No such file\n")

    def test_assignments_of_the_sixth_edition(self):
        """They are refused before anything is compiled, and what only looks so isn't."""
        for old in ("=+", "=-", "=*", "=/", "=%", "=&", "=|", "=^", "=<<", "=>>"):
            source = self.put("old.c", f"int t; /* t =+ 1 */\nchar *s = \"=+ 1\";\nint main(void) {{ t {old} 4; return t; }}\n".encode())
            wanted = f"cc.py: {source}, line 3: {old} is of the Sixth Edition's C; here it is {old[1:]}=\n"
            self.assertEqual(self.call(cc.main, "--compiler", self.path("none"), "-o", self.path("out"), source), (1, "", wanted))
        good = "t=-1; t=*p; p=&t; t =-1; t=++t; t=--t; t += -1; if (t ==-1 && t<= *p || t>=& t) t=/* x */2; t <<= 1; t -= '=';"
        source = self.put("new.c", good.encode())
        self.assertIsNone(compiler.check_assignments(source))

    def test_what_building_needs(self):
        """All that is missing is told at once, before anything is fetched."""
        path = self.tools("patch", "cc")
        for script, wanted in (("build.sh", "make bison flex"), ("build-gcc.sh", "make c++ flex xz")):
            done = subprocess.run([os.path.join(TOOLS, "c", script), self.path("made")], capture_output=True, text=True, env=path)
            self.assertEqual((done.returncode, done.stdout), (1, ""))
            self.assertEqual(done.stderr, f"{script}: these are wanted, and not found: {wanted}\n")

    def test_arguments_and_status(self):
        """main has their number and their addresses, and what it gives is the status."""
        program = self.assembled(MAIN + "\tmov\t4(sp),r1\n\tmov\t2(r1),r1\n\tmovb\t(r1),r0\n\tadd\t2(sp),r0\n\trts\tpc\n")
        self.assertEqual(self.run_it(program, "A", "b", "c"), (ord("A") + 4, "", ""))

    def test_a_shared_text(self):
        """With -n the text is apart from the data; the calls whose words change stand in the data."""
        source = (MAIN + "\tmov\t$9.,-(sp)\n\tjsr\tpc,_dup\n\ttst\t(sp)+\n\tmov\t_errno,r0\n\tadd\ttwo,r0\n\trts\tpc\n"
                  "\t.data\ntwo:\t2\n")
        for options, magic in (((), b"\x07\x01"), (("-n",), b"\x08\x01")):
            program = self.made(source, "it.s", "--compiler", self.folder, *options)
            self.assertEqual(read(program)[:2], magic)
            self.assertEqual(self.run_it(program), (11, "", ""))

    def test_errors_of_calls(self):
        """A call that is refused gives -1, and errno."""
        program = self.assembled(MAIN + "\tmov\t$9.,-(sp)\n\tjsr\tpc,_close\n\ttst\t(sp)+\n\tadd\t_errno,r0\n\trts\tpc\n")
        self.assertEqual(self.run_it(program), (8, "", ""))

    def test_a_signal(self):
        """A function for a signal has its number; it makes calls, and registers, errno and the words of a call stay."""
        kept = [("r0", 1), ("r1", 2), ("r2", 3), ("r3", 4), ("r4", 5), ("r5", 6), ("_errno", 7)]
        kept += [(f"indir.call+{2 * at}", 8 + at) for at in range(4)]
        source = (MAIN + "\tmov\tr2,-(sp)\n\tmov\tr5,-(sp)\n\tmov\t$f,-(sp)\n\tmov\t$6,-(sp)\n\tjsr\tpc,_signal\n"
                  + "\tcmp\t(sp)+,(sp)+\n" + "".join(f"\tmov\t${value:o},{name}\n" for name, value in kept) + "\tiot\n"
                  + "".join(f"\tcmp\t{name},${value:o}\n\tbne\t1f\n" for name, value in kept)
                  + "\tmov\tnumber,r0\n1:\tmov\t(sp)+,r5\n\tmov\t(sp)+,r2\n\trts\tpc\n"
                  "f:\tmov\t2(sp),number\n\tmov\t$9.,-(sp)\n\tmov\t$99.,-(sp)\n\tjsr\tpc,_kill\n\tcmp\t(sp)+,(sp)+\n"
                  "\tcmp\t_errno,$3\n\tbeq\t1f\n\tclr\tnumber\n1:\tclr\tr0\n\tclr\tr1\n\trts\tpc\n\t.bss\nnumber:\t.=.+2\n")
        self.assertEqual(self.run_it(self.assembled(source)), (6, "", ""))

    def test_longs(self):
        """The product, the quotients and the remainders of longs, and those of words without a sign, are the rules' of C."""
        edges, rows = [0, 1, 2, 3, 10, 0x7FFF, 0x8000, 0xFFFF, 0x10000, 0x7FFFFFFF, 0x80000000, 0xFFFFFFFF], []
        made = random.Random(self.id())
        pairs = [(a, b) for a in edges for b in edges if b]
        pairs += [(made.getrandbits(32), made.getrandbits(made.randrange(1, 33)) or 1) for _ in range(150)]
        source = [MAIN, "\tmov\t$table,r2\n1:\n\tcmp\tr2,$last\n\tbhis\t2f\n\tmov\t14(r2),-(sp)\n\tmov\t12(r2),-(sp)\n"
                  "\tmov\t10(r2),-(sp)\n\tmov\t6(r2),-(sp)\n\tmov\t14(r2),r1\n\tmov\t10(r2),r0\n\tjsr\tpc,*(r2)\n"
                  "\tadd\t$10,sp\n\tcmp\tr0,2(r2)\n\tbne\t3f\n\ttst\t16(r2)\n\tbne\t4f\n\tcmp\tr1,4(r2)\n\tbne\t3f\n4:\n"
                  "\tadd\t$20,r2\n\tbr\t1b\n2:\tclr\tr0\n\trts\tpc\n3:\tmov\t$1,r0\n\trts\tpc\n\t.data\ntable:\n"]
        for left, right in pairs:
            signed = [expressions.fitted(value, "long") for value in (left, right)]
            quotient = expressions.quotient(*signed)
            results = {"lmul": left * right, "uldiv": left // right, "ulrem": left % right, "ldiv": quotient,
                       "lrem": signed[0] - quotient * signed[1]}
            rows += [f"{name}; {value >> 16 & WORD:o}; {value & WORD:o}; {left >> 16:o}; {left & WORD:o}; {right >> 16:o}; "
                     f"{right & WORD:o}; 0" for name, value in results.items()]
            if right & WORD:
                low, by = left & WORD, right & WORD
                rows += [f"{name}; {value:o}; 0; 0; {low:o}; 0; {by:o}; 1" for name, value in
                         (("udiv", low // by), ("urem", low % by))]
        program = self.assembled("".join(source) + "".join(f"\t{row}\n" for row in rows) + "last:\n")
        self.assertEqual(self.run_it(program), (0, "", ""))


class Examples(Program):
    TEXT = "the quick brown fox\njumps over\nthe lazy dog\n12 drummers\n9 ladies\nthe end\n"

    def example(self, name, *words, typed=b""):
        return self.run_it("--file", os.path.join(EXAMPLE, "text"), os.path.join(EXAMPLE, "bin", name), *words, typed=typed)

    def test_wc(self):
        self.assertEqual(read(os.path.join(EXAMPLE, "text")).decode(), self.TEXT)
        self.assertEqual(self.example("wc", "text"), (0, "      6      15      73 text\n", ""))
        self.assertEqual(self.example("wc", "text", "none", "text"),
                         (1, "wc: can't open none\n      6      15      73 text\n      6      15      73 text\n"
                             "     12      30     146 total\n", ""))
        self.assertEqual(self.example("wc", typed=b"a b\n" * 500), (0, "    500    1000    2000\n", ""))

    def test_grep(self):
        lines = self.TEXT.splitlines(True)
        for pattern, wanted in (("the", [0, 2, 5]), ("^[0-9][0-9]* ", [3, 4]), ("d$", [5]), ("o.*o", [0]),
                                ("^.[^a-h]", [1, 3, 4]), ("x*y", [2]), ("\\.", [])):
            self.assertEqual(self.example("grep", pattern, "text"), (int(not wanted), "".join(lines[at] for at in wanted), ""))
        self.assertEqual(self.example("grep", "-v", "-n", "e", "text"), (1, "", ""))
        self.assertEqual(self.example("grep", "-c", "the", "text", "text"), (0, "text:3\ntext:3\n", ""))
        self.assertEqual(self.example("grep"), (2, "grep: usage: grep [-v] [-n] [-c] pattern [file ..]\n", ""))

    def test_sort(self):
        lines = self.TEXT.splitlines(True)
        self.assertEqual(self.example("sort", "text"), (0, "".join(sorted(lines)), ""))
        self.assertEqual(self.example("sort", "-r", "text"), (0, "".join(sorted(lines, reverse=True)), ""))
        self.assertEqual(self.example("sort", "-n", "-u", typed=b"10 x\n9 y\n-3 z\n9 y\n"), (0, "-3 z\n9 y\n10 x\n", ""))
        self.assertEqual(self.example("sort", "-x"), (1, "sort: no such option: -x\n", ""))

    def test_forth(self):
        typed = (b"1 2 + . 7 -2 / .\n: twice dup + ; 21 twice .\n: to5 6 1 do i . loop ; to5\nnone\n1 0 /\n"
                 b": down begin dup . 1 - dup 0= until drop ; 3 down\nvariable x 5 x ! 3 x +! x @ .\n")
        self.assertEqual(self.example("forth", typed=typed)[:2],
                         (0, "3 -3  ok\n42  ok\n1 2 3 4 5  ok\nnone?\ndivision by zero?\n3 2 1  ok\n8  ok\n"))

    def test_tell(self):
        """A child tells of each signal but the one that ends it."""
        told = "".join(f"the child tells of signal {number}\n" for number in (2, 3, 2, 14))
        self.assertEqual(self.example("tell"), (0, f"the child is there\n{told}it ended by signal 9\n", ""))

    def test_at_the_shell(self):
        """Put on the shell's disk, they run there as its own commands do, also with 1200 clicks of core."""
        image = self.put("image", read(os.path.join(TOP, "examples", "shell", "image")))
        for name in ("sort", "grep"):
            program = os.path.join(EXAMPLE, "bin", name)
            self.assertEqual(self.call(disk_main, "--v6", V6, "put", image, program, "/bin"), (0, "", ""))
        script = self.put("script", b"run 9000\ntype sort </usr/sys/ken/slp.c >/t\nrun 20000\ntype grep -n sory /t\nrun 20000\n"
                          b"type grep -c t. /t\nrun 20000\n")
        for core in ("1200", "3968"):
            self.assertEqual(v6("run", image, core, script, *map(self.path, ("term", "log", "final")))[0], 0)
            self.assertEqual(read(self.path("term")).replace(b"\r\n", b"\n"),
                             b"# SORT </USR/SYS/KEN/SLP.C >/T\n# GREP -N SORY /T\n# GREP -C T. /T\n1\n# ")

    def test_run(self):
        """run.sh prints what the page of the example shows."""
        done = subprocess.run([os.path.join(EXAMPLE, "run.sh")], capture_output=True, text=True)
        page = read(os.path.join(EXAMPLE, "README.md")).decode()
        self.assertEqual((done.returncode, done.stderr), (0, ""))
        self.assertIn(f"```\n$ examples/c/run.sh\n{done.stdout}```\n", page)
        for name in ("forth", "grep", "sort", "tell", "wc", "words"):
            self.assertRegex(page, rf"\| `{name}.*\| {os.path.getsize(os.path.join(EXAMPLE, 'bin', name)):,} \|\n")

    @wants_compiler
    def test_built(self):
        """The programs that are kept are what the compiler makes of their sources."""
        done = subprocess.run([os.path.join(EXAMPLE, "build.sh"), self.folder], capture_output=True, text=True)
        self.assertEqual((done.returncode, done.stdout, done.stderr), (0, "", ""))
        self.assertEqual(sorted(os.listdir(self.folder)), sorted(os.listdir(os.path.join(EXAMPLE, "bin"))))
        for name in os.listdir(self.folder):
            self.assertEqual(read(self.path(name)), read(os.path.join(EXAMPLE, "bin", name)), name)


class Fault(Runs):
    def test_page(self):
        """The commands by which docs/tools/c.md finds a fault come to what it shows. Without the compiler the program that is kept is
        looked at, and it isn't mended."""
        part = read(os.path.join(TOP, "docs", "tools", "c.md")).decode().split("\n## A fault, found backwards\n")[1].split("\n## ")[0]
        (compiled, nothing), *found = commands(part)
        mended = next(number for number, (command, _) in enumerate(found) if "cc.py" in command)
        if HERE:
            found = [(compiled, nothing), *found]
        else:
            found = [("cp examples/c/bin/words words", ""), *found[:mended]]
        for command, shown in found:
            self.assertEqual(self.play(command), (0, shown), command)


class Programs(Program):
    """Programs that either compiler makes, and what they print."""

    def prints(self, source, wanted, *words, typed=b""):
        self.assertEqual(self.run_it(self.made(source), *words, typed=typed), (0, wanted, ""))

    def body(self, statements, wanted, *words, typed=b""):
        """What statements in main print, with all headers."""
        heads = "".join(f"#include <{name}.h>\n" for name in ("ctype", "errno", "limits", "stdio", "stdlib", "string", "unix"))
        self.prints(f"{heads}int main(int argc, char **argv)\n{{\n{statements}\nreturn 0;\n}}\n", wanted, *words, typed=typed)

    def test_expressions(self):
        """Expressions at random come to what the rules of C say."""
        for seed in range(3):
            self.prints(*expressions.program(random.Random(seed), 40, 3))

    def test_longs_compared(self):
        """The order of longs, and of longs and 0, by each operator, also where only their low words differ, by the highest bit."""
        values = [0, 1, 32767, 32768, 65535, 65536, 98304, 2147483647, -1, -2, -32768, -32769, -65536, -98304, -2147483647]
        orders = (lambda a, b: a < b), (lambda a, b: a <= b), (lambda a, b: a > b), (lambda a, b: a >= b)
        wanted = "".join("".join(str(sum(2**n for n, order in enumerate(orders) if order(a, b))) + ("" if b else "z")
                                 for b in values) + "\n" for a in values)
        self.prints(f"#include <stdio.h>\nlong values[] = {{ {', '.join(f'{value}L' for value in values)} }};\n"
                    "int main(void) { int i, j, n;\n"
                    f"for (i = 0; i < {len(values)}; i++) {{ for (j = 0; j < {len(values)}; j++) {{\n"
                    "long a = values[i], b = values[j]; n = 0;\n"
                    "if (a < b) n += 1; if (a <= b) n += 2; if (a > b) n += 4; if (a >= b) n += 8; printf(\"%d\", n);\n"
                    "if (b == 0) { n -= (a < 0) + 2 * (a <= 0) + 4 * (a > 0) + 8 * (a >= 0);\n"
                    "if (a < 0) n++; if (a <= 0) n += 2; if (a > 0) n += 4; if (a >= 0) n += 8;\n"
                    "if (a < 0) n--; if (!(a > 0)) n -= 2; if (a > 0) n -= 4; if (!(a < 0)) n -= 8;\n"
                    "putchar(n ? 'w' : 'z'); } }\nputchar(10); } return 0; }\n", wanted)

    def test_statements(self):
        self.prints(read(os.path.join(TOP, "tools", "tests", "pdp11", "statements.c")).decode(),
                    "37 two wxyz 4\n2 3 3\nBA\n1 22 200 2\n7 -1 6\n3628800 479001600\n11\n25 1 2 3 -1\n63\nhell0, w0rld\n3\n"
                    "1 1 1\n11\n1 2 0\n14 4\n5 5\nyes\n2\n9\nffff 177777 65535\n7\ndeadbee adbeef00 390178\n-142857 -1 -125000\n")

    def test_printf(self):
        """The diagnostic output has no buffer, so it comes first."""
        self.body('char text[20];\n'
                  'printf("%d %u %o %x %c %s %%|%5d|%-5d|%05d|%5s|%-4s|%.2s|\\n", -5, 65535u, 8, 255, 65, "s", 42, 42, -42, "ab", '
                  '"cd", "xyz");\n'
                  'printf("%ld %lu %lo %lx %d\\n", -2147483647L - 1, 4294967295UL, 8L, 0xabcdef01L, printf("four"));\n'
                  'sprintf(text, "%d-%s", 7, "x"); puts(text); fprintf(stderr, "e\\n");',
                  "e\n-5 65535 10 ff A s %|   42|42   |-0042|   ab|cd  |xy|\nfour-2147483648 4294967295 10 abcdef01 4\n7-x\n")

    def test_printf_of_numbers(self):
        """Digits, signs, blanks and zeros, as Python has them by the same letters."""
        forms = [("%5.2d", 7), ("%i", 42), ("%+d", 5), ("%+i", -5), ("% d", 3), ("%-6.3d|", -4), ("%06d", -42), ("%+06d", 42),
                 ("%5.3x", 10), ("%-5u|", 9), ("%.3o", 1), ("%8.4d", -77), ("%+.3d", 0), ("%-+7d|", 12), ("% 05d", 33)]
        source = "".join(f'printf("{form}\\n", {value});\n' for form, value in forms)
        wanted = "".join(form % value + "\n" for form, value in forms)
        self.body(source + 'printf("%05ld %.10ld [%.0d] [%.2s]\\n", -12L, 123456L, 0, "abc");',
                  wanted + "-0012 0000123456 [] [ab]\n")

    def test_a_product_that_is_too_large(self):
        self.body('printf("%d %d %d", calloc(256, 257) == NULL, calloc(257, 256) == NULL, calloc(300, 2) != NULL);', "1 1 1")

    def test_fgets_at_the_end(self):
        """What was read last stays; a line is read in parts where there is less room."""
        self.body('char line[5] = "old";\nprintf("%d", fgets(line, 1, stdin) == line && !*line); strcpy(line, "old");\n'
                  'while (fgets(line, 5, stdin)) printf("[%s]", line);\nprintf("%s\\n", line);', "1[abcd][ef\n][gh]gh\n",
                  typed=b"abcdef\ngh")

    def test_strings(self):
        self.body('char a[20], b[20]; strcpy(a, "one"); strcat(a, "two"); strncpy(b, "abcdef", 3); b[3] = 0;\n'
                  'printf("%s %s %d %d %d %d\\n", a, b, (int)strlen(a), strcmp("a", "b") < 0, strcmp("b", "a") > 0, strcmp(a, a));\n'
                  'printf("%d %d %s %s %s\\n", strncmp("abc", "abd", 2), strncmp("abc", "abd", 3) < 0, strchr(a, 116), strrchr(a, 111), '
                  'strstr(a, "et"));\nmemmove(a + 1, a, 6); a[7] = 0; printf("%s %d\\n", a, memcmp("ab", "ac", 2) < 0);\n'
                  'memset(a, 120, 3); printf("%s %d %ld %d\\n", a, atoi("-12x"), atol(" 99999"), abs(-4));\n'
                  'printf("%d%d%d%d%c%c\\n", !!isalpha(65), !!isdigit(65), !!isspace(9), !!ispunct(44), toupper(97), tolower(90));',
                  "onetwo abc 6 1 1 0\n0 1 two o etwo\noonetwo 1\nxxxetwo -12 99999 4\n1011Az\n")

    def test_room(self):
        """Pieces of memory don't overlap, keep their bytes, and come back; too much is refused."""
        self.body("char *kept[40]; int at, round, size, bad = 0; unsigned sizes[40];\nmemset(kept, 0, sizeof kept);\n"
                  "for (round = 0; round < 1500; round++) {\nat = rand() % 40;\nif (kept[at]) {\n"
                  "for (size = 0; size < sizes[at]; size++) if (kept[at][size] != (char)at) bad++;\nfree(kept[at]); kept[at] = 0;\n"
                  "} else {\nsizes[at] = rand() % 24; kept[at] = malloc(sizes[at]); memset(kept[at], at, sizes[at]);\n}\n}\n"
                  'printf("%d %d %d\\n", bad, malloc(65000u) == NULL, malloc(40000u) != NULL);', "0 1 1\n")

    def test_qsort(self):
        made = random.Random(self.id())
        numbers = [made.randrange(-30000, 30000) for _ in range(100)]
        self.prints("#include <stdio.h>\n#include <stdlib.h>\n"
                    f"static int numbers[] = {{ {', '.join(map(str, numbers))} }};\n"
                    "static int by(const void *a, const void *b) { int x = *(int *)a, y = *(int *)b; return x < y ? -1 : x > y; }\n"
                    "int main(void) { int i; qsort(numbers, 100, sizeof(int), by);\n"
                    'for (i = 0; i < 100; i++) printf("%d\\n", numbers[i]); return 0; }\n',
                    "".join(f"{number}\n" for number in sorted(numbers)))

    def test_files(self):
        self.body('FILE *file = fopen("new", "w"); int c; char line[20];\nfputs("first\\nsecond", file); fclose(file);\n'
                  'file = fopen("new", "a"); for (c = 0; c < 600; c++) putc(46, file); putc(10, file); fclose(file);\n'
                  'file = fopen("new", "a"); fputs("end", file); fclose(file);\n'
                  'file = fopen("new", "r"); c = getc(file); ungetc(c, file); while (fgets(line, 20, file) && line[0] != 46)\n'
                  'printf("%s", line); putchar(10); fclose(file);\n'
                  'struct stat s; printf("%d ", stat("new", &s)); printf("%u %d\\n", s.size_low, fopen("none", "r") == NULL);\n'
                  'while ((c = getchar()) != EOF) putchar(c + 1);', "first\nsecond.............\n0 616 1\nbc", typed=b"ab")

    def test_calls(self):
        """Each call of section II that is built, in a new machine: process 2, of user 0, in the root."""
        self.body("int status, modes[3], old; char bytes[8]; struct stat s; unsigned char *end; char clock[12];\n"
                  'old = creat("f", 0644); printf("%d ", write(old, "abcdef", 6)); printf("%d ", close(old));\n'
                  'old = open("f", 0); printf("%d ", seek(old, 2, 0)); printf("%d ", read(old, bytes, 3)); '
                  'printf("%c ", bytes[0]);\n'
                  'status = dup(old); printf("%d ", read(status, bytes, 8)); close(status); close(old);\n'
                  'printf("%d ", link("f", "g")); printf("%d ", stat("g", &s)); '
                  'printf("%d %d %o ", s.links, s.size_low, s.mode & 0777);\n'
                  'printf("%d ", chmod("f", 0600)); printf("%d ", chown("f", 3)); stat("f", &s); '
                  'printf("%d %o ", s.owner, s.mode & 0777);\n'
                  'printf("%d ", unlink("g")); printf("%d ", stat("g", &s)); printf("%d\\n", errno);\n'
                  'printf("%d ", mknod("d", 040777, 0)); printf("%d ", chdir("d")); printf("%d ", chdir("/none"));\n'
                  'printf("%d %d %d %d ", getpid(), getuid(), getgid(), csw()); nice(0); sync(); fstat(1, &s);\n'
                  'printf("%o ", s.mode & 060000); printf("%d ", gtty(1, modes)); printf("%d ", stty(1, modes));\n'
                  'printf("%d ", stime(70000L)); printf("%ld ", time()); '
                  'printf("%d ", times(clock)); end = sbrk(10); *end = 1;\n'
                  'printf("%d ", (int)((unsigned char *)sbrk(0) - end)); printf("%d\\n", brk(end)); fflush(stdout);\n'
                  'if (fork() == 0) exit(3); printf("%d ", wait(&status)); printf("%o\\n", status);\n'
                  'setgid(4); setuid(5); fflush(stdout);\n'
                  'if (fork() == 0) { execl("/bin/none", "none", 0); printf("%d ", errno); exit(0); } wait(0); '
                  'printf("%d\\n", setuid(0));',
                  "6 0 0 3 c 1 0 0 2 6 644 0 0 3 600 0 -1 2\n0 0 -1 2 0 0 0 20000 0 0 0 70000 0 10 0\n3 1400\n2 -1\n")

    def test_signals(self):
        """signal gives what was done before; a call that a signal breaks, a kill of nobody, and a pipe that nobody reads."""
        self.prints('#include <errno.h>\n#include <signal.h>\n#include <stdio.h>\n#include <unix.h>\nint got, number;\n'
                    'void one(int n) { got = n; number = errno; close(99); }\nvoid two(int n) { got = -n; }\n'
                    'void say(int n) { printf("%d ", n); }\n'
                    "void set(void (*action)(int)) {\nvoid (*was)(int) = signal(14, action);\n"
                    "say(was == SIG_DFL ? 0 : was == SIG_IGN ? 1 : was == one ? 2 : was == two ? 3 : 4); }\n"
                    "int main(void)\n{\nint ends[2], parent = getpid(); char bytes[4];\n"
                    "set(one); set(two); set(SIG_IGN); set(one); set(SIG_DFL); set(one);\n"
                    "errno = 0; say(signal(9, one) == SIG_ERR); say(errno); say(signal(20, one) == SIG_ERR);\n"
                    "say(kill(99, 1)); say(errno); putchar(10); fflush(stdout);\n"
                    "if (!fork()) { kill(parent, 14); exit(0); }\nerrno = 7; while (wait(0) >= 0 || errno == EINTR) ;\n"
                    "say(got); say(number); say(errno); set(SIG_DFL); putchar(10);\n"
                    'say(pipe(ends)); say(write(ends[1], "abc", 3)); say(read(ends[0], bytes, 4)); say(bytes[2]);\n'
                    "say(seek(ends[0], 0, 0)); say(errno); close(ends[0]); signal(SIGPIPE, two);\n"
                    'say(write(ends[1], "abc", 3)); say(errno); say(got); putchar(10); return 0;\n}\n',
                    "0 2 3 1 2 0 1 22 1 -1 3 \n14 7 10 0 \n0 3 3 99 -1 29 -1 32 -13 \n")

    def test_signals_anywhere(self):
        """With a clock signals come between any two instructions, and the calls of a function for them spoil no other call."""
        self.made("#include <errno.h>\n#include <signal.h>\n#include <stdio.h>\n#include <unix.h>\n"
                  "int ends[2], other, caught;\nvoid again(int n) {\nint modes[3];\n"
                  "caught++; signal(14, again); write(other, \"yz\", 2); gtty(1, modes); close(77); write(ends[1], \"x\", 1); }\n"
                  "int main(void)\n{\nint one, at, bad = 0, parent = getpid(), child; struct stat s; char byte;\n"
                  'pipe(ends); one = creat("one", 0644); other = creat("other", 0644); signal(14, again);\n'
                  "if (!(child = fork())) for (;;) { kill(parent, 14); read(ends[0], &byte, 1); }\n"
                  'for (at = 1; at < 50; at++) {\nwhile (write(one, "abc", 3) != 3) bad += errno != EINTR;\n'
                  'bad += stat("one", &s) != 0 || s.size_low != 3 * at; bad += signal(13, SIG_IGN) == SIG_ERR;\n}\n'
                  'kill(child, 9); while (wait(0) < 0) ; stat("other", &s);\n'
                  'printf("%d %d %d\\n", bad, caught > 100, s.size_low == 2 * caught); return 0;\n}\n')
        image = self.put("image", read(os.path.join(TOP, "examples", "shell", "image")))
        self.assertEqual(self.call(disk_main, "--v6", V6, "put", image, self.path("it"), "/bin"), (0, "", ""))
        for clock in (2, 3):
            script = self.put("script", f"run 9000\nclock {clock}\ntype it\nrun 2000000\n".encode())
            self.assertEqual(v6("run", image, "3968", script, *map(self.path, ("term", "log", "final")))[0], 0)
            self.assertEqual(read(self.path("term")), b"# IT\r\n0 1 1\r\n# ")

    def test_headers(self):
        """All headers together, and the sizes of their types."""
        names = sorted(os.listdir(os.path.join(TOOLS, "c", "include")))
        self.assertEqual(len(names), 12)
        source = "".join(f"#include <{name}>\n#include <{name}>\n" for name in names)
        self.prints(source + "bool more(int n) { return n; }\nstruct two { char c; long l; };\n"
                    'int main(void) { printf("%d %d %d %d %d %d %d %u\\n", more(256), sizeof(int8_t), sizeof(uint16_t), '
                    "sizeof(int32_t), sizeof(size_t), sizeof(struct stat), offsetof(struct two, l), UINT_MAX);\n"
                    'printf("%d\\n", true + (bool)0x100 + !false); return 0; }\n', "1 1 2 4 2 36 2 65535\n3\n")


@wants_compiler
class Compiled(Programs):
    def test_options(self):
        """A name of the preprocessor, a folder of headers, a table of symbols, and assembly in the place of a program."""
        os.mkdir(self.path("more"))
        self.put("more/seven.h", b"#define SEVEN 7\n")
        source = self.put("it.c", b"#include <seven.h>\nint main(void) { return SEVEN + N; }\n")
        words = ("-D", "N=4", "-I", self.path("more"), "-o", self.path("it"), source)
        self.assertEqual(self.call(cc.main, *words), (0, "", ""))
        self.assertEqual(self.run_it(self.path("it")), (11, "", ""))
        plain = read(self.path("it"))
        self.assertEqual(self.call(cc.main, "-s", *words), (0, "", ""))
        with_symbols = read(self.path("it"))
        self.assertEqual((with_symbols[:8], with_symbols[16 : len(plain)]), (plain[:8], plain[16:]))
        self.assertIn(b"_main\0\0\0", with_symbols[len(plain) :])
        self.assertEqual(self.call(cc.main, "-S", *words), (0, "", ""))
        self.assertIn(b"\n_main:\n", read(self.path("it")))
        self.assertEqual(self.call(cc.main, "-n", *words), (0, "", ""))
        self.assertEqual(read(self.path("it"))[:2], b"\x08\x01")
        self.assertEqual(self.run_it(self.path("it")), (11, "", ""))

    def test_lines(self):
        """With -g the table of symbols has the lines of the source, those of the words of each; the program is the same."""
        source = self.put("it.c", b"int two(int n)\n{\n\treturn n + 2;\n}\nint main(void)\n{\n\tint n = 5;\n\treturn two(n);\n}\n")
        self.assertEqual(self.call(cc.main, "-o", self.path("it"), source), (0, "", ""))
        plain = read(self.path("it"))
        self.assertEqual(self.call(cc.main, "-g", "-o", self.path("it"), source), (0, "", ""))
        found = symbols.Program("it", read(self.path("it")))
        self.assertEqual(read(self.path("it"))[16 : len(plain)], plain[16:])
        told = [found.line_at(at) for at in range(found.address_of("two"), found.end_of("main") + 1)]
        self.assertEqual(list(dict.fromkeys(one and (os.path.basename(one[0]), one[1]) for one in told)),
                         [None, ("it.c", 3), ("it.c", 4), ("it.c", 7), ("it.c", 8), ("it.c", 9)])
        self.assertIsNone(found.line_at(found.address_of("exit")))  # of the library
        self.assertLess(found.line_address("it.c:7"), found.line_address("it.c:8"))

    def test_wrong(self):
        """What the compiler refuses is told, and no program is written."""
        for source, why in (("int main(void) { return x; }\n", "it.c, line 1: x undefined\n"),
                            ("int main(void) { return none(); }\n", "none: neither in the program nor in the library\n"),
                            ("int main(void) { float f = 1.5; return f * 2; }\n",
                             "it.c: float or double: the PDP-11/40 has no floating point\n")):
            status, out, said = self.call(cc.main, "-o", self.path("it"), self.put("it.c", source.encode()))
            self.assertEqual((status, out, os.path.exists(self.path("it"))), (1, "", False))
            self.assertIn(why, said.replace(self.folder + "/", ""))

    def test_the_page(self):
        """The program of docs/tools/c.md, with the commands as they stand there, but for the folder."""
        page = read(os.path.join(TOP, "docs", "tools", "c.md")).decode()
        source, commands = page.split("```c\n")[1].split("```")[0], page.split("```c\n")[1].split("```\n")[2].split("\n")[:2]
        self.assertEqual([line.split()[0] for line in commands], ["tools/cc.py", "printf"])
        self.put("lines.c", source.encode())
        os.symlink(TOOLS, self.path("tools"))
        done = subprocess.run(["sh", "-ec", "\n".join(commands)], cwd=self.folder, capture_output=True, text=True,
                              env={**os.environ, "V6": V6})
        self.assertEqual((done.returncode, done.stdout, done.stderr), (0, "there: 2 lines\n", ""))
        self.assertIn("prints `there: 2 lines`", page)

    def test_known_faults(self):
        """What docs/tools/c.md says of the compiler's faults."""
        self.body('long long wide = 65536L * 16384; printf("%d %d\\n", (int)sizeof wide, wide * 4 == 0);', "4 1\n")

    def test_under_try(self):
        """try.py compiles a source in C, as it assembles one in assembly."""
        one = self.put("one.c", b"#include <stdio.h>\nint two(void);\nint main(int n, char **v) { puts(*v); return two(); }\n")
        two = self.put("two.s", b"\t.globl\t_two\n_two:\tmov\t$7,r0\n\trts\tpc\n")
        self.assertEqual(self.run_it("--with", two, one), (7, "one\n", ""))
        self.assertEqual(self.run_it(one), (125, "", "try.py: two: neither in the program nor in the library\n"))

    def test_names_of_files(self):
        """Two files have static names and labels of their own, and share what is global."""
        one = self.put("one.c", b"static int n = 1; int shared, other(void); int main(void) { shared = n; return other(); }\n")
        two = self.put("two.c", b"static char odd[3]; static int m, n = 5; extern int shared;\n"
                       b"int other(void) { m++; return shared + n + m + odd[2]; }\n")
        self.assertEqual(self.call(cc.main, "-o", self.path("it"), one, two), (0, "", ""))
        self.assertEqual(self.run_it(self.path("it")), (7, "", ""))

    def test_a_prompt(self):
        """What was printed is shown before the standard input is read."""
        self.made('#include <stdio.h>\nint main(void) { printf("? "); printf("%c\\n", getchar()); return 0; }\n')
        image = self.put("image", read(os.path.join(TOP, "examples", "shell", "image")))
        self.assertEqual(self.call(disk_main, "--v6", V6, "put", image, self.path("it"), "/bin"), (0, "", ""))
        script = self.put("script", b"run 9000\ntype it\nrun 20000\ntype x\nrun 20000\n")
        self.assertEqual(v6("run", image, "3968", script, *map(self.path, ("term", "log", "final")))[0], 0)
        self.assertEqual(read(self.path("term")), b"# IT\r\n? X\r\nX\r\n# ")


@wants_gcc
class CompiledByGcc(Programs):
    options = ("--gcc",)

    def test_examples(self):
        """The programs of examples/c."""
        for name, typed, wanted in (("wc", b"a b\n" * 500, "    500    1000    2000\n"), ("sort", b"b\na\nc\n", "a\nb\nc\n"),
                                    ("forth", b": to5 6 1 do i . loop ; to5\n7 -2 / .\n", "1 2 3 4 5  ok\n-3  ok\n")):
            source = read(os.path.join(EXAMPLE, "src", name + ".c")).decode()
            self.assertEqual(self.run_it(self.made(source), typed=typed)[:2], (0, wanted), name)
        grep = self.made(read(os.path.join(EXAMPLE, "src", "grep.c")).decode())
        self.assertEqual(self.run_it("--file", os.path.join(EXAMPLE, "text"), grep, "-n", "^the.*[dx]$", "text")[0], 0)

    def test_wrong(self):
        for source, why in (("int main(void) { return x; }\n", "it.c:1:25: error: 'x' undeclared"),
                            ("int none(void); int main(void) { return none(); }\n", "none: neither in the program nor in the library\n"),
                            ("double d; int main(void) { return d * 2; }\n",
                             "it.c: float or double: the PDP-11/40 has no floating point\n")):
            status, out, said = self.call(cc.main, "--gcc", "-o", self.path("it"), self.put("it.c", source.encode()))
            self.assertEqual((status, out, os.path.exists(self.path("it"))), (1, "", False))
            self.assertIn(why, said.replace(self.folder + "/", "").replace("\u2018", "'").replace("\u2019", "'"))


del Programs  # is no class of tests by itself
