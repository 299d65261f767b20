"""The compiler of C: pcc's assembly and the library's, put together. docs/tools/c.md has what it takes."""
import os
import re
import subprocess
import sys
import tempfile

from v6.host.files import read_bytes
from v6.host.progress import clear
from v6.pdp11.assembler import Assembler
from v6.pdp11.clibrary import FOLDER, NAME, Library, labels_of, names_of

HOME = os.environ.get("V6_CC") or os.path.join(os.path.expanduser("~"), ".cache", "v6-cc")
COMMON = re.compile(r"^\s*\.comm\s+([\w.~]+),\s*([0-7]+)$", re.M)
LINES = re.compile(r"^/~[0-9]+$", re.M)
FLOATS = re.compile(r"^\.globl\s+fltused$|\bjsr\tpc,___\w*[sd]f\w*$", re.M)
UNKNOWN = re.compile(r"'(?:_(\w+)|([\w.~]+))' isn't defined$")
TEXTS = re.compile(r"""//[^\n]*|/\*.*?\*/|"(?:\\.|[^"\\\n])*"|'(?:\\.|[^'\\\n])*'""", re.S)  # and comments
# An assignment of the Sixth Edition's C. What =-, =* and =& are is told by a blank after them: `x = -1` may stand as `x=-1`.
OLD = re.compile(r"(?<![=!<>+\-*/%&|^])=(<<|>>|\+(?!\+)|[%|^/]|[-*&](?=\s))")
BETWEEN = "\n\t.data\n\t.even\n\t.text\n\t.even"  # after each source, that the next one begins in the text
ROOM = re.compile(r"^(_[\w.]+):\s+\.=\.\+ (\d+)\n(?=\t\.(?:globl|even|text|data)\b|\.globl|[\w.]+:|\Z)", re.M)
GCC_WORDS = ["-quiet", "-w", "-m40", "-munix-asm", "-O", "-std=gnu99", "-nostdinc", "-fno-builtin", "-fwrapv",
             "-fno-tree-loop-distribute-patterns"]
# Two longs that are compared: their high words, and where these are the same the low ones; then branches by what came out.
LONGS = re.compile(r"(\tbne\t(L_\d+)\n\t(?:cmp|tst)\t.*\n)(\2):\n((?:\tb\w+\tL_\d+\n)+)")
UNSIGNED = {"blt": "blo", "bge": "bhis", "bgt": "bhi", "ble": "blos"}


class CompileError(Exception):
    """Why there is no program."""


def read_text(path):
    with open(path, encoding="latin-1") as file:
        return file.read()


def run(words):
    """Runs a part of the compiler, and tells its warnings."""
    done = subprocess.run(words, stdin=subprocess.DEVNULL, capture_output=True)
    said = (done.stdout + done.stderr).decode("utf-8", "replace").strip()
    if done.returncode:
        raise CompileError(said or f"{words[0]}: status {done.returncode}")
    if said:
        clear()
        print(said, file=sys.stderr)


def pcc(compiler, source, out):
    """What pcc makes of a file in C, without the marks of its debugger, and with even addresses in the bss."""
    middle = out + ".i"
    run([compiler.program("cpp"), *compiler.words, "-I", os.path.join(FOLDER, "include"), source, middle])
    run([compiler.program("ccom"), *["-g"] * compiler.lines, middle, out])
    text = re.sub(r"^~~\w+:\n", "", read_text(out), flags=re.M)
    return re.sub(r"^\.bss\n", "\t.bss\n\t.even\n", text, flags=re.M)


def low_words(found):
    """GCC branches after low words as after high ones, with a sign; low words have none."""
    branches = found[4]
    low = re.sub(r"^\t(b\w+)", lambda branch: "\t" + UNSIGNED.get(branch[1], branch[1]), branches, flags=re.M)
    if low == branches:
        return found[0]
    return f"{found[1]}{low}\tbr\t{found[3]}~\n{found[3]}:\n{branches}{found[3]}~:\n"


def gcc(compiler, source, out):
    """What GCC makes of a file in C, with what has no value in the bss, and branches that may be too far."""
    run([compiler.program("cc1"), *GCC_WORDS, *compiler.words, "-isystem", os.path.join(FOLDER, "include"), source, "-o", out])
    text = ROOM.sub(r"\t.bss\n\t.even\n\1:\t.=.+\2\n\t.data\n", read_text(out).replace("@", "*"))
    text = LONGS.sub(low_words, text)
    return re.sub(r"^\t(br|b(\w+))(?=\tL_\d+~?$)", lambda found: f"\tj{found[2] or found[1]}", text, flags=re.M)


def check_bytes(path):
    """Refuses a byte in a text of C that the machine has no character for; in a comment any byte may stand."""
    source = read_bytes(path).decode("latin-1")
    for found in TEXTS.finditer(source):
        odd = next((at for at in range(*found.span()) if source[at] > "\177"), None)
        if odd is not None and found[0][0] != "/":
            line, byte = source.count("\n", 0, odd) + 1, ord(source[odd])
            raise CompileError(f"{path}, line {line}: the byte {byte:03o} in a text: a character has seven bits, and \\{byte:03o} "
                               "writes a byte with eight")


def check_assignments(path):
    """Refuses an assignment of the Sixth Edition's C, which C99 would take for another one."""
    source = TEXTS.sub(lambda found: re.sub(r"[^\n]", " ", found[0]), read_text(path))
    found = OLD.search(source)
    if found:
        line = source.count("\n", 0, found.start()) + 1
        raise CompileError(f"{path}, line {line}: ={found[1]} is of the Sixth Edition's C; here it is {found[1]}=")


class Compiler:
    """A compiler in a folder, pcc or GCC, and words for its preprocessor."""

    parts = {}  # of the library, as a compiler has made them for these words

    def __init__(self, folder, words, make=pcc, lines=False, progress=None):
        self.folder, self.words, self.make, self.lines, self.progress = folder, words, make, lines, progress

    def program(self, name):
        path = os.path.join(self.folder, name)
        if not os.access(path, os.X_OK):
            script = "build-gcc.sh" if name == "cc1" else "build.sh"
            raise CompileError(f"{path}: no compiler there; tools/c/{script} makes it, and --compiler names its folder")
        return path

    def assembly(self, path):
        """What the compiler makes of a file in C."""
        check_bytes(path)
        check_assignments(path)
        if self.progress:
            self.progress.tell(os.path.basename(path))
        with tempfile.TemporaryDirectory() as folder:
            name = os.path.join(os.curdir, path) if path.startswith("-") else path
            source = self.make(self, name, os.path.join(folder, "out.s"))
        if FLOATS.search(source):
            raise CompileError(f"{path}: float or double: the PDP-11/40 has no floating point")
        return source

    def part(self, path):
        """The assembly of a file of the library, which is made once."""
        key = self.make, self.folder, tuple(self.words), path
        if key not in self.parts:
            self.parts[key] = self.assembly(path)
        return self.parts[key]


class Program:
    """The sources in assembly that come to a program: [(name, source)]."""

    def __init__(self, compiler):
        self.compiler, self.sources, self.count = compiler, [], 0

    def compiled(self, source):
        """The assembly of a file in C in which the names that no other file may know have a number after them."""
        own = labels_of(source) - names_of(source)
        self.count += 1
        return NAME.sub(lambda name: f"{name[0]}~{self.count}" if name[0] in own else name[0], source)

    def add(self, name):
        if not name.endswith((".c", ".s")):
            raise CompileError(f"{name}: neither a source in C, NAME.c, nor one in assembly, NAME.s")
        source = read_bytes(name).decode("utf-8", "replace")
        if name.endswith(".c"):
            source = self.compiled(self.compiler.assembly(name))
            if self.compiler.lines and not LINES.search(source):
                raise CompileError(f"{name}: its compiler tells no lines: tools/c/build.sh makes one that does, and --gcc has none")
        self.sources.append((name, source))

    def whole(self):
        """All that the program needs: its start, its files, their part of the library, and what has room in the bss alone."""
        found = Library(lambda path: self.compiled(self.compiler.part(path))).wanted(self.sources)
        sources, room = found[:1] + self.sources + found[1:], {}
        placed = set().union(*(labels_of(source) for _, source in sources))
        for _, source in sources:
            for name, size in COMMON.findall(source):
                room[name] = max(int(size, 8), room.get(name, 0))
        last = "".join(f"\t.even\n{name}:\t.=.+{room[name]:o}\n" for name in sorted(room) if name not in placed)
        sources = [(name, COMMON.sub("", source) + BETWEEN) for name, source in sources]
        return [*sources, ("bss", f"\t.bss\n{last}\t.even\n_end:")]


def told(errors):
    """The assembler's errors, and a name that isn't defined once, as C has it."""
    names = [UNKNOWN.search(error) for error in errors]
    lines = [error for error, name in zip(errors, names) if not name]
    return lines + sorted({f"{name[1] or name[2]}: neither in the program nor in the library" for name in names if name})


def program_of(names, compiler=None, symbols=False, shared=False):
    """The program of these sources, and the assembler that has made it."""
    program = Program(compiler or Compiler(HOME, []))
    for name in names:
        program.add(name)
    assembler = Assembler()
    traced = tuple(names) if program.compiler.lines else ()
    data = assembler.assemble(program.whole(), shared, symbols or bool(traced), traced)
    if data is None:
        raise CompileError("\n".join(told(assembler.errors)))
    return data, assembler
