"""The library of programs in C: sources in tools/c/lib, and a routine for each call of section II. docs/tools/c.md has it."""
import os
import re

from v6.host.program import TOP
from v6.pdp11.names import CALLS as NUMBERS

FOLDER = os.path.join(TOP, "tools", "c")
NAME = re.compile(r"[A-Za-z_.~][\w.~]*")

# A call of section II: how many words of arguments go to registers, r0 first, how many stand in `indir.call` after the call,
# and what is given back: the word in r0, 0, a long in r0 and r1, or what r0 has where nothing can be refused. `indir.call` is
# one place for all, so that lib/signal.s can keep it while a function is called for a signal.
CALLS = {"read": (1, 2, "word"), "write": (1, 2, "word"), "open": (0, 2, "word"), "close": (1, 0, "zero"),
         "creat": (0, 2, "word"), "link": (0, 2, "zero"), "unlink": (0, 1, "zero"), "chdir": (0, 1, "zero"),
         "time": (0, 0, "long"), "mknod": (0, 3, "zero"), "chmod": (0, 2, "zero"), "chown": (0, 2, "zero"),
         "stat": (0, 2, "zero"), "seek": (1, 2, "zero"), "getpid": (0, 0, "sure"), "setuid": (1, 0, "zero"),
         "getuid": (0, 0, "sure"), "stime": (2, 0, "zero"), "fstat": (1, 1, "zero"), "stty": (1, 1, "zero"),
         "gtty": (1, 1, "zero"), "nice": (1, 0, "sure"), "sleep": (1, 0, "sure"), "sync": (0, 0, "sure"),
         "csw": (0, 0, "sure"), "dup": (1, 0, "word"), "times": (0, 1, "zero"), "setgid": (1, 0, "zero"),
         "getgid": (0, 0, "sure"), "kill": (1, 1, "zero"), "mount": (0, 3, "zero"), "umount": (0, 1, "zero")}
SYS = 0o104400


def routine(name):
    """The source of the routine of a call: its arguments are on the stack, the first one at 2(sp)."""
    registers, words, result = CALLS[name]
    lines = [f"\t.globl\t_{name}", f"_{name}:"]
    lines += [f"\tmov\t{2 + 2 * at:o}(sp),r{at}" for at in range(registers)]
    lines += [f"\tmov\t{2 + 2 * (registers + at):o}(sp),indir.call+{2 + 2 * at}" for at in range(words)]
    lines += [f"\tmov\t${SYS + NUMBERS[name]:o},indir.call", "\tsys\tindir; indir.call"] if words else [f"\tsys\t{name}"]
    if result in ("word", "zero"):
        lines.append("\tjes\tcerror")
    lines += ["\tclr\tr0"] if result == "zero" else []
    lines.append("\trts\tpc")
    return "\n".join(lines) + "\n"


def names_of(source):
    """The names that a source in assembly makes known to others."""
    return {name for line in re.findall(r"^\s*\.(?:globl|comm)\s+(.*)", source, re.M)
            for name in NAME.findall(line.split("/")[0])}


def labels_of(source):
    """The names before a colon."""
    return set(re.findall(r"^([A-Za-z_.~][\w.~]*):", source, re.M))


def given_by(source):
    """The names that others get from a source."""
    return names_of(source) & (labels_of(source) | set(re.findall(r"^\s*\.comm\s+([\w.~]+)", source, re.M)))


def spoken_in(source):
    """All names of a source, the instructions among them."""
    return {name for line in source.split("\n") for name in NAME.findall(line.split("/")[0])}


class Library:
    """The parts of the library, (name, source), by the names that they give. `compiled` makes assembly of a file in C; it is
    asked for those where a name of C, which begins with `_`, is in no other part."""

    def __init__(self, compiled):
        self.parts, self.compiled, self.whole = {"_" + name: (name, routine(name)) for name in CALLS}, compiled, False
        self.take(".s")

    def take(self, ending):
        folder = os.path.join(FOLDER, "lib")
        for path in sorted(os.path.join(folder, file) for file in os.listdir(folder) if file.endswith(ending)):
            if ending == ".c":
                source = self.compiled(path)
            else:
                with open(path, encoding="ascii") as file:
                    source = file.read()
            self.parts.update(dict.fromkeys(given_by(source), (path, source)))

    def wanted(self, sources):
        """The parts that these sources need, and those that these need, the start of a program first."""
        found, new = [], [self.parts["start"]]
        spoken = set().union(*(spoken_in(source) for _, source in sources))
        given = set().union(*(given_by(source) | labels_of(source) for _, source in sources))
        while new:
            found += new
            for _, source in new:
                spoken |= spoken_in(source)
                given |= given_by(source) | labels_of(source)
            missing = sorted(spoken - given)
            if not self.whole and any(name[0] == "_" and name not in self.parts and name != "_end" for name in missing):
                self.take(".c")
                self.whole = True
            new = list(dict.fromkeys(self.parts[name] for name in missing if name in self.parts))
        return found
