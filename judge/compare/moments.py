#!/usr/bin/env python3
"""Compares what tools/look.py shows at random moments of random runs with what a reference has then.

    judge/compare/moments.py COMMAND RUNS MOMENTS [FIRST] [SLOTS]
    judge/compare/moments.py [small] [execs] COMMAND RUNS MOMENTS [FIRST] [SLOTS]

The runs are those of judge/compare/processes.py, cut after SLOTS slots (1,000): a seed gives a disk, a size of core and a script. In each
run so many MOMENTS are drawn. COMMAND is a built v6. Compared are the rows of `ps`: state, number, parent, user, place, time,
size, text and what is waited for; of each process its registers and condition codes, as `process` shows them, its signals' handlers
and open files, and 64 words of its memory from a random address on; and the tables of `core`, `swap` and `texts`.

The reference is the Python module `abstract_unix`; the environment variable ABSTRACT_UNIX names the folder in which it is. Of a v6
without the command `memory`, the memory of each moment is the reference's too: then the moments, the table and the reading of
memory are judged, and not the memory itself.
"""
import os
import random
import re
import sys
import tempfile

sys.path.insert(0, os.path.dirname(os.path.dirname(os.path.dirname(os.path.realpath(__file__)))))
from judge.compare.comparing import asked
from judge.compare.processes import kind_of
from judge.compare.traces import ReferenceRun

from v6.debug.commands import Looker
from v6.debug.symbols import Programs
from v6.debug.views import Views
from v6.host.program import call
from v6.run.history import History
from v6.run.moments import Run, Script

LETTERS = {"srun": ("r", "o"), "swait": ("w", "W"), "ssleep": ("s", "S"), "szomb": ("z", "z")}
WORDS = 64
ROW = re.compile(r"(\S) +(\d+) +(\d+) +(\d+) +(\S+) +(\S+) (.{10}) +(\d+) +(\S+) +(\S+) (\S+)")


class Wanted:
    """What the reference has at a moment, in the words of look.py."""

    def __init__(self, case, script):
        from abstract_unix import runs, script as scripts
        self.run = runs.Run(case.image, case.core, scripts.read(script))
        self.unix, self.table = self.run.u, self.run.t

    def place(self, row):
        return "-" if row.place is None else f"{row.place[0]} {row.place[1]}"

    def rows(self):
        found = []
        for slot, row in enumerate(self.table.rows):
            process = self.unix.procs[slot]
            if slot and process is None:
                continue
            channel = ".".join(map(str, row.channel)) if isinstance(row.channel, tuple) else row.channel
            is_inside = row.place is None or row.place[0] == "at"
            letter = LETTERS[row.state][not is_inside]
            letter = "R" if letter in "ro" and slot == self.table.running else letter
            found.append((letter, slot, process.pid if slot else 0, process.ppid if slot else 0,
                          str(process.uid) if slot and row.place else "-", self.place(row), row.time, str(row.size) if slot else "-",
                          "-" if row.text is None else str(row.text), channel or "-"))
        return found

    def registers(self, slot):
        process = self.unix.procs[slot]
        codes = "".join(name if process.cc & bit else "-" for name, bit in (("n", 8), ("z", 4), ("v", 2), ("c", 1)))
        return process.r[:8], codes

    def words(self, slot, at):
        """Words of a process from an address on, or None where there is nothing."""
        process, row = self.unix.procs[slot], self.table.rows[slot]
        text = bytes(self.unix.texts[row.text][1]) if row.text is not None else b""
        text = text.ljust(-(-len(text) // 64) * 64, b"\0")
        data, stack = bytes(process.image.data), bytes(process.image.stack)
        parts = [(0, text), (-(-len(text) // 8192) * 8192, data), (65536 - len(stack), stack)]

        def byte(address):
            for first, held in parts:
                if first <= address % 65536 < first + len(held):
                    return held[address % 65536 - first]
            return None

        found = [(byte(address), byte(address + 1)) for address in range(at, min(at + 2 * WORDS, 65536), 2)]
        return [None if None in pair else pair[0] | pair[1] << 8 for pair in found]

    def area(self, slot):
        """The handlers that are set, and the descriptors of open files."""
        process = self.unix.procs[slot]
        area = process.area(self.unix.text_clicks(process))
        caught = [n for n in range(1, 20) if area[64 + 2 * n] | area[65 + 2 * n]]
        return caught, [(n, area[104 + n] - 1) for n in range(15) if area[104 + n]]

    def held(self, where):
        """The places that are held: (first, last)."""
        taken = self.table.core_taken() if where == "core" else self.table.swap_taken()
        return sorted((start, start + units - 1) for start, units in taken)

    def texts(self):
        return [(number, text.clicks, text.block, text.users, text.loaded) for number, text in enumerate(self.table.texts) if text]


def rows_of(lines):
    found = []
    for line in lines[1:]:
        letter, slot, number, parent, user, _, place, time, size, text, waits = ROW.match(line.ljust(80)).groups()
        found.append((letter, int(slot), int(number), int(parent), user, place.strip(), int(time), size, text, waits))
    return found


def registers_of(lines):
    said = " ".join(lines)
    values = re.search("registers  " + r" +".join(rf"{name} (\d+)" for name in ("r0", "r1", "r2", "r3", "r4", "r5", "sp", "pc")), said)
    return [int(value, 8) for value in values.groups()], re.search(r"codes (\S+)", said)[1]


def words_of(lines):
    found = []
    for line in lines:
        found += [None if "-" in word else int(word, 8) for word in re.findall(r"--|[0-7]{6}", line[22:77])]
    return found


def area_of(lines):
    signals = next(line for line in lines if line.startswith("  signals: "))
    return ([int(number) for number in re.findall(r"(\d+) (?:ignored|to)", signals)],
            [(int(found[1]), int(found[2])) for line in lines if (found := re.match(r"  file (\d+): open file (\d+)", line))])


def held_of(lines):
    found = [line.split() for line in lines[:-1]]
    return [(int(words[0]), int(words[2])) for words in found if words[4] != "free"]


def texts_of(lines):
    found = [line.split() for line in lines[1:]]
    return [(int(n), int(clicks), int(block), int(users), int(loaded)) for n, clicks, block, _, _, users, loaded, *_ in found]


def differences(looker, wanted, rng):
    """What differs at the moment that is looked at; and how many processes were compared."""
    pairs = [("ps", rows_of(looker.lines_of("ps")), wanted.rows()), ("texts", texts_of(looker.lines_of("texts")), wanted.texts())]
    pairs += [(where, held_of(looker.lines_of(where)), wanted.held(where)) for where in ("core", "swap")]
    count = 0
    for slot, process in enumerate(wanted.unix.procs):
        if process is None or process.zombie or wanted.table.rows[slot].place is None:
            continue
        lines, count = looker.lines_of(f"process {process.pid}"), count + 1
        at = 2 * rng.choice((0, 0, process.r[6] // 2, rng.randrange(32768)))
        words = words_of(looker.lines_of(f"words {at} {WORDS} of {process.pid}"))
        pairs += [(f"registers of {process.pid}", registers_of(lines), wanted.registers(slot)),
                  (f"u area of {process.pid}", area_of(lines), wanted.area(slot)),
                  (f"words of {process.pid} at {at:06o}", words, wanted.words(slot, at))]
    return [f"{what}: {one} and {other}" for what, one, other in pairs if one != other], count


def compare(command, runs, moments, first, slots, kind):
    differ, compared, processes = 0, 0, 0
    has_memory = call(command, "memory", os.devnull, "63", os.devnull, os.devnull)[0] != 1
    for seed in range(first, first + runs):
        case, rng = kind(seed), random.Random(f"moments {seed}")
        script = Script(case.script.bytes())
        script = script.cut(min(script.slots, slots))
        with tempfile.TemporaryDirectory() as folder:
            case.write(folder)
            run = (Run if has_memory else ReferenceRun)(command, folder + "/image", case.core, script, folder)
            looker = Looker(History(run), Views(Programs(case.image), {}))
            for slot in [rng.randrange(looker.history.last + 1) for _ in range(moments)]:
                looker.lines_of(f"slot {slot}")
                found, count = differences(looker, Wanted(case, run.script.cut(slot, True)), rng)
                compared, processes, differ = compared + 1, processes + count, differ + bool(found)
                for line in found[:4]:
                    print(f"seed {seed}, slot {slot}: {line}", flush=True)
    memory = "its own" if has_memory else "the reference's"
    print(f"{runs} runs, {compared} moments, {processes} processes, {differ} moments differ; the memory was {memory}")
    return bool(differ)


if __name__ == "__main__":
    case, words = kind_of(sys.argv[1:])
    sys.exit(compare(*asked(words, __doc__, 2, 0, 1000), case))
