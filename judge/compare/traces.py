#!/usr/bin/env python3
"""Compares what tools/trace.py tells of runs of random programs with the turns that a reference takes.

    judge/compare/traces.py COMMAND COUNT [FIRST] [SLOTS]
    judge/compare/traces.py [small] [execs, pipes, signals] COMMAND COUNT [FIRST] [SLOTS]

The runs are those of judge/compare/processes.py, cut after SLOTS slots (1,000): a seed gives a disk, a size of core and a script.
COMMAND is a built v6. Compared are, turn by turn in the kernel, the slot of the run, the number of the process, the name of the
call, whether it waits, ends or goes on, the error or the number that is the answer, and how many turns there are. Where the run
comes to a panic, the turns until then are compared.

The reference is the Python module `abstract_unix`; the environment variable ABSTRACT_UNIX names the folder in which it is. Of a
v6 without the command `memory`, the memory of each moment is the reference's too: then the moments, the names of processes and
the reading of memory are judged, and not the memory itself.
"""
import os
import re
import sys
import tempfile
import types

sys.path.insert(0, os.path.dirname(os.path.dirname(os.path.dirname(os.path.realpath(__file__)))))
from judge.compare.comparing import asked
from judge.compare.processes import kind_of

from v6.debug.calls import ANSWERS, ERRORS, NAMES, NUMBER, PENDING, SYS
from v6.debug.tracer import Tracer
from v6.host.program import call
from v6.run.moments import Memory, Run, Script

TOLD = re.compile(r" *(\d+) \[(\d+)[^]]*\] (.*)", re.S)
ENDS = ("trap", "sleep", "exit")


def name_of(process):
    """The name of the call at which a process of the reference is, or that it waits in; None where it is at no call."""
    if process.pending:
        return PENDING[process.pending]
    image = process.image
    data = (bytes(image.text).ljust(image.base, b"\0") + bytes(image.data)).ljust(image.low, b"\0") + bytes(image.stack)

    def word(at):
        return data[at % 65536] | data[(at + 1) % 65536] << 8

    at = process.r[7]
    if word(at) == SYS:
        at = word(at + 2)
    return NAMES.get(word(at) & NUMBER, f"call {word(at) & NUMBER}") if SYS <= word(at) <= SYS | 0o377 else None


def turns_of(image, core, script):
    """(slot, process, the name of its call, kind, R0, carry and signal) of each turn in the kernel that the reference takes. The
    signal is the one that was sent last to a process that ends, and to another one in this turn, or 0."""
    from abstract_unix import runs, script as scripts

    class Turns(runs.Run):
        def slot(self):
            unix, since = self.u, len(self.log)
            number, running = unix.passed + 1, self.t.running
            process = unix.procs[running] if running else None
            name = name_of(process) if process else None
            if name == "disk":
                name = waits[process.pid]
            super().slot()
            for line in self.log[since:]:
                kind, *more = line.split(" ")
                if kind in ENDS and more[0] != "0":
                    area = process.area(unix.text_clicks(process)) if kind == "trap" else bytes(17)
                    sent = self.signal(more[0], 0 if kind == "exit" else since)
                    found.append((number, process.pid, name, kind, area[0] | area[1] << 8, area[16] & 1, sent))
                    waits[process.pid] = name

        def signal(self, slot, since):
            """The signal that was sent last to a process, from a line on."""
            return int(([line for line in self.log[since:] if line.startswith(f"signal {slot} ")] or ["0"])[-1].split(" ")[-1])

    found, waits = [], {}
    Turns(image, core, scripts.read(script))
    return found


class ReferenceRun(Run):
    """A run whose memory is the reference's."""

    def memory(self, slots, more=False):
        from abstract_unix import runs, script as scripts
        with open(self.image, "rb") as file:
            core, _, swap, _ = runs.Run(file.read(), self.core, scripts.read(self.script.cut(slots, more))).memory()
        return Memory(bytes(core + swap), self.core)


def fits(turn, said):
    """Whether a line that is told is about a turn."""
    slot, process, name, kind, r0, carry, sent = turn
    told = TOLD.fullmatch(said)
    if (int(told[1]), int(told[2])) != (slot, process):
        return False
    if kind == "exit" and name != "exit":
        return re.fullmatch(rf"({name}\(.*\), and )?ends by signal {sent}", told[3], re.S) is not None
    if name is None:
        said = f"a fault, which is signal {sent}" if sent else "a larger stack: "
        return kind == "trap" and told[3].startswith(said)
    if not told[3].startswith(name + "("):
        return False
    if kind != "trap":
        return ") waits " in told[3] if kind == "sleep" else True
    if name.startswith("call "):
        return told[3].endswith(f") = signal {sent}")
    if carry:
        return f") = {ERRORS.get(r0, f'error {r0}')}" in told[3]
    if ANSWERS.get(name) in ("d", "r", "w"):
        return re.search(rf"\) = {r0}\b", told[3]) is not None
    return re.search(r"\) = (done|[0-9])", told[3]) is not None


def compare(command, count, first, slots, kind):
    differ, turns = 0, 0
    has_memory = call(command, "memory", os.devnull, "63", os.devnull, os.devnull)[0] != 1
    options = types.SimpleNamespace(first=1, last=sys.maxsize, process=None)
    for seed in range(first, first + count):
        case = kind(seed)
        script = Script(case.script.bytes())
        script = script.cut(min(script.slots, slots))
        with tempfile.TemporaryDirectory() as folder:
            case.write(folder)
            run = (Run if has_memory else ReferenceRun)(command, folder + "/image", case.core, script, folder)
            told = [said for _, said in Tracer(run, options).follow()]
        want = turns_of(case.image, case.core, script) if not run.status else None
        if want is None:  # up to a panic
            want = turns_of(case.image, case.core, Script(script).cut(int(TOLD.match(told[-1])[1]), True))[: len(told)]
        turns += len(want)
        found = [f"{turn}: {said}" for turn, said in zip(want, told) if not fits(turn, said)]
        if len(want) != len(told):
            found.append(f"{len(want)} turns, and {len(told)} are told")
        differ += bool(found)
        for line in found[:8]:
            print(f"seed {seed}: {line}", flush=True)
    memory = "its own" if has_memory else "the reference's"
    print(f"{count} runs, {turns} turns in the kernel, {differ} runs differ; the memory was {memory}")
    return bool(differ)


if __name__ == "__main__":
    case, words = kind_of(sys.argv[1:])
    sys.exit(compare(*asked(words, __doc__, 1, 0, 1000), case))
