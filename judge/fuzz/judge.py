"""Judges a case of the fuzzer: what the built program comes to, beside what the reference comes to."""
import collections
import functools
import json
import os
import re
import resource
import shutil
import signal
import subprocess
import sys
import tempfile

from judge.compare.file_calls import DISK_BYTES, SWAP_AT, first_difference, line_difference, node_differences
from judge.fuzz.hosts import FAULT, SENTINEL, Host, Stand, input_bytes, write_faults

USAGE = (b"usage: v6 run IMAGE CORE SCRIPT TERM LOG FINAL, run8 IMAGE CORE SCRIPT TERM LOG FINAL, "
         b"run2 IMAGE CORE SCRIPT TERM LOG FINAL IMAGE2 FINAL2, memory IMAGE CORE SCRIPT FINAL, check IMAGE, "
         b"make N FINAL, demo N, audit LOG\n")
PANICS = {"swap": b"panic: out of swap space\n", "zombie": b"panic: out of swap\n", "text": b"panic: out of text\n"}
OUTPUTS = ("term", "log", "final")
LINES = tuple(f"term.{line}" for line in range(1, 8))  # what `run8` writes beside the console's
FILES = OUTPUTS + LINES + ("final2",)
DONE, USAGE_STATUS, READ_FAULT, WRITE_FAULT, CORE_SIZE, SCRIPT_FAULT, IMAGE_FAULT, PANIC = range(8)
SECOND_FAULT, LAST_STATUS = 12, 13
MOST_NODES, SECOND_BLOCKS = 65535, 4872  # of two disks, and of the file system of a second one
MOST_SLOTS = 20_000  # that the reference follows
MOST_EVENTS = 30_000
SECONDS, BYTES, FILE_BYTES = 60, 2**28, 2**28  # of processor time, of memory, of a file, that the program may take
REFERENCE_SECONDS = 60  # of processor time
NOBODY = 65534
VALGRIND = ("valgrind", "-q", "--error-exitcode=99")

# what is counted in the logs of runs
MET = (("waits for the disk", r"^sleep \d+ -50 disk"), ("waits for room on the console", r"^sleep \d+ 20 show$"),
       ("waits for room on other lines", r"^sleep \d+ 20 show\."), ("waits for keys of the console", r"^sleep \d+ 10 keys$"),
       ("waits for keys of other lines", r"^sleep \d+ 10 keys\."), ("signals of a hangup", r"^signal \d+ 1$"))

ALL_BITS = bytes([0, 255] + [0] * 254)

Outcome = collections.namedtuple("Outcome", "status report run")
Ran = collections.namedtuple("Ran", "status report files")


class TooSlow(Exception):
    """The reference can't follow."""


# the reference


@functools.cache
def modules():
    """The modules of the reference."""
    sys.path.insert(0, os.environ["ABSTRACT_UNIX"])
    from abstract_unix import disk, generate, runs, script
    return disk, generate, runs, script


def too_slow(*_):
    raise TooSlow


def in_time(body):
    """What a body comes to, where it takes no longer than the reference may."""
    before = signal.signal(signal.SIGPROF, too_slow)
    signal.setitimer(signal.ITIMER_PROF, REFERENCE_SECONDS)
    try:
        return body()
    finally:
        signal.setitimer(signal.ITIMER_PROF, 0)
        signal.signal(signal.SIGPROF, before)


def events_of(script):
    """The events of a script, or the line of its fault."""
    reader = modules()[3]
    try:
        return reader.read(script), None
    except reader.BadScript as fault:
        return None, fault.text.encode() + b"\n"


def slots_of(events):
    return sum(event[1] for event in events if event[0] == "run")


def refused(image, core, script, others=()):
    """The status and report of what is refused, or the events of the script. `others` has the second image, if there is one."""
    if not 64 <= core <= 3968:
        return Outcome(CORE_SIZE, b"core size\n", None), None
    if image is None:
        return Outcome(READ_FAULT, b"read fault: image\n", None), None
    fault = modules()[0].check(image)
    if fault:
        return Outcome(IMAGE_FAULT, fault.encode() + b"\n", None), None
    for second in others:
        if came := second_refused(image, second):
            return came, None
    if script is None:
        return Outcome(READ_FAULT, b"read fault: script\n", None), None
    events, fault = events_of(script)
    return (Outcome(SCRIPT_FAULT, fault, None) if fault else None), events


def second_refused(image, second):
    """The same of a second image, beside one without a fault."""
    disk = modules()[0]
    if second is None:
        return Outcome(READ_FAULT, b"read fault: second\n", None)
    fault = disk.check(second, SECOND_BLOCKS, "second image")
    count = 16 * sum(disk.Blocks(each).isize for each in (image, second)) if not fault else 0
    fault = fault or count > MOST_NODES and f"second image: {count} nodes in all"
    return Outcome(SECOND_FAULT, fault.encode() + b"\n", None) if fault else None


def written(command):
    """The files that a command writes, in the order in which it opens them."""
    outputs = [name for name in (*OUTPUTS, "final2") if name in command]
    return [*outputs[:1], *LINES, *outputs[1:]] if command[0] == "run8" and outputs[:1] == ["term"] else outputs


def port_of(name):
    """What a report calls the port of a file."""
    return "second" if name == "final2" else name.replace("term.", "line")


def reference_run(image, core, script, lines=1, others=()):
    """What a run comes to by the reference, over so many lines and perhaps a second image."""
    came, events = refused(image, core, script, others)
    if came:
        return came
    if slots_of(events) > MOST_SLOTS or len(events) > MOST_EVENTS:
        raise TooSlow
    run = in_time(lambda: modules()[2].Run(image, core, events, lines, *others))
    return Outcome(PANIC if run.panic else DONE, PANICS.get(run.panic, b""), run)


def number(word):
    return int(word) if re.fullmatch("[0-9]{1,9}", word) else None


# the program


def limits(case_limit):
    """What the program may take, set where it starts."""
    def set_all():
        resource.setrlimit(resource.RLIMIT_CPU, (SECONDS, SECONDS))
        resource.setrlimit(resource.RLIMIT_AS, (BYTES, BYTES))
        resource.setrlimit(resource.RLIMIT_CORE, (0, 0))
        most = FILE_BYTES if case_limit is None else case_limit
        resource.setrlimit(resource.RLIMIT_FSIZE, (most, most))
        signal.signal(signal.SIGXFSZ, signal.SIG_IGN)
    return set_all


class Program:
    """The built program, called in a folder."""

    def __init__(self, command):
        self.command = [os.path.abspath(command[0]) if os.sep in command[0] else command[0], *command[1:]]

    def call(self, words, folder, host=Host(), under=()):
        """A status, or what ended the program, and its report."""
        out = subprocess.PIPE
        kind = host.kinds.get("report")
        if kind == "full":
            out = os.open("/dev/full", os.O_WRONLY)
        elif kind:
            reading, out = os.pipe()
            os.close(reading)
        is_other = os.geteuid() == 0 and "locked" in host.kinds.values()  # to user 0 nothing is locked
        more = {"user": NOBODY, "group": NOBODY, "extra_groups": []} if is_other else {}
        try:
            done = subprocess.run([*under, *self.command, *words], cwd=folder, stdin=subprocess.DEVNULL, stdout=out,
                                  stderr=subprocess.PIPE, timeout=10 * SECONDS,
                                  preexec_fn=None if under else limits(host.limit), **more)
        except subprocess.TimeoutExpired:
            return "no end", b""
        finally:
            if kind:
                os.close(out)
        said = done.stderr[:300] if done.stderr else b""
        report = (done.stdout or b"") + (b"stderr: " + said if said else b"")
        return done.returncode, report

    def over(self, case, host=Host(), under=(), words=None):
        """What the program comes to over the files of a case."""
        with tempfile.TemporaryDirectory() as folder:
            os.chmod(folder, 0o777)
            stand = Stand(host, folder, case.files())
            try:
                status, report = self.call(words or case.words(), folder, host, under)
            finally:
                stand.end()
            files = {name: stand.bytes(name) for name in FILES}
            hurt = [name for name in FILES if host.kinds.get(name) in FAULT and not stand.is_there_still(name)]
            return Ran(status, report, files), hurt


# differences


def ended(status, report):
    """What is wrong with the way in which the program ended, whatever its answer."""
    if status == "no end" or not 0 <= status <= LAST_STATUS:
        yield f"ended: status {status}, {report[:300]!r}"
    elif report.count(b"\n") > 1 or report and not report.endswith(b"\n"):
        yield f"ended: a report that is no line: {report[:300]!r}"


def answered(ran, status, report):
    if (ran.status, ran.report) != (status, report):
        yield f"status: {ran.status} {ran.report[:200]!r}, and by the reference {status} {report[:200]!r}"


def nothing_written(ran):
    for name, data in ran.files.items():
        if data is not None:
            yield f"written: {len(data)} bytes of {name}, where the command is refused"


def store_differences(image, want, final, is_second=False):
    """How a final disk differs from the store that the reference comes to. The order of the free inodes counts."""
    disk = modules()[0]
    more, end = ((SECOND_BLOCKS,), DISK_BYTES) if is_second else ((), SWAP_AT)
    whole = image.ljust(DISK_BYTES, b"\0")
    if len(final) != DISK_BYTES:
        yield f"final: {len(final)} bytes"
        return
    fault = disk.check(final, *more)
    if fault:
        yield f"final: a fault: {fault}"
        return
    fsize = int.from_bytes(whole[514:516], "little")
    if final[512 * fsize : end] != whole[512 * fsize : end] or final[:516] != whole[:516]:
        yield "final: its boot block, or what is after the file system, has changed"
    got, want = (json.loads(json.dumps(store.dump())) for store in (disk.store_of(final), want))
    for key in ("count", "room", "spare", "stamp"):
        if want[key] != got[key]:
            yield f"final {key}: {str(got[key])[:300]}, and by the reference {str(want[key])[:300]}"
    for ino in sorted(want["nodes"].keys() | got["nodes"].keys(), key=int):
        yield from (f"final {said}" for said in node_differences(ino, want["nodes"].get(ino), got["nodes"].get(ino)))


def masked(what, got, want, mask):
    """Whether bytes differ where the mask is 1."""
    got = got[: len(mask)].ljust(len(mask), b"\0")
    bits = int.from_bytes(bytes(mask).translate(ALL_BITS), "little")
    if (int.from_bytes(got, "little") ^ int.from_bytes(want, "little")) & bits:
        wrong = [at for at, is_said in enumerate(mask) if is_said and got[at] != want[at]]
        yield f"{what}: {len(wrong)} bytes are others, the first at {wrong[0]}"


def run_differences(case, ran, want):
    """How what a run leaves differs from what the reference comes to."""
    yield from answered(ran, want.status, want.report)
    if want.run is None:
        yield from nothing_written(ran)
        return
    term, log, final = (ran.files[name] for name in OUTPUTS)
    text = "".join(line + "\n" for line in want.run.log).encode()
    for line, data in enumerate([term, *(ran.files[name] for name in LINES)]):
        shown = bytes(want.run.u.lines[line].shown) if line < len(want.run.u.lines) else None
        if data != shown:
            yield f"terminal {line}: " + first_difference(shown or b"", data or b"")
    if log != text:
        yield "log: " + line_difference(text, log or b"")
    yield from store_differences(case.image, want.run.u.stores[0], final or b"")
    for second in case.others():
        found = store_differences(second, want.run.u.stores[1], ran.files["final2"] or b"", is_second=True)
        yield from (f"second {said}" for said in found)
    _, _, swap, mask = want.run.memory()
    yield from masked("swap", (final or b"")[SWAP_AT:], swap, mask)


def memory_differences(program, case, want):
    """The same of the bytes that `memory` leaves."""
    words = ["memory", "image", case.core, "script", "final"]
    ran, _ = program.over(case, words=words)
    yield from ended(ran.status, ran.report)
    yield from answered(ran, want.status, want.report)
    if want.run is None:
        yield from nothing_written(ran)
    elif want.status == DONE:
        core, core_mask, swap, swap_mask = want.run.memory()
        got = ran.files["final"] or b""
        if len(got) != len(core) + len(swap):
            yield f"memory: {len(got)} bytes"
        yield from masked("memory", got, core + swap, core_mask + swap_mask)
    elif ran.files["final"] != b"":
        yield f"memory: {len(ran.files['final'] or b'')} bytes after a panic"


def by_itself(program, case):
    """What can be said of a run that the reference doesn't follow: a command that comes to its outputs, of which one can't be
    opened, says so; and everything before that is judged."""
    came, _ = refused(case.image, number(case.core), case.script(), case.others())
    host = Host({"term": "missing"})
    ran, _ = program.over(case, host)
    yield from ended(ran.status, ran.report)
    want = came or Outcome(WRITE_FAULT, b"write fault: term\n", None)
    yield from answered(ran, want.status, want.report)
    yield from nothing_written(ran)


# whole cases


def count(case, run, counts):
    """What a run has met."""
    log = "\n".join(run.log)
    counts["lines of logs"] += len(run.log)
    for name, text in MET:
        found = len(re.findall(text, log, re.MULTILINE))
        counts[name] += found
        counts[f"runs with {name}"] += found > 0
    for command in ("run8", "run2"):
        counts[f"runs under `{command}`"] += case.command[0] == command
    for word in (b"disk", b"pace", b"line", b"hangup"):
        counts[f"scripts with {word.decode()}"] += any(line.startswith(word + b" ") for line in case.lines)


def run_case(program, case, counts):
    """A run whose files are plain."""
    try:
        lines = 8 if case.command[0] == "run8" else 1
        want = reference_run(case.image, number(case.core), case.script(), lines, case.others())
    except TooSlow:
        counts["not followed by the reference"] += 1
        yield from by_itself(program, case)
        return
    ran, _ = program.over(case)
    yield from ended(ran.status, ran.report)
    yield from run_differences(case, ran, want)
    counts[f"status {want.status}"] += 1
    if want.run:
        count(case, want.run, counts)
    if case.seed % 3 == 0 and case.command[0] == "run":
        counts["memories compared"] += 1
        yield from memory_differences(program, case, want)


def contents(case):
    """What a host's images and script hold."""
    files = case.files()
    one, other = case.host.same or ("", "")
    if one in files and other in files:
        files[other] = files[one]
    return {name: input_bytes(case.host, name, data) for name, data in files.items()}


def plain_outputs(program, case, files):
    """What a command writes over plain files with these bytes."""
    plain = case.with_(image=files["image"], second=files.get("image2"), lines=[files["script"]], last_end=b"", host=None)
    return program.over(plain)[0]


def host_case(program, case, counts):
    """A run over a host that fails."""
    host, files = case.host, contents(case)
    outputs = written(case.command)
    came, events = refused(files["image"], number(case.core), files["script"], [files[name] for name in case.seconds()])
    ran, hurt = program.over(case, host)
    counts["host: " + (", ".join(sorted(set(host.kinds.values()))) or ("same" if host.same else "limit"))] += 1
    yield from ended(ran.status, ran.report)
    yield from (f"hurt: what stood under {name} is gone" for name in hurt)
    if came:
        yield from answered(ran, came.status, came.report if "report" not in host.kinds else b"")
        yield from untouched(case, ran, outputs)
        return
    if slots_of(events) > 100 * MOST_SLOTS:
        return
    plain = plain_outputs(program, case, files)
    yield from ended(plain.status, plain.report)
    yield from fault_differences(case, ran, plain, outputs)


def untouched(case, ran, outputs):
    """Where a command is refused, nothing that is written has changed."""
    for name in outputs:
        kind, data = case.host.kinds.get(name), ran.files[name]
        wanted = {"there": SENTINEL, "locked": SENTINEL, "pipe": b"", "closed pipe": b""}.get(kind)
        if name not in case.host.same and data != wanted:
            yield f"written: {name} is another, where the command is refused"


def fault_differences(case, ran, plain, outputs):
    """A fault of the right port, and fronts of what a run over plain files writes."""
    host = case.host
    may, must = write_faults(host, {name: plain.files[name] or b"" for name in outputs})
    answers = [] if must else [(plain.status, plain.report if "report" not in host.kinds else b"")]
    answers += [(WRITE_FAULT, f"write fault: {port_of(name)}\n".encode()) for name in may]
    if (ran.status, ran.report) not in answers:
        yield f"status: {ran.status} {ran.report[:200]!r}, and one of {answers} is right"
    if host.same and set(host.same) <= set(outputs):
        return
    for name in outputs:
        data, whole = ran.files[name], plain.files[name] or b""
        if host.kinds.get(name) in {"full", "null", *FAULT}:
            continue
        is_later = must and host.kinds.get(may[0]) in FAULT and may[0] in outputs[: outputs.index(name)]
        if is_later and data != {"there": SENTINEL, "pipe": b"", "closed pipe": b""}.get(host.kinds.get(name)):
            yield f"written: {name} is another, where {may[0]} could not be opened"
        elif not is_later and (data is None or not whole.startswith(data)):
            yield f"front: {name} holds no front of what it would"
        elif not is_later and ran.status != WRITE_FAULT and host.kinds.get(name) != "closed pipe" and data != whole:
            yield f"whole: {name} has {len(data)} bytes of {len(whole)}"


def command_case(program, case, counts):
    """Words of a command: what they ask for, and else how it is used."""
    words = case.words()
    counts["commands"] += 1
    ran, _ = program.over(case)
    yield from ended(ran.status, ran.report)
    if any("\udc80" <= letter <= "\udcff" for word in words for letter in word):
        words = ["a word that is no text"]
    match words:
        case ["run" | "run8", image, core, script, *outputs] if len(outputs) == 3 and number(core) is not None:
            yield from named_case(case, ran, (image, core, script), outputs, 8 if words[0] == "run8" else 1)
        case ["run2", image, core, script, *outputs, second, final2] if len(outputs) == 3 and number(core) is not None:
            yield from named_case(case, ran, (image, core, script, second), [*outputs, final2])
        case ["memory", image, core, script, output] if number(core) is not None:
            yield from named_case(case, ran, (image, core, script), [output])
        case ["check", image]:
            yield from answered(ran, *check_answer(case.image if image == "image" else None))
        case ["make", n, "final"] if number(n) is not None:
            yield from answered(ran, DONE, b"")
            if ran.files["final"] != bytes(modules()[1].build(int(n))):
                yield "make: another disk than the reference's"
        case ["demo", n] if number(n) is not None:
            if not re.fullmatch(rb"demo %d: 60000 slots, 25 shown, \d+ nodes, \d+ free\n" % int(n), ran.report):
                yield f"demo: {ran.report!r}"
        case ["make", n, _] if number(n) is not None:
            if ran.status not in (DONE, WRITE_FAULT):
                yield f"status: {ran.status} {ran.report!r} with an odd name"
        case _:
            yield from answered(ran, USAGE_STATUS, USAGE)
            yield from nothing_written(ran)


def named_case(case, ran, inputs, outputs, lines=1):
    """A run over files of any names, of which two are there, and of which some can't be."""
    image, core, script, *second = inputs
    there = case.files()
    others = [there.get(name) for name in second]
    came, _ = refused(there.get(image), int(core), there.get(script), others)
    named = {1: OUTPUTS[2:], 3: OUTPUTS, 4: (*OUTPUTS, "final2")}[len(outputs)]
    bad = [port_of(file) for file, name in zip(named, outputs) if not 0 < len(name) < 256]
    if lines > 1 and bad != ["term"] and len(outputs[0]) > 253:  # the names of its lines have two letters more
        bad = ["line1"]
    if came:
        yield from answered(ran, came.status, came.report)
        yield from nothing_written(ran)
    elif bad:
        yield from answered(ran, WRITE_FAULT, f"write fault: {bad[0]}\n".encode())
    else:
        want = reference_run(there[image], int(core), there[script], lines, others)
        is_plain = tuple(outputs) == named and len(named) > 1 and second == list(case.seconds())
        yield from run_differences(case, ran, want) if is_plain else answered(ran, want.status, want.report)


def check_answer(image):
    """What `check` answers by the reference, of an image or of no file."""
    if image is None:
        return READ_FAULT, b"read fault: image\n"
    disk = modules()[0]
    fault = disk.check(image)
    return (IMAGE_FAULT, fault.encode() + b"\n") if fault else (DONE, b"ok %d nodes %d free\n" % disk.tally(image))


def under_valgrind(program, case):
    """Whether valgrind has something to say, and whether the program comes to the same under it."""
    if not shutil.which(VALGRIND[0]):
        return
    ran, other = program.over(case)[0], program.over(case, under=VALGRIND)[0]
    if ran != other:
        yield f"valgrind: status {other.status} {other.report[:300]!r}, or other files"


def differences(program, case, counts, valgrind=False):
    """All that is wrong with a case, a line each."""
    judge = host_case if case.host else command_case if case.kind == "command" else run_case
    try:
        found = list(judge(program, case, counts))
    except TooSlow:
        counts["not followed by the reference"] += 1
        return []
    except Exception as error:  # a reference that stops is a finding too
        found = [f"reference: it stopped: {error!r}"]
    if valgrind and not case.host:
        counts["runs under valgrind"] += 1
        found += under_valgrind(program, case)
    return found
