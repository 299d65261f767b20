"""What the fuzzer makes of a seed: a command with its files, and what stands where it looks for them."""
import copy
import random
import re
import struct
from dataclasses import dataclass, field

from judge import TOP
from judge.compare import console
from judge.compare import file_calls
from judge.random import hostile
from judge.compare import processes
from judge.random import spoil
from judge.fuzz.hosts import random_host
from judge.random.disk import Tree
from judge.random.lines import over, random_lines
from judge.random.script import random_script, slowed

HI = f"{TOP}/examples/hi/image"
INODE_7, HEADER, TEXT = 1216, 33792, 33808  # of /etc/init on the disk of examples/hi
RUN = ("run", "image", "CORE", "script", "term", "log", "final")
RUN8 = ("run8", *RUN[1:])
RUN2 = ("run2", *RUN[1:], "image2", "final2")
MEMORY = ("memory", "image", "CORE", "script", "final")
KINDS = {"disk": 26, "words": 12, "hostile": 22, "script": 14, "host": 12, "command": 4, "odd": 10, "lines": 14, "slow": 14,
         "two": 14}
COMPARED = (file_calls.Case, console.Case, processes.Case, processes.ExecCase, processes.PipeCase, processes.SignalCase)
CORES = (64, 65, 100, 200, 600, 1200, 2048, 3967, 3968)


@dataclass
class Case:
    """A command over an image, a size of core, a script and perhaps a second image, with what is told of it. `places` are those
    of the words of programs, which a smaller case may lack; `host` says what else than a file stands under a name."""

    seed: int
    kind: str
    image: bytes = b""
    core: str = "1200"
    lines: list = field(default_factory=list)
    last_end: bytes = b"\n"
    command: tuple = RUN
    places: list = field(default_factory=list)
    host: object = None
    sort: str = ""
    second: bytes = None

    def script(self):
        return b"\n".join(self.lines) + (self.last_end if self.lines else b"")

    def words(self):
        """The words of the command, in which the files are called so."""
        return [self.core if word == "CORE" else word for word in self.command]

    def seconds(self):
        """The name of the second image, where there is one."""
        return () if self.second is None else ("image2",)

    def files(self):
        """What is read, by its name."""
        return {"image": self.image, "script": self.script(), **dict.fromkeys(self.seconds(), self.second)}

    def others(self):
        """The second image, where the command has one."""
        return (self.second,) if self.command[0] == "run2" else ()

    def with_(self, **changes):
        other = copy.copy(self)
        vars(other).update(changes)
        return other


def read(name):
    with open(name, "rb") as file:
        return file.read()


def lines_of(script):
    data = script.encode() if isinstance(script, str) else script.bytes()
    end = b"\n" if data.endswith(b"\n") else b""
    return data.removesuffix(b"\n").split(b"\n") if data else [], end


def of_compared(rng, seed, kinds=COMPARED):
    """The image, the core and the script of a case of judge/compare."""
    kind = rng.choice(kinds)
    kind = processes.in_small_core(kind) if kind not in COMPARED[:2] and rng.random() < 0.2 else kind
    case = kind(seed)
    lines, end = lines_of(case.script)
    return Case(seed, "", case.image, str(case.core), lines, end, sort=kind.__name__)


def lines_of_disk(image):
    """The lines beside the console that a disk has."""
    return [line for line in range(1, 8) if b"tty%d\0" % line in image]


def on_lines(rng, case):
    """The same under `run8`, where programs open other lines than the console under some of its names: those that the disk has."""
    there = lines_of_disk(case.image)
    image = re.sub(rb"(?<=/dev/tty)8(?=\0)", lambda found: b"%d" % rng.choice((8, *there)), case.image)
    return case.with_(image=image, command=RUN8)


def program_places(image):
    """Where the words of programs stand on a disk: those of files that begin with a magic number, in their first blocks."""
    disk, places = spoil.Disk(None, image), []
    for number, mode in disk.used():
        at = disk.inode_at(number)
        if mode & spoil.TYPES:
            continue
        blocks = [disk.word(at + 8 + 2 * n) for n in range(8)]
        if mode & spoil.LARGE:
            blocks = [disk.word(512 * blocks[0] + 2 * n) for n in range(8)]
        left = disk.word(at + 6)
        if not blocks[0] or disk.word(512 * blocks[0]) not in (0o407, 0o410):
            continue
        for block in blocks:
            places += range(512 * block, 512 * block + min(left, 512), 2) if block else ()
            left = max(left - 512, 0)
    return [at for at in places if at < len(image)]


def disk_with(program, room=30):
    """The disk of examples/hi with this file of at most 512 bytes as /etc/init, and some free blocks."""
    image = spoil.put(read(HI), INODE_7 + 6, struct.pack("<H", len(program)))
    image = spoil.put(image, HEADER, program.ljust(512, b"\0"))
    return spoil.put(image, 516, struct.pack(f"<{room + 1}H", room, *range(67 + room - 1, 66, -1))) if room else image


def some_lines(rng):
    """A script for a program that does something at once: slots and ticks, and some keys."""
    lines = [b"clock %d" % rng.choice((0, 1, 5, 20, 100))] if rng.random() < 0.6 else []
    lines += [b"disk %d" % rng.choice((1, 2, 5, 30))] if rng.random() < 0.3 else []
    lines += [b"pace %d" % rng.choice((1, 1, 2, 5, 30))] if rng.random() < 0.3 else []
    for _ in range(rng.choice((1, 1, 3, 8))):
        lines.append(b"run %d" % rng.choice((10, 50, 100, 300, 600, 1000)))
        if rng.random() < 0.5:
            keys = (b"type abc", b"byte 177", b"byte 034", b"byte 004", b"tick", b"type", b"switch 123456", b"disk 0",
                    b"type a\\#b@c", b"pace 0", b"pace 1", b"line 1", b"line 0", b"hangup 0")
            lines.append(rng.choice(keys))
    return lines


# the kinds


def disk(rng, seed):
    """A disk of judge/compare that is spoiled."""
    case = of_compared(rng, seed)
    return case.with_(image=spoil.spoiled_disk(rng, case.image, mild=rng.random() < 0.6))


def words(rng, seed):
    """Programs of judge/compare of which some words are spoiled."""
    case = of_compared(rng, seed)
    places = program_places(case.image)
    return case.with_(image=spoil.spoiled_words(rng, case.image, places)) if places else disk(rng, seed)


def hostile_program(rng, seed):
    """A program of hostile calls or of random words, on a disk of its own or on a random one."""
    program = hostile.file_of(rng)
    if rng.random() < 0.7:
        image = disk_with(program, rng.choice((0, 1, 2, 30, 30, 30)))
    else:
        image = Tree(random.Random(f"tree {seed}")).image(program, random.Random(f"disk {seed}"))
    if rng.random() < 0.15:
        image = spoil.spoiled_disk(rng, image, mild=True)
    return Case(seed, "", image, str(rng.choice(CORES if rng.random() < 0.5 else CORES[4:])), some_lines(rng))


def script(rng, seed):
    """A script of events in any order, a spoiled one, or a long one."""
    case, kind = of_compared(rng, seed, COMPARED[1:]), rng.random()
    if kind < 0.4:
        lines = spoil.random_events(rng)
    elif kind < 0.97:
        base = random_script(rng).lines if rng.random() < 0.3 else case.lines
        lines = spoil.spoiled_script(rng, base)
    else:
        line = rng.choice((b"tick", b"run 0", b"", b"; long", b"byte 015", b"switch 000001"))
        count = rng.choice((5000, 20000, 1048576 // (len(line) + 1) + rng.randrange(2)))
        lines = [line] * min(count, 20000 if line else 1048577)
    return case.with_(lines=lines, last_end=rng.choice((b"\n", b"\n", b"", b"\r\n")))


def host(rng, seed):
    """A case whose files are no plain files."""
    command = rng.choice((RUN, RUN, RUN8, RUN2, MEMORY))
    case = of_two(seed) if command == RUN2 else hostile_program(rng, seed) if rng.random() < 0.4 else of_compared(rng, seed)
    return case.with_(command=command, host=random_host(rng, command))


def command(rng, seed):
    """Words of all kinds, good and bad."""
    case = Case(seed, "", read(HI), lines=[b"run 30"], second=read(HI))
    commands = (("check", "image"), ("make", str(rng.randrange(200)), "final"), ("demo", str(rng.randrange(3))), RUN, RUN8,
                RUN2, MEMORY, ("make", "CORE", "final"))
    chosen = list(rng.choice(commands))
    cores = ("63", "64", "3968", "3969", "0064", "000001200", "0000001200", "1200 ", "", "-1", "+64", "12x", "999999999",
             "1e3", "64\n")
    kind = rng.random()
    if kind < 0.3:
        odd = ("", "run", "check", "image", "RUN", "run2", "--help", "x" * 5000, "\udcff", "audits")
        chosen[rng.randrange(len(chosen))] = rng.choice(odd)
    elif kind < 0.5:
        del chosen[rng.randrange(len(chosen))]
    elif kind < 0.6:
        chosen.insert(rng.randrange(len(chosen) + 1), "more")
    return case.with_(command=tuple(chosen), core=rng.choice(cores if "CORE" in chosen else ("1200",)))


def odd(rng, seed):
    """A disk with odd things that must run: sizes, links, names and lists that don't fit, without a fault."""
    case = of_compared(rng, seed)
    image = case.image
    for _ in range(rng.choice((2, 5, 10, 30))):
        image = spoil.spoiled_disk(rng, image, mild=True)
    return case.with_(image=image)


def lines(rng, seed):
    """Programs over the lines of a terminal, mostly of eight."""
    image, said, is_eight = random_lines(rng, read(HI))
    core = str(rng.choice((3968, 3968, 1200, 200, 100)))
    return Case(seed, "", image, core, said, command=RUN8 if is_eight else RUN)


def slow(rng, seed):
    """Programs of judge/compare, or over the console or two lines, under a slow disk and a paced terminal; many under `run8`."""
    if rng.random() < 0.5:
        case = of_compared(rng, seed, COMPARED[1:])
        case = on_lines(rng, case) if rng.random() < 0.3 else case
        there = lines_of_disk(case.image) if case.command == RUN8 else []
    else:
        there = rng.sample(range(1, 8), rng.choice((0, 0, 0, 1, 2)))
        image, said = over(rng, read(HI), [0, *there], rng.choice((300, 1000, 2000)))
        case = Case(seed, "", image, str(rng.choice((3968, 1200, 200, 100))), said, command=RUN8 if there else RUN)
    return case.with_(lines=slowed(rng, case.lines, there))


def of_two(seed):
    """The images, the core and the script of a case over two disks."""
    case = file_calls.TwoDisks(seed)
    lines, end = lines_of(case.script)
    return Case(seed, "", case.image, str(case.core), lines, end, command=RUN2, sort="TwoDisks", second=case.second_image)


def two(rng, seed):
    """Programs over two disks under `run2`. A disk may be spoiled, or words of the program; disk and terminal may be slow."""
    case, kind = of_two(seed), rng.random()
    if kind < 0.15:
        case = case.with_(second=spoil.spoiled_disk(rng, case.second, mild=rng.random() < 0.6))
    elif kind < 0.25:
        case = case.with_(image=spoil.spoiled_disk(rng, case.image, mild=rng.random() < 0.6))
    elif kind < 0.35 and (places := program_places(case.image)):
        case = case.with_(image=spoil.spoiled_words(rng, case.image, places))
    elif kind < 0.4:
        case = case.with_(second=rng.choice((case.image, read(HI))))
    return case.with_(lines=slowed(rng, case.lines, [])) if rng.random() < 0.3 else case


MAKERS = {"disk": disk, "words": words, "hostile": hostile_program, "script": script, "host": host, "command": command,
          "odd": odd, "lines": lines, "slow": slow, "two": two}


def case_of(seed, kind=None):
    """The case of a seed; of this kind where it is given."""
    rng = random.Random(f"fuzz {seed}")
    chosen = rng.choices(list(KINDS), KINDS.values())[0]
    kind = kind or chosen
    made = MAKERS[kind](rng, seed)
    made = on_lines(rng, made) if made.command == RUN and rng.random() < 0.3 else made
    made.kind, made.seed = kind, seed
    made.places = program_places(made.image)
    return made
