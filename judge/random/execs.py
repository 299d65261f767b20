"""Programs made at random that execute one another, move the end of their data and let their stacks grow.

A disk gets some programs, under the names in PROGRAMS, beside its /etc/init. Each begins by telling where its stack is
and the words of it, and then does steps as those of random_processes: it executes a program with arguments, calls
break, pushes onto a stack that is to grow, looks at a word of its memory, or has children that do. A program may
have a mode, a header or a size by which an exec of it is refused. Some programs have a text, which those who execute them
share: it begins with a jump to the data, and has words to look at and a routine. Programs are removed, written, linked and
made sticky while others execute them.
"""
import struct

from judge.random.disk import Inode, in_blocks
from judge.random.processes import FD, NAMES, TELL, Chooser, Code, Does, Forks, Indirectly, Program, WaitsForAll, assembled
from judge.random.program import TOP, TRAP, Call

OPEN, CLOSE, CREAT, LINK, UNLINK, EXEC, CHMOD, BREAK, GETUID, GETGID = 5, 6, 8, 9, 10, 11, 15, 17, 24, 47
NAMES.update({EXEC: "exec", BREAK: "break"})
PROGRAMS = ("/b0", "/b1", "/u/b2", "/b3")
MODES = (0o100755,) * 8 + (0o100111, 0o100001, 0o100644, 0o104755, 0o102755, 0o106711, 0o110755)
MAGICS = (0o407,) * 24 + (0o410,) * 4 + (0o411, 0o412, 0, 0o406)
TEXTS = (20, 64, 65, 128, 130, 500, 513, 2000, 5000, 8191, 8192, 8193, 16384, 20000, 30001)
ROUTINE = 4  # where the routine of a text is, after the jump
STICKY_MODES = (0o101755, 0o101777, 0o100755, 0o100777, 0o100711, 0o101700)
BYTES = (0, 0, 0, 0, 1, 63, 64, 65, 500, 2000, 5000, 10000, 20000, 40000, 57000, 58000, 65535)
BREAKS = (0o177700, 0o177777, 0o177701, 0o160000, 0o160001, 0o140000, 0o140001, 0o20000, 0o20001, 0o10000)
STACKS = (64256, 64255, 64257, 64194, 64192, 64000, 63000, 62976, 60000, 57346, 57344, 50000, 40000, 20000, 10000, 9410,
          9408, 65534, 65535)
NEAR = (64256, 64256, 64255, 64194, 64192, 64000, 63500, 63000, 62976)
LENGTHS = (0, 0, 1, 1, 2, 3, 8, 14, 40, 100)


class ExecCall(Call):
    """An exec, which is told with its arguments."""

    def __init__(self, name, list_at, said):
        super().__init__(EXEC, (name, 0), list_at)
        self.said = said

    def __str__(self):
        return f'exec "{self.args[0][0]}" {self.said}'


class Execs(Indirectly):
    """An exec, which is told where it is refused. The list and its texts stand elsewhere, or the list is an address."""

    def __init__(self, name, texts, many=0, at=None):
        self.name, self.texts, self.many, self.list_at = name, texts, many, at
        said = f"{many} empty" if many else f"list at {at}" if at is not None else str(list(texts))
        self.call = ExecCall(name, self.label() if at is None else at, said)

    def label(self):
        return f"@list {self.many} {self.texts}"

    def words_there(self):
        if self.many:
            return ((self.label(), 2 * self.many),) * self.many + (0,)
        data, behind = b"".join(text + b"\0" for text in self.texts), 2 * len(self.texts) + 2
        places = [behind + sum(len(text) + 1 for text in self.texts[:i]) for i in range(len(self.texts))]
        data += b"\0" * (len(data) % 2)
        return tuple((self.label(), at) for at in places) + (0, *struct.unpack(f"<{len(data) // 2}H", data))

    def put(self, w):
        self.at = w.at()
        w.put(TRAP | EXEC, ("=" + self.name, 0), self.call.args[1], *TELL.words)


class Pushes(Code):
    """A push onto a stack that is to be somewhere else, and perhaps a look at what was pushed; R4 keeps SP."""

    def __init__(self, at, push, looks, stays):
        self.stack, self.push, self.looks, self.stays = at, push, looks, stays

    def put(self, w):
        self.at = w.at()
        w.put(0o010604, 0o012706, self.stack)                        # MOV SP,R4; MOV #at,SP
        if self.push == 0o004737:
            w.put(self.push, w.at() + 4)                             # JSR PC,@#.+4
        else:
            w.put(self.push)
        if not self.stays:
            w.put(*([0o011600] if self.looks else []), 0o010406)     # MOV (SP),R0; MOV R4,SP
        if self.looks:
            TELL.put(w)


class Breaks(Code):
    """A break to an address, or to so many bytes after the program, and a look at the last word below that."""

    def __init__(self, at, behind, looks):
        self.to, self.behind, self.looks = at, behind, looks

    def put(self, w):
        self.at = w.at()
        to = ("end", self.behind) if self.to is None else self.to
        w.put(TRAP | BREAK, to, *TELL.words)
        if self.looks and self.to is None and self.behind > 8:
            last = ("end", self.behind // 2 * 2 - 2)
            w.put(0o013700, last, *TELL.words, 0o012737, 0o123456, last)     # MOV @#last,R0; MOV #,@#last


TELLS_STACK = Code(0o010600, *TELL.words, 0o010604, 0o012703, 8, 0o004737, "word")


class ExecChooser(Chooser):
    """Chooses steps of programs that execute one another."""

    def __init__(self, rng, tree, names, text=0):
        super().__init__(rng, tree)
        self.programs, self.text = names or ["/b0"], text

    def step(self, depth):
        own = ((self.executes, 9), (self.breaks, 6), (self.pushes, 5), (self.executing_child, 5 if depth < 1 else 0),
               (self.looks, 2), (self.looks_at_text, 3 if self.text else 0), (self.opens_program, 1),
               (self.changes_program, 3), (self.asks_ids, 1))
        if self.odd(0.35):
            return super().step(depth)
        return self.rng.choices([kind for kind, _ in own], [weight for _, weight in own])[0](depth)

    def texts(self):
        rng = self.rng
        if self.odd(0.08):
            total = rng.choice((509, 510, 511, 512))
            first = rng.randrange(1, total - 1)
            return rng.choice(((b"x" * (total - 1),), (b"y" * (first - 1), b"z" * (total - first - 1))))
        count = rng.choice((0, 1, 1, 2, 2, 3, 5, 20))
        return tuple(bytes(rng.choice(b"abz/.-") for _ in range(rng.choice(LENGTHS))) for _ in range(count))

    def executes(self, _):
        rng = self.rng
        name = rng.choice(self.programs + [p for p in PROGRAMS if self.odd(0.1)] + ["/etc/init"])
        if self.odd(0.06):
            name = rng.choice(self.names + ["/u", "/dev/tty8", "/no", "/b0/x"])
        if self.odd(0.02):
            return [Execs(name, (), at=rng.choice((3, 0o60000, TOP - 1, TOP - 2, TOP - 4)))]
        if self.odd(0.05):
            return [Execs(name, (), many=rng.choice((200, 509, 510, 511)))]
        return [Execs(name, self.texts())]

    def executing_child(self, depth):
        waits = [WaitsForAll()] if self.odd(0.6) else []
        return [Forks(self.executes(depth + 1) + self.exits(), self.odd(0.5)), *waits]

    def breaks(self, _):
        if self.odd(0.1):
            return [Breaks(self.rng.choice(BREAKS), 0, False)]
        behind = self.rng.choice((0, 1, 2, 62, 63, 64, 65, 128, 200, 1000, 3000, 8000, 20000, 30000))
        return [Breaks(None, behind, self.odd(0.7))]

    def pushes(self, _):
        near = NEAR if self.odd(0.8) else STACKS
        at = self.rng.choice(near) if self.odd(0.9) else self.rng.randrange(4500, 32768) * 2
        push = self.rng.choice((0o010246, 0o010246, 0o110246, 0o012046, 0o004737))
        if push == 0o012046:
            return [Code(0o012700, FD), Pushes(at, push, True, False)]       # MOV (R0)+,-(SP)
        return [Pushes(at, push, self.odd(0.6), self.odd(0.1))]

    def looks(self, _):
        at = self.rng.choice((TOP - 2, TOP - 40, TOP - 1280, TOP - 2560 if self.odd(0.1) else TOP - 2, 0, 64))
        return [Code(0o013700, at, *TELL.words)]                             # MOV @#at,R0

    def opens_program(self, _):
        name = self.rng.choice(self.programs)
        closes = [Code(0o103401, TRAP | CLOSE)] if self.odd(0.5) else []     # BCS .+4; close
        return [Does(Call(OPEN, (name, 0), 0)), *closes]

    def looks_at_text(self, _):
        """A word of the text, or its routine."""
        if self.odd(0.3):
            return [Code(0o004737, ROUTINE, *TELL.words)]                    # JSR PC,@#routine
        at = self.rng.choice((self.rng.randrange(self.text // 2) * 2, (self.text - 1) // 2 * 2, (self.text - 1) // 64 * 64 + 62))
        return [Code(0o013700, at, *TELL.words)]                             # MOV @#at,R0

    def changes_program(self, _):
        name = self.rng.choice(self.programs)
        kinds = (Call(UNLINK, (name, 0)), Call(CREAT, (name, 0), 0o755, keep=True), Call(OPEN, (name, 0), self.rng.choice((1, 2)), keep=True),
                 Call(CHMOD, (name, 0), self.rng.choice(STICKY_MODES)), Call(CHMOD, (name, 0), self.rng.choice(STICKY_MODES)),
                 Call(LINK, (name, 0), ("/u/b9", 0)), Call(LINK, ("/u/b9", 0), (name, 0)), Call(UNLINK, ("/u/b9", 0)))
        return [Does(self.rng.choice(kinds))]

    def asks_ids(self, _):
        return [Does(Call(self.rng.choice((GETUID, GETGID))))]


def program_of(rng, chooser, first, is_init):
    ending = [WaitsForAll()] if rng.random() < 0.4 else []
    ending += chooser.exits() if not is_init and rng.random() < 0.7 else []
    steps, most = [], rng.choice((400, 700, 1000, 2000))
    program = Program(first, steps, ending)
    while True:
        steps = program.steps + chooser.step(0)
        longer = Program(first, steps, ending)
        if len(assembled(longer)) > most:
            return program if program.steps else longer
        program = longer


def data_at(text):
    """The address of the data after a text of so many bytes."""
    return 8192 * ((text + 8191) // 8192)


def shared_file_of(rng, program, text):
    """The file of a program with a text of so many bytes."""
    body = assembled(program, data_at(text))
    head = struct.pack("<4H", 0o000137, data_at(text), 0o012700, rng.getrandbits(16)) + struct.pack("<H", 0o000207)
    words = head + rng.randbytes(text)
    return struct.pack("<8H", 0o410, text, len(body), rng.choice(BYTES[:11]), 0, 0, 0, 0) + words[:text] + body


def file_of(rng, program, is_init):
    """The file of a program: with its header, and what may be odd about it."""
    body = assembled(program)
    if is_init:
        return struct.pack("<8H", 0o407, len(body), 0, rng.choice(BYTES[:10]), 0, 0, 0, 0) + body
    magic, bss = rng.choice(MAGICS), rng.choice(BYTES)
    text = 0 if magic == 0o410 and rng.random() < 0.9 else rng.choice((len(body), len(body), len(body) // 2))
    if rng.random() < 0.04:
        text = 65535
    data = struct.pack("<8H", magic, text, max(len(body) - text, 0), bss, 0, 0, 0, 0) + body
    return data[: rng.choice((0, 1, 15, 16, 40))] if rng.random() < 0.05 else data


class Programs:
    """The programs of a disk: their names and steps, and that of /etc/init, which is the first."""

    def __init__(self, rng, tree):
        self.rng, self.names = rng, []
        self.inodes, self.texts = {}, {}
        for name in PROGRAMS:
            parent = tree.u if name.startswith("/u/") else 1
            taken = [text for _, text in tree.entries[parent]]
            label = name.split("/")[-1]
            if label.encode() in taken or not tree.numbers:
                continue
            ino = tree.add(parent, label, Inode(rng.choice(MODES)))
            inode = tree.inodes[ino]
            self.texts[name] = self.text_size()
            inode.mode |= rng.choice((0, 0, 0o1000))
            inode.nlink = rng.choice((0, 1, 1, 1, 1, 1, 1))
            inode.owner, inode.group = rng.choice((0, 0, 1, 7)), rng.choice((0, 7))
            self.names.append(name)
            self.inodes[name] = ino
        self.init = program_of(rng, self.chooser(tree, 0), self.first_steps(tree), True)
        self.others = {name: program_of(rng, self.chooser(tree, self.texts[name]), [TELLS_STACK], False)
                       for name in self.names}

    def text_size(self):
        return self.rng.choice(TEXTS) if self.rng.random() < 0.75 else 0

    def chooser(self, tree, text):
        return ExecChooser(self.rng, tree, self.names, text)

    def first_steps(self, _):
        """What /etc/init begins with: it opens the console."""
        return [Does(Call(OPEN, ("/dev/tty8", 0), 2), 0)]

    def put(self, tree, rng):
        """Gives the inodes their bytes, of which a block may be a hole."""
        for name, program in self.others.items():
            inode, text = tree.inodes[self.inodes[name]], self.texts[name]
            data = shared_file_of(rng, program, text) if text else file_of(rng, program, False)
            inode.size, inode.blocks = len(data), in_blocks(data)
            if max(inode.blocks, default=0) > 7:
                inode.mode |= 0o10000
            if inode.blocks and rng.random() < 0.06:
                del inode.blocks[rng.choice(sorted(inode.blocks))]
        return file_of(rng, self.init, True)
