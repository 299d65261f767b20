"""Which calls a random program makes: in short sequences that belong together, with good arguments and bad ones.

No call opens the console for reading, and no buffer lies where nothing is. So a program comes to no fault and waits for
nothing, but for an ending by a signal.
"""
from judge.random.disk import CHARACTER, CONSOLE, NAMES
from judge.random.program import MOST_BYTES, STACK, TOP, Call, Plan, assembled, may_be_console, text_of

READ, WRITE, OPEN, CLOSE, CREAT, LINK, UNLINK, CHDIR = 3, 4, 5, 6, 8, 9, 10, 12
MKNOD, CHMOD, CHOWN, STAT, SEEK, FSTAT, SYNC, DUP = 14, 15, 16, 18, 19, 28, 36, 41
ODD_NAMES = ("", "/", ".", "..", "//", "/etc/../u//", "/etc/init/x", "/zz/a", "/abcdefghijklmnopqrst", "a/", "./a",
             "zz", "../u/b", "///u///a", "/dev/con", "/u/con", "/dev/tty8", "/dev/null", "/etc/init", "/u/./.", "/dev",
             "/u", "etc/.", "abcdefghijklmno")
ON_STACK = (65526, 65526, 65531, 65535)  # addresses in the argument of exec, "/etc/init"
NEVER_FOUND = "/u/zz"
MODES = (0, 1, 2, 0, 1, 2, 2, 3, 4, 5, 0o100000, 0o177777)
FILE_MODES = (0o666, 0o644, 0, 0o777, 0o7777, 0o177777, 0o20644, 0o40755)
NODE_MODES = (0o40755, 0o40777, 0o40000, 0o140755, 0o100644, 0o644, 0, 0o20666, 0o60666, 0o10644, 0o177777, 0o50755)
COUNTS = (0, 1, 2, 16, 16, 100, 100, 511, 512, 513, 1000, 1536, 3000)
OFFSETS = (0, 1, 16, 100, 511, 512, 513, 4095, 4096, 32767, 32768, 65520, 65535)
BLOCK_OFFSETS = (0, 1, 7, 8, 9, 255, 256, 1791, 1792, 2047, 2048, 32767, 32768, 32766, 65535)
BAD = (1, 0o60000, 0o60001)
OTHERS = (0, 26, 37, 44, 48, 49, 63)  # 0 takes the word after it as an address, which isn't one


class Chooser:
    """Chooses calls. What it believes of the state is a guess, by which more of its calls are good ones."""

    def __init__(self, rng, tree, plan):
        self.rng, self.tree, self.plan = rng, tree, plan
        self.files = {fd: (False, True) for fd in ([*range(plan.fd)] if plan.leave_open else []) + [plan.fd]}
        self.last = None
        consoles = tree.consoles()
        paths = [path for path, ino in tree.paths if ino not in consoles]
        directories = [path for path, ino in tree.paths if ino in tree.entries]
        self.directories = [path for path in directories if tree.has(path + "/.") or self.odd(0.3)]
        self.known = {path for path in paths if tree.has(path) and path not in self.directories}
        self.names = rng.sample(paths, min(len(paths), 8)) + rng.sample(ODD_NAMES, 5)
        self.names += [f"{rng.choice(self.directories).rstrip('/')}/{rng.choice(NAMES)}" for _ in range(4)]
        self.names += rng.sample(NAMES, 2)
        self.full = next((path for path in self.directories if path.endswith("full")), None)

    def odd(self, chance):
        return self.rng.random() < chance

    # arguments

    def name(self):
        """A name, perhaps without its first bytes; now and then the address of one on the stack."""
        if self.odd(0.02):
            return self.rng.choice(ON_STACK)
        text = self.rng.choice(self.names)
        return (text, self.rng.randrange(len(text) + 1) if self.odd(0.04) else 0)

    def fd(self, use=None):
        """Where R0 comes from that a call takes as a number: the last that was opened, one that may be open for a use
        (0 reading, 1 writing), or any. The number of a file that takes results is left alone."""
        chance, fits = self.rng.random(), [fd for fd, kind in self.files.items() if use is None or kind[use]]
        if chance < 0.5 and self.last in fits:
            return "last"
        odd = (14, 15, 16, 255, 0o400, 0o100000, 0o177777)
        fd = self.rng.choice(fits if fits and chance < 0.8 else odd if self.odd(0.3) else range(15))
        return 15 if fd == self.plan.fd and self.plan.in_file else fd

    def number(self):
        number = self.rng.choice(COUNTS)
        return self.rng.randrange(4000) if self.odd(0.2) else number

    def buffer(self, number, count, fd):
        """The address and the count of a buffer. A read may go to the stack and the room that follows it at address
        4, a write may come from anywhere in the data or the stack. Where the number can't be open, or nothing is
        asked for, all is good."""
        if isinstance(fd, int) and fd >= 15 or count == 0:
            return self.rng.choice(BAD), count
        first, last = STACK, TOP + (4 + self.plan.room if number == READ else self.plan.clicks_end())
        at = self.rng.choice((first, first, first + self.rng.randrange(600), last - min(count, last - first)))
        if number == WRITE and self.odd(0.4):
            at = TOP + self.rng.randrange(self.plan.clicks_end() - 1)
        return at % TOP, min(count, last - at)

    def status_buffer(self, even):
        """A place for 36 bytes: in the stack, at its end, from there round to address 0, or at the end of the data."""
        some, last = STACK + 2 * self.rng.randrange(500), self.plan.clicks_end() - 36
        at = self.rng.choice((STACK, TOP - 36, TOP - 18, some, last))
        return at if even or self.odd(0.7) else at + 1 if at == STACK else at - 1

    def told(self):
        return self.rng.choice((None, None, "words", "bytes"))

    # calls

    def opens(self, good=False):
        is_known = good and self.known and self.odd(0.8)
        name = (self.rng.choice(sorted(self.known)), 0) if is_known else self.name()
        mode = self.rng.choice((0, 1, 2, 2)) if good else self.rng.choice(MODES)
        if may_be_console(name):
            mode |= 1
        if text_of(name) in self.known:
            self.opened(mode + 1 & 1, mode + 1 & 2)
        return Call(OPEN, name, mode, keep=True)

    def opened(self, reading, writing):
        """The lowest free number is open, if all went well."""
        self.last = min(set(range(15)) - self.files.keys(), default=None)
        if self.last is not None:
            self.files[self.last] = (bool(reading), bool(writing))

    def creates(self, name=None):
        name = name or self.name()
        if text_of(name) not in (None, *ODD_NAMES, *self.directories):
            self.known.add(text_of(name))
        self.opened(False, True)
        return Call(CREAT, name, self.rng.choice(FILE_MODES), keep=True)

    def closes(self, fd=None):
        fd = self.fd() if fd is None else fd
        if fd == self.plan.fd:
            fd = 15
        self.files.pop(self.last if fd == "last" else fd, None)
        return Call(CLOSE, r0=fd)

    def moves(self, number, fd=None, count=None):
        fd = self.fd(number == WRITE) if fd is None else fd
        at, count = self.buffer(number, self.number() if count is None else count, fd)
        tell = "bytes" if number == READ and at not in BAD and 0 < count < 700 and self.odd(0.5) else None
        return Call(number, at, count, r0=fd, tell=tell)

    def seeks(self, fd=None):
        mode = self.rng.choice((0, 0, 1, 2, 3, 3, 4, 5, 6, 0o77777, 0o100000, 0o177777))
        offset = self.rng.choice(BLOCK_OFFSETS if mode in (3, 4, 5) else OFFSETS)
        offset = -offset % TOP if mode not in (0, 3) and self.odd(0.5) else offset
        return Call(SEEK, offset, mode, r0=self.fd() if fd is None else fd)

    def tells_status(self, number=None, fd=None):
        tell = self.told()
        at = self.status_buffer(tell == "words")
        if number == FSTAT or number is None and self.odd(0.4):
            return Call(FSTAT, at, r0=self.fd() if fd is None else fd, tell=tell)
        return Call(STAT, self.name(), at, tell=tell)

    def links(self):
        old, new = self.name(), self.name()
        if may_be_console(old) and not may_be_console(new):
            new = ("/u/con", 0)
        return Call(LINK, old, new)

    def makes_node(self, name=None):
        name, mode = name or self.name(), self.rng.choice(NODE_MODES)
        device = self.rng.choice((0, 2050, 1, 0o177777, 256))
        if mode & 0o60000 == CHARACTER and device == CONSOLE and not may_be_console(name):
            device = 2050
        return Call(MKNOD, name, mode, device)

    def names_one(self):
        """A call that takes one name, and what else it takes."""
        number = self.rng.choice((UNLINK, UNLINK, CHDIR, CHMOD, CHMOD, CHOWN))
        if number == CHMOD:
            return Call(CHMOD, self.name(), self.rng.choice((0, 0o777, 0o644, 0o40000, 0o7777, 0o177777, 0o111)))
        if number == CHOWN:
            return Call(CHOWN, self.name(), self.rng.choice((0, 1, 0o403, 0o177777)))
        return Call(number, self.name())

    # sequences

    def uses_file(self):
        """A file is opened or made, used, and perhaps closed."""
        calls = [self.opens(good=True) if self.odd(0.7) else self.creates()]
        for _ in range(self.rng.randrange(1, 5)):
            use = self.rng.choice((READ, READ, WRITE, WRITE, SEEK, FSTAT))
            fd = "last" if self.odd(0.8) and (use != READ or self.files.get(self.last, (True,))[0]) else None
            calls.append(self.uses(use, fd))
        return calls + ([self.closes("last")] if self.odd(0.5) else [])

    def uses(self, number, fd):
        if number == SEEK:
            return self.seeks(fd)
        return self.tells_status(FSTAT, fd) if number == FSTAT else self.moves(number, fd)

    def makes_hole(self):
        """A file is written far out, and the hole before that is read."""
        name = self.name()
        calls = [self.creates(name), self.closes("last"), Call(OPEN, name, 3 if may_be_console(name) else 2, keep=True)]
        calls += [Call(SEEK, self.rng.choice(BLOCK_OFFSETS), 3, r0="last"), self.moves(WRITE, "last")]
        calls += [Call(SEEK, self.rng.choice(OFFSETS), 0, r0="last"), self.moves(READ, "last")]
        self.opened(True, True)
        return calls + [self.tells_status(FSTAT, "last")] * self.odd(0.5)

    def reaches_limit(self):
        """A write near the greatest size of a file."""
        place, count = self.rng.choice((0, 295, 296, 510, 511, 512)), self.rng.choice((1, 215, 216, 217, 600))
        calls = [self.creates(), Call(SEEK, 32767, 3, r0="last"), Call(SEEK, place, 1, r0="last")]
        return calls + [self.moves(WRITE, "last", count), self.seeks("last")]

    def fills_disk(self):
        """Writes until no block is free."""
        most = TOP - STACK + self.plan.clicks_end()
        calls = [self.creates()] + [Call(WRITE, STACK, most, r0="last") for _ in range(self.rng.randrange(2, 9))]
        return calls + [self.closes("last")] * self.odd(0.5)

    def fills_directory(self):
        where = self.full or self.rng.choice(self.directories).rstrip("/")
        names = [(f"{where}/n{i}", 0) for i in range(self.rng.randrange(1, 4))]
        kinds = (self.creates, self.makes_node, lambda name: Call(LINK, ("/etc/init", 0), name))
        return [self.rng.choice(kinds)(name) for name in names]

    def unlinks_open(self):
        """A file that is open loses its name, and is used still."""
        name = self.name()
        calls = [self.creates(name), self.moves(WRITE, "last"), Call(UNLINK, name), self.moves(WRITE, "last")]
        return calls + [Call(STAT, name, STACK)] + [self.closes("last")] * self.odd(0.7)

    def makes_directory(self):
        """A directory with its two entries, as mkdir(I) makes it, and a file in it. It may lose its execute bits."""
        path = f"{self.rng.choice(self.directories).rstrip('/')}/{self.rng.choice(NAMES)}"
        name, inside = (path, 0), (path + "/a", 0)
        calls = [Call(MKNOD, name, 0o40755, 0), Call(LINK, name, (path + "/.", 0)), self.creates(inside)]
        calls += [Call(CHMOD, name, 0o666)] * self.odd(0.4) + [Call(CHDIR, name)] * self.odd(0.4)
        return calls + [Call(UNLINK, name)] * self.odd(0.3) + [Call(STAT, inside, STACK, tell=self.told())]

    def goes_to(self):
        return [Call(CHDIR, (self.rng.choice(self.directories), 0)), self.opens(), self.names_one()]

    def gives_again(self):
        calls = [self.dups() for _ in range(self.rng.choice((1, 1, 2, 14)))]
        return calls + [Call(DUP, r0=15)] * (len(calls) > 2)

    def dups(self):
        fd, last = self.fd(), self.last
        keep = self.odd(0.5)
        if (last if fd == "last" else fd) in self.files:
            self.opened(*self.files[last if fd == "last" else fd])
        self.last = self.last if keep else last
        return Call(DUP, r0=fd, keep=keep)

    def writes_console(self):
        """Bytes go to the console, by a name of it."""
        name, count = self.rng.choice(("/dev/tty8", "/dev/con")), self.rng.choice((0, 5, 40))
        calls = [Call(OPEN, (name, 0), 1, keep=True), self.moves(WRITE, "last", count)]
        self.opened(False, True)
        return calls + [self.closes("last")] * self.odd(0.5)

    def reads_null(self):
        """The null device gives no byte, but has its time of access set."""
        self.opened(True, False)
        name, count = ("/dev/null", 0), self.rng.choice((0, 1, 100))
        return [Call(OPEN, name, 0, keep=True), self.moves(READ, "last", count), Call(STAT, name, STACK)]

    def refuses_first(self):
        """First calls: a name is refused before the bad address of a buffer is met; the null device looks at none."""
        calls = [Call(STAT, (NEVER_FOUND, 0), self.rng.choice(BAD))]
        if self.tree.has("/dev/null") and len(self.files) < 15:
            calls += [Call(OPEN, ("/dev/null", 0), 2, keep=True), Call(WRITE, 0o60001, 0o177777, r0="last")]
            calls += [Call(READ, 0o60000, 4, r0="last"), Call(FSTAT, STACK, r0="last", tell="words")]
            self.opened(True, True)
        return calls

    def one(self):
        kinds = (self.opens, self.creates, self.closes, self.seeks, self.tells_status, self.links, self.makes_node,
                 self.names_one, lambda: self.moves(READ), lambda: self.moves(WRITE), lambda: Call(SYNC), self.closes)
        return [self.rng.choice(kinds)() for _ in range(self.rng.randrange(1, 4))]

    def first(self):
        return self.refuses_first() if self.odd(0.3) else self.sequence()

    def sequence(self):
        kinds = ((self.one, 12), (self.uses_file, 8), (self.makes_hole, 3), (self.unlinks_open, 3), (self.goes_to, 2),
                 (self.makes_directory, 3), (self.gives_again, 1), (self.writes_console, 1), (self.reaches_limit, 1),
                 (self.fills_disk, 1), (self.reads_null, 1), (self.fills_directory, 2 + 3 * bool(self.full)))
        return self.rng.choices([kind for kind, _ in kinds], [weight for _, weight in kinds])[0]()

    def ending(self):
        """A last call: of another number, or with an address at which nothing is, which makes a signal."""
        end, fd = self.plan.clicks_end(), self.plan.fd
        bad = self.rng.choice((end, end - 35, 0o60001, STACK - 1, STACK - 35, STACK - 36))
        if self.odd(0.4):
            return Call(self.rng.choice(OTHERS))
        kinds = (Call(STAT, ("/", 0), bad), Call(FSTAT, bad, r0=fd),
                 Call(OPEN, end, 1), Call(UNLINK, STACK - 1), Call(READ, end - 5, 10, r0="last"),
                 Call(WRITE, end - 5, 10, r0="last"), Call(WRITE, end - 5, 10, r0=fd))
        return self.rng.choice(kinds)


def random_plan(rng, tree, chooser_of=Chooser):
    """The plan of a program over this disk, with as many calls as there is room for."""
    in_file = rng.random() < 0.25
    plan = Plan(
        calls=[],
        fd=rng.choice((0, 0, 0, 1, 3, 5, 14)),
        in_file=in_file,
        leave_open=rng.random() < 0.2 and not in_file,
        total=MOST_BYTES if rng.random() < 0.7 else rng.randrange(700, MOST_BYTES),
        room=2 * rng.randrange(20, 80),
        registers=[rng.getrandbits(16) for _ in range(2)] if rng.random() < 0.3 else [],
        ending=None,
        exits=rng.random() < 0.8,
    )
    chooser = chooser_of(rng, tree, plan)
    if rng.random() < 0.15:
        plan = plan._replace(ending=chooser.ending())
    more = chooser.first()
    while len(assembled(plan._replace(calls=plan.calls + more))) <= plan.total - 48:
        plan = plan._replace(calls=plan.calls + more)
        more = chooser.sequence()
    return plan
