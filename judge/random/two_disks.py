"""Random programs of the calls on files over two disks: the trees of both, and the choice of calls."""
from judge.random.calls import CHDIR, CHMOD, LINK, MKNOD, OPEN, STAT, SYNC, UNLINK, WRITE, Chooser
from judge.random.disk import BLOCKS, NAMES, Inode, Tree
from judge.random.program import STACK, Call

MOUNT, UMOUNT = 21, 22
SECOND = "/dev/rk1"
OTHER_DISKS = ("/dev/rk0", "/dev/rk2", "/dev/null", "/dev", "/etc/init", "/dev/zz")


class Root(Tree):
    """The first disk, with the special files of both, and of one that isn't there."""

    def add_system(self):
        super().add_system()
        dev = next(ino for ino, name in self.entries[1] if name == b"dev")
        for name, device, chance in (("rk1", 1, 0.97), ("rk2", 2, 0.3)):
            if self.odd(chance):
                self.add(dev, name, Inode(0o100000 | BLOCKS | self.rng.choice((0o666, 0o600, 0)), device=device))


class Second(Tree):
    """The second disk. Its root may lack entries, or have other modes."""

    def add_system(self):
        super().add_system()
        if self.odd(0.1):
            self.inodes[1].mode = self.rng.choice((0o140644, 0o140000, 0o140777))


class TwoChooser(Chooser):
    """Chooses calls over both disks. `place` is the directory on which the second is mounted at first."""

    def __init__(self, rng, tree, plan, second):
        super().__init__(rng, tree, plan)
        self.second = second
        places = [path for path in self.directories if path not in ("/", "/dev", "/etc")]
        self.place = rng.choice(places if places and self.odd(0.95) else self.directories)
        consoles = second.consoles()
        self.outside = list(self.directories)
        inside = [(self.below(path), ino) for path, ino in second.paths if ino not in consoles]
        self.inside = [path for path, ino in inside]
        self.directories += [path for path, ino in inside if ino in second.entries]
        self.known |= {path for path, ino in inside if ino not in second.entries}
        self.names += rng.sample(self.inside, min(len(inside), 8))
        self.names += [self.place, self.below("/."), self.below("/.."), self.below("/../u"), self.below(f"/{rng.choice(NAMES)}")]
        self.names += [self.below(f"{self.place}/{rng.choice(NAMES)}")] * self.odd(0.3)

    def below(self, path):
        return self.place.rstrip("/") + path if path != "/" else self.place

    def one_inside(self):
        return (self.rng.choice(self.inside), 0)

    def disk(self):
        return (SECOND, 0) if self.odd(0.85) else (self.rng.choice(OTHER_DISKS), 0) if self.odd(0.7) else self.name()

    def mounts(self):
        place = (self.place, 0) if self.odd(0.7) else (self.rng.choice(self.directories), 0) if self.odd(0.5) else self.name()
        return Call(MOUNT, self.disk(), place, self.rng.choice((0, 0, 1, 0o177777)))

    def unmounts(self):
        return Call(UMOUNT, self.disk())

    def first(self):
        mounted = [Call(MOUNT, (SECOND, 0), (self.place, 0), 0)] if self.odd(0.9) else [self.mounts()]
        return mounted + (super().first() if self.odd(0.5) else [])

    # sequences

    def takes_off(self):
        """An umount, perhaps with a mount after it, and a look at what is there then."""
        calls = [self.unmounts()] + [self.mounts()] * self.odd(0.7)
        return calls + [Call(STAT, self.one_inside(), STACK, tell=self.told())]

    def holds(self):
        """An umount while a file or a directory is in use, and one after that."""
        if self.odd(0.3):
            calls = [Call(CHDIR, (self.place, 0)), Call(UMOUNT, (SECOND, 0)), Call(CHDIR, ("/", 0))]
        else:
            opens = Call(OPEN, self.one_inside(), self.rng.choice((0, 1, 2)), keep=True)
            calls = [opens, self.moves(WRITE, "last"), Call(UMOUNT, (SECOND, 0))]
            self.opened(True, True)
            calls.append(self.closes("last"))
        return calls + [Call(UMOUNT, (SECOND, 0))] + [self.mounts()] * self.odd(0.8)

    def links_across(self):
        inside, new = self.one_inside(), self.rng.choice(NAMES)
        across = (f"{self.rng.choice(self.outside).rstrip('/')}/{new}", 0) if self.odd(0.8) else (self.rng.choice(self.names), 0)
        calls = [Call(LINK, inside, across) if self.odd(0.6) else Call(LINK, ("/etc/init", 0), (self.below(f"/{new}"), 0))]
        return calls + [Call(LINK, inside, (self.below(f"/{self.rng.choice(NAMES)}"), 0))] * self.odd(0.6)

    def works_inside(self):
        """A file, a directory and a node of the second disk."""
        name = (self.below(f"/{self.rng.choice(NAMES)}"), 0)
        calls = [self.creates(name), self.moves(WRITE, "last"), Call(UNLINK, name)]
        calls += [Call(STAT, (self.place, 0), STACK, tell="words")] * self.odd(0.3) + [self.makes_node(name)]
        return calls + [Call(SYNC)] * self.odd(0.4)

    def meets_cover(self):
        """What is done with the directory that is covered, by its name and by that of the second disk's root."""
        place = (self.place, 0)
        kinds = (Call(UNLINK, place), Call(CHMOD, place, 0o755), Call(STAT, (self.below("/.."), 0), STACK, tell="words"),
                 Call(LINK, place, (self.below("/a"), 0)), Call(OPEN, place, 0, keep=True), Call(MKNOD, place, 0o40755, 0))
        return [self.rng.choice(kinds) for _ in range(self.rng.randrange(1, 3))]

    def sequence(self):
        kinds = (self.takes_off, self.holds, self.links_across, self.works_inside, self.works_inside, self.meets_cover)
        return self.rng.choice(kinds)() if self.odd(0.35) else super().sequence()
