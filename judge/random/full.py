"""Programs made at random that fill the swap area and the table of texts, so that a run comes near to a panic or to one.

They are those of random_execs, with steps of three more kinds. `fills` moves the end of the data, has children that stay as large
until the swap area has few blocks left, and moves the end back: the children loop, sleep, or end at different times, and leave
holes and zombies; `crowds` does it so that none of them finds room in core, and has small children that end at once.
`takes_texts` executes as many small programs as there are entries for texts, or a few fewer or one more: the disk has them in
the directory /t, sticky ones whose text is kept and others that sleep or loop. Texts are up to six segments, and images up to all
eight.
"""
import itertools
import random
import struct

from judge.random.disk import Inode, Tree, in_blocks
from judge.random.execs import EXEC, Breaks, ExecChooser, Programs
from judge.random.processes import EXIT, FORK, SLEEP, WAIT, Code, Does, ForksMany, Indirectly
from judge.random.program import TRAP, Call

SWAP_BLOCKS = 872  # of the swap area
ENTRIES = 40  # of the table of texts
AREA, STACK = 16, 20  # clicks of a u area, and of a first stack
MOST_DATA = 896  # clicks of seven segments, which leave one for the stack
SMALL = "/t/0"  # the first of the small programs; the last byte of the others counts on from it, up to Z
SMALL_PROGRAMS = ENTRIES + 3
CORES = (64, 80, 100, 150, 200, 240, 300, 300, 400, 600, 900, 1200, 2100, 3968)
LARGE_TEXTS = (40000, 49151, 49152, 49153)
WAYS = ((TRAP | EXIT,), (TRAP | EXIT,), (0o012700, 0o77777, TRAP | SLEEP, TRAP | EXIT), (0o000777,),
        (0o012700, 2, TRAP | SLEEP, TRAP | EXIT))  # what a small program does: exit; a long sleep; BR .; a short sleep


def blocks(clicks):
    """The blocks of the swap area that so many clicks take."""
    return (clicks + 7) // 8


class TakesTexts(Indirectly):
    """As many children as R2 counts down, each of which executes the next of the small programs; perhaps each is waited for."""

    def __init__(self, count, waits):
        self.count, self.waits = count, waits
        self.number, self.call = EXEC, Call(EXEC, (SMALL, 0), "@no arguments")

    def words_there(self):
        return (0,)

    def label(self):
        return "@no arguments"

    def put(self, w):
        label = f"parent {w.at()}"
        waits = [TRAP | WAIT] if self.waits else []
        w.put(0o012702, self.count)                                  # MOV #count,R2
        self.at = w.at()
        w.put(TRAP | FORK, 0o000405 + len(waits), *waits, 0o105237, ("=" + SMALL, 3))   # fork; BR child; wait; INCB @#letter
        w.put(0o077200 | 5 + len(waits), 0o000137, label)            # SOB R2,fork; JMP @#parent
        w.put(TRAP | EXEC, ("=" + SMALL, 0), self.label(), 0o012700, 5, TRAP | EXIT)
        w.label(label)


class FullChooser(ExecChooser):
    """Chooses steps of programs that fill the swap area and the table of texts."""

    def __init__(self, rng, tree, names, text, core):
        super().__init__(rng, tree, names, text)
        self.core = core

    def step(self, depth):
        if depth == 0 and self.odd(0.2):
            return self.rng.choice((self.fills, self.fills, self.crowds, self.takes_texts, self.zombies))(depth)
        return super().step(depth)

    def clicks(self):
        """The clicks of data that an image may have, mostly many."""
        text = (self.text + 63) // 64
        most = min(min(self.core, 2048) - text - AREA - STACK, MOST_DATA - (text + 127) // 128 * 128)
        if most < 40:
            return max(most, 1)
        return self.rng.choice((most, most - 1, most // 2 + 1, most // 2 + 20, self.rng.randrange(40, most + 1)))

    def base(self):
        return (self.text + 8191) // 8192 * 8192

    def fills(self, _):
        rng, clicks = self.rng, self.clicks()
        count = max(1, min(48, SWAP_BLOCKS // blocks(AREA + clicks + STACK) + rng.choice((-2, -1, -1, 0, 0, 0, 1))))
        there = Breaks((self.base() + 64 * clicks) % 65536, 0, False)
        back = [Breaks(None, rng.choice((0, 0, 64, 1000)), False)] if self.odd(0.8) else []
        return [there, ForksMany(count, self.stays(), False), *back]

    def crowds(self, depth):
        """Children that fill the swap area but for a few blocks, and then more of them that become zombies there."""
        sizes = [(AREA + clicks + STACK, clicks) for clicks in range(40, MOST_DATA + 1)]
        fitting = [(size, clicks) for size, clicks in sizes if self.core // 2 < size < self.core - 40
                   and SWAP_BLOCKS % blocks(size) + SWAP_BLOCKS // blocks(size) < 45]
        if self.text or not fitting:
            return self.fills(depth)
        size, clicks = self.rng.choice(fitting)
        less = max(self.core - size - 70, 40)
        return [Breaks(64 * clicks, 0, False), ForksMany(SWAP_BLOCKS // blocks(size), [Code(0o000777)], False),
                Breaks(64 * less, 0, False), *self.zombies(depth)]

    def stays(self):
        """The steps of a child that keeps its place: for ever, for some seconds, or as long as its count in R2 says."""
        ends = [Does(Call(EXIT, r0=3), 0)]
        by_count = Code(0o010200, 0o006200, TRAP | SLEEP)            # MOV R2,R0; ASR R0; sleep
        kinds = ([Code(0o000777)], [Does(Call(SLEEP, r0=32767), 0), *ends], [by_count, *ends],
                 [Does(Call(SLEEP, r0=self.rng.choice((1, 2, 5, 9))), 0), *ends])
        return self.rng.choices(kinds, (4, 4, 3, 1))[0]

    def takes_texts(self, _):
        return [TakesTexts(self.rng.choice((5, ENTRIES - 3, ENTRIES - 1, ENTRIES, ENTRIES + 1, ENTRIES + 1)), self.odd(0.7))]

    def zombies(self, _):
        """Children that end at once; nobody waits for them."""
        return [ForksMany(self.rng.choice((3, 10, 30, 48)), [Does(Call(EXIT, r0=1), 0)], False)]


def tree_for(seed):
    """A disk with inodes left for the small programs."""
    for n in itertools.count():
        tree = Tree(random.Random(f"tree {seed} {n}"))
        if len(tree.numbers) > SMALL_PROGRAMS + 6:
            return tree


class FullPrograms(Programs):
    """The programs of such a disk, with the small ones."""

    def __init__(self, rng, tree, core):
        self.core = core
        self.small = []
        folder = tree.add(1, "t", Inode(0o140755))
        tree.inodes[folder].nlink = 2
        sticky = rng.choice((0.5, 0.95, 1))
        for n in range(SMALL_PROGRAMS):
            ino = tree.add(folder, chr(ord(SMALL[-1]) + n), Inode(0o101755 if rng.random() < sticky else 0o100755))
            tree.inodes[ino].nlink = 1
            self.small.append(ino)
        super().__init__(rng, tree)

    def text_size(self):
        return self.rng.choice(LARGE_TEXTS) if self.rng.random() < 0.1 else super().text_size()

    def chooser(self, tree, text):
        return FullChooser(self.rng, tree, self.names, text, self.core)

    def first_steps(self, tree):
        """The console is opened, and either the swap area or the table of texts is filled."""
        chooser = self.chooser(tree, 0)
        return super().first_steps(tree) + self.rng.choice((chooser.fills, chooser.crowds, chooser.takes_texts))(0)

    def put(self, tree, rng):
        kinds = rng.choice((WAYS[:1], WAYS[:2], WAYS))
        for ino in self.small:
            data = small_file(rng, rng.choice(kinds))
            tree.inodes[ino].size, tree.inodes[ino].blocks = len(data), in_blocks(data)
        return super().put(tree, rng)


def small_file(rng, words):
    """The file of a small program, which is all text."""
    size = rng.choice((2 * len(words),) * 6 + (64, 65, 512, 513, 700))
    body = struct.pack(f"<{len(words)}H", *words).ljust(size, b"\0")[:496]
    return struct.pack("<8H", 0o410, size, 0, rng.choice((0, 0, 2, 100)), 0, 0, 0, 0) + body
