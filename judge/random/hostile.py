"""Programs that are out to break a kernel, for /etc/init: calls of all numbers with hostile arguments, and random words.

A program catches most signals by handlers that pass over a word and go on, so that it lives longer than its first fault.
"""
import struct

from judge.random.program import TRAP, Words

SIGNAL, SLEEP, KILL, FORK, EXIT = 48, 35, 37, 2, 1
BYTES = 496  # of a program in one block, with its header
# the arguments of each call
ARGUMENTS = {3: 2, 4: 2, 5: 2, 8: 2, 9: 2, 10: 1, 11: 2, 12: 1, 14: 3, 15: 2, 16: 2, 17: 1, 18: 2, 19: 2, 21: 3, 22: 1, 26: 3,
             28: 1, 30: 1, 31: 1, 32: 1, 37: 1, 43: 1, 44: 4, 48: 2}
OFTEN = (2, 2, 3, 4, 5, 6, 8, 9, 10, 11, 12, 14, 15, 17, 18, 19, 28, 31, 35, 37, 41, 42, 42, 43, 48)
NAMES = ("/dev/tty8", "/etc/init", "/u", "/", "a", "/u/a", "core", "..", "/dev/null", "/u/bcdefghijklmnop", "")
NUMBERS = (0, 1, 2, 3, 4, 14, 15, 16, 127, 128, 255, 256, 0o777, 0o7777, 0o40755, 0o77777, 0o100000, 0o177776, 0o177777)
CLOSE_TO = (-2, -1, 0, 1, 2)
# instructions with a place for a source and a destination, for a destination, and with none
TWO = (0o010000, 0o110000, 0o020000, 0o030000, 0o040000, 0o050000, 0o060000, 0o160000, 0o120000, 0o150000)
ONE = (0o005000, 0o105000, 0o005100, 0o005200, 0o105200, 0o005300, 0o005400, 0o005500, 0o005600, 0o005700, 0o006000, 0o006100,
       0o006200, 0o006300, 0o000300, 0o006700, 0o000100, 0o004000, 0o070000, 0o071000, 0o072000, 0o073000, 0o074000)
BRANCHES = (0o000400, 0o001000, 0o001400, 0o002000, 0o003400, 0o100000, 0o103000)
ALONE = (0, 1, 2, 3, 4, 5, 6, 0o240, 0o257, 0o277, 0o207, 0o200, 0o6400, 0o77001, 0o104000, 0o170011, 0o170000, 0o7000, 0o75000)


class Hostile:
    """Puts together a program of at most so many bytes."""

    def __init__(self, rng, room=BYTES):
        self.rng, self.room, self.w = rng, room, Words()
        self.bss = rng.choice((0, 0, 0, 2, 64, 1000, 8192))
        self.names = rng.sample(NAMES, rng.randrange(2, 6))

    def end(self):
        """The address after the data, if the program takes all its room."""
        return (self.room + self.bss + 63) // 64 * 64

    def address(self):
        """An address: of a name or of the program, or one of the edges of what there is."""
        kind = self.rng.random()
        if kind < 0.3:
            return "=" + self.rng.choice(self.names)
        if kind < 0.4:
            return 2 * self.rng.randrange(self.room // 2)
        edges = (0, self.end(), 64256, 65536, 65536 - 36, 32768, 57344, 64256 - 64, 65536 - 2)
        return (self.rng.choice(edges) + self.rng.choice(CLOSE_TO)) % 65536

    def value(self):
        kind = self.rng.random()
        if kind < 0.5:
            return self.address()
        return self.rng.choice(NUMBERS) if kind < 0.9 else self.rng.getrandbits(16)

    def begin(self):
        """A jump over the names and the handlers; then signals are caught, or ignored."""
        w, rng = self.w, self.rng
        w.put(0o000137, "start")                                     # JMP @#start
        for name in self.names:
            w.label("=" + name)
            w.data(name.encode() + b"\0")
        caught = [sig for sig in (12, 11, 10, 4, 13, 2, 5, 6, 7) if rng.random() < 0.9]
        for sig in caught:
            w.label(f"handler {sig}")
            w.put(0o010046, TRAP | SIGNAL, sig, f"handler {sig}", 0o012600)      # MOV R0,-(SP); signal; MOV (SP)+,R0
            if sig in (10, 11):
                w.put(0o062716, 2)                                   # ADD #2,(SP): the word at fault is passed over
            w.put(0o000002)                                          # RTI
        w.label("start")
        for sig in caught:
            is_ignored = rng.random() < (0.01 if sig in (10, 11) else 0.1)       # those two come again where they are ignored
            w.put(TRAP | SIGNAL, sig, 1 if is_ignored else f"handler {sig}")

    def sets_register(self):
        self.w.put(0o012700 | self.rng.choice((0, 0, 0, 1, 2, 3, 4, 5, 6, 6)), self.value())     # MOV #value,Rn

    def call(self):
        number = self.rng.choice(OFTEN) if self.rng.random() < 0.7 else self.rng.randrange(64)
        if number == EXIT and self.rng.random() < 0.9:
            return
        if number in (SLEEP, KILL) and self.rng.random() < 0.8:
            self.w.put(0o012700, self.rng.choice((0, 0, 1, 2, 3, 0o177777)))     # a short sleep, or one of the first processes
        elif self.rng.random() < 0.7:
            self.w.put(0o012700, self.value())                       # MOV #value,R0
        self.w.put(TRAP | number, *(self.value() for _ in range(ARGUMENTS.get(number, 0))))
        if number == FORK:
            self.w.put(self.rng.choice((0o240, 0o000401, 0o000777, TRAP | EXIT)))    # what the child does
        if self.rng.random() < 0.3:
            self.w.put(0o010037, self.address())                     # MOV R0,@#address

    def opens(self):
        self.w.put(TRAP | 5, "=" + self.rng.choice(self.names), self.rng.randrange(3))

    def indirect(self):
        """A call whose word stands elsewhere, or itself."""
        label = f"there {self.w.at()}"
        number = self.rng.choice((0, self.rng.choice(OFTEN)))
        self.w.put(0o000401 + ARGUMENTS.get(number, 0))              # BR over
        self.w.label(label)
        self.w.put(TRAP | number, *(self.value() for _ in range(ARGUMENTS.get(number, 0))))
        self.w.put(TRAP, label)

    def instruction(self):
        """An instruction with random places, and with words for those that need one."""
        rng = self.rng
        kind = rng.random()
        if kind < 0.15:
            self.w.put(rng.choice(ALONE))
        elif kind < 0.25:
            self.w.put(rng.choice(BRANCHES) | rng.choice((1, 2, 3)))
        else:
            is_two = kind < 0.7
            places = [rng.randrange(64) for _ in range(1 + is_two)]
            word = rng.choice(TWO) | places[0] << 6 | places[1] if is_two else rng.choice(ONE) | places[0]
            extra = [self.value() for place in places if place >= 0o60 or place in (0o27, 0o37)]
            self.w.put(word, *extra)

    def random_word(self):
        self.w.put(self.rng.getrandbits(16))

    def fills(self, *kinds):
        """Steps of these kinds as long as there is room."""
        while self.w.at() < self.room - 20:
            before, labels = list(self.w.words), dict(self.w.labels)
            self.rng.choice(kinds)()
            if self.w.at() > self.room - 6:
                self.w.words, self.w.labels = before, labels
                break

    def program(self):
        """The words of the program, and what its header says of its bss."""
        rng = self.rng
        self.begin()
        kinds = rng.choice(((self.call,), (self.call, self.call, self.sets_register, self.opens, self.indirect),
                            (self.call, self.instruction, self.instruction), (self.instruction,),
                            (self.instruction, self.random_word), (self.random_word,)))
        self.fills(*kinds)
        self.w.put(*rng.choice(((0o000777,), (TRAP | EXIT,), (0o000137, "start"), (0o000137, "start"))))
        return self.w.bytes(), self.bss


def file_of(rng):
    """The file /etc/init of such a program: its header and its words."""
    words, bss = Hostile(rng, rng.choice((100, 200, BYTES, BYTES))).program()
    magic, text = 0o407, rng.choice((len(words), 0))
    if rng.random() < 0.15:
        magic = rng.choice((0o410, 0o410, 0o411, 0o412))
        text = rng.choice((len(words), len(words) // 2 & ~1, 0, len(words) - 1))
    return struct.pack("<8H", magic, text, len(words) - text, bss, 0, 0, 0, 0) + words
