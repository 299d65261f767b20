"""What the processes of a machine do at the end of a run, as its log tells: docs/manual/log.md."""
from dataclasses import dataclass

from v6.disk.volume import Volume
from v6.pdp11.assembler import HEADER
from v6.pdp11.names import MAGIC, SHARED

# What a machine comes to when the slots of a line are done.
WAITS = "waits"  # for a key: whoever was woken by the last line reads the terminal again, or nobody can run
BUSY = "busy"  # somebody waits for a key, and others run on
SLEEPS = "sleeps"  # nobody can run, nobody waits for a key, and somebody sleeps for a time
RUNS = "runs"  # somebody runs, and nobody waits for a key
OVER = "over"  # nobody can run, and no key and no tick changes that
KEYS, TIME = b"keys", b"tout"
BY_SLOTS = ("disk.", "show")  # begin the channels of who is woken by a slot: who waits for the disk, or to write under a pace
MOST_NUMBER = 32767
CLICK, U_AREA, STACK = 64, 16, 20  # bytes, and the clicks that exec(II) gives to these
DOES = {"keys": "reads the terminal", "show": "writes on the terminal", "tout": "sleeps for a time", "wait": "waits for a child",
        "read": "reads a pipe", "write": "writes into a pipe", "disk": "waits for the disk", "runs": "runs", "ended": "has ended"}


def programs_of(disk):
    """The paths of the programs on a disk, by the clicks of the image and of the shared text that exec(II) makes of them."""
    volume, found = Volume(disk), {}
    for path, inode in volume.files():
        header = volume.read(inode)[: HEADER.size]
        magic, *sizes = HEADER.unpack(header)[:4] if len(header) == HEADER.size else (None,)
        if magic in (MAGIC, SHARED):
            text = sizes.pop(0) if magic == SHARED else 0
            clicks = U_AREA + STACK + -(-sum(sizes) // CLICK), -(-text // CLICK)
            found.setdefault(clicks, []).append(path)
    return {clicks: sorted(names) for clicks, names in found.items()}


def programs_of_all(disks):
    """The programs of a disk, and of a second one, where there is one."""
    found = programs_of(disks[0])
    for disk in disks[1:]:
        for clicks, names in programs_of(disk).items():
            found[clicks] = found.get(clicks, []) + [f"{name} of the second disk" for name in names]
    return found


def is_keys(channel):
    """Whether one who sleeps there waits for a key: on line 0, or on a further one."""
    return channel.partition(b".")[0] == KEYS


@dataclass
class Process:
    number: int
    parent: int
    does: str = "runs"
    program: tuple = (0, 0)  # the clicks of the image and of the text that exec(II) made of its program


class Processes:
    """The table of processes, kept line by line."""

    def __init__(self, log):
        self.slots, self.last, self.idle = {1: Process(1, 0)}, 1, False
        self.texts, self.taken = {}, 0  # the clicks of each text, and of that of the program which is executed next
        self.woken = set()  # who was woken by keys, and has neither read the terminal again nor ended
        self.answered = []  # for each time that keys woke somebody: whether the machine was idle
        for line in log.split(b"\n"):
            words = line.split(b" ")
            does = LINES.get(words[0])
            if does:
                does(self, words)

    def sleepers(self, channel):
        return {slot for slot, one in self.slots.items() if one.does == channel.decode()}

    def readers(self):
        """Who waits for a key, on whichever line."""
        return {slot for slot, one in self.slots.items() if is_keys(one.does.encode())}

    def choice(self, words):
        self.idle = words[0] == b"idle"

    def sleep(self, words):
        slot = int(words[1])
        if slot in self.slots:
            self.slots[slot].does = words[3].decode()
            if is_keys(words[3]):
                self.woken.discard(slot)

    def wake(self, words):
        woken = self.sleepers(words[1])
        for slot in woken:
            self.slots[slot].does = "runs"
        if is_keys(words[1]):
            self.answered.append(self.idle and bool(woken))
            self.woken |= woken

    def signal(self, words):
        if int(words[1]) in self.slots:
            self.slots[int(words[1])].does = "runs"

    def fork(self, words):
        taken = {one.number for one in self.slots.values()}
        while True:
            self.last = self.last % MOST_NUMBER + 1
            if self.last not in taken:
                break
        parent = self.slots[int(words[1])]
        self.slots[int(words[2])] = Process(self.last, parent.number, program=parent.program)

    def text(self, words):
        self.taken = self.texts[words[2]] = int(words[3])

    def share(self, words):
        self.taken = self.texts.get(words[2], 0)

    def image(self, words):
        if int(words[1]) in self.slots:
            self.slots[int(words[1])].program = int(words[2]), self.taken
        self.taken = 0

    def exit(self, words):
        gone = self.slots[int(words[1])]
        gone.does = "ended"
        self.woken.discard(int(words[1]))
        for one in self.slots.values():
            if one.parent == gone.number:
                one.parent = 1

    def reap(self, words):
        self.slots.pop(int(words[1]), None)

    def state(self):
        readers = self.readers()
        is_idle = self.idle and not any(one.does.startswith(BY_SLOTS) for one in self.slots.values())
        if readers:
            return WAITS if is_idle or self.woken <= readers else BUSY
        if not is_idle:
            return RUNS
        return SLEEPS if self.sleepers(TIME) else OVER

    def told(self, programs=None, commands=None):
        """What each process does, in words, and the words of its command, by its number; where these aren't known, the programs
        whose image and text are as large as its own: see programs_of."""
        lines = []
        for _, one in sorted(self.slots.items()):
            channel, _, number = one.does.partition(".")
            does = DOES[channel] + (f" on line {number}" if number and channel in ("keys", "show") else "")
            if commands and commands.get(one.number):
                does += f": {commands[one.number]}"
            elif one.program in (programs or {}) and one.does != "ended":
                does += f" ({' or '.join(programs[one.program])})"
            lines.append(f"process {one.number}, a child of {one.parent}, {does}" if one.parent else
                         f"process {one.number} {does}")
        return lines


LINES = {b"go": Processes.choice, b"idle": Processes.choice, b"sleep": Processes.sleep, b"wake": Processes.wake,
         b"signal": Processes.signal, b"text": Processes.text, b"share": Processes.share, b"image": Processes.image,
         b"fork": Processes.fork, b"exit": Processes.exit, b"reap": Processes.reap}
