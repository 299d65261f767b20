"""Programs made at random of the calls on files, for /etc/init of a small disk.

A `Plan` is the calls of a program and how it tells their results. `assembled` gives its words: first a jump over some
room, then names, the routine that tells a result, and the calls one after another. A result is R0 and C. On the console
it is a line, the digit of C and six octal digits; in a file it is two words, R0 and 052400 plus C.
"""
import collections
import struct

from judge.random.disk import CONSOLE_NAMES

CALLS = {3: "read", 4: "write", 5: "open", 6: "close", 8: "creat", 9: "link", 10: "unlink", 12: "chdir", 14: "mknod",
         15: "chmod", 16: "chown", 18: "stat", 19: "seek", 21: "mount", 22: "umount", 28: "fstat", 36: "sync", 41: "dup"}
MOST_BYTES, STACK, TOP = 1792, 64256, 65536
TRAP, EXIT = 0o104400, 1
MARK = 0o52400
RESULTS = "/results"


class Call:
    """A call: its number, its arguments (a number, or the text of a name and how many bytes of it are left out),
    where R0 comes from, whether R5 takes what it gives, and how its buffer is told: not, as bytes, or as eighteen
    words."""

    def __init__(self, number, *args, r0=None, keep=False, tell=None):
        self.number, self.args, self.r0, self.keep, self.tell = number, args, r0, keep, tell

    def __str__(self):
        said = [f"0{arg:o}" if isinstance(arg, int) else f'"{text_of(arg)}"' for arg in self.args]
        r0 = {None: "", "last": "with R5 in R0"}.get(self.r0, f"with {self.r0} in R0")
        kept = "and R0 to R5" if self.keep else ""
        return " ".join([str(CALLS.get(self.number, self.number)), *said, r0, kept]).rstrip()


class Plan(collections.namedtuple("Plan", "calls fd in_file leave_open total room registers ending exits")):
    """The calls, and what is around them: the number of the file that takes results, and whether it is a plain file;
    whether the numbers below it are left open; the bytes of text, data and bss; the bytes of room; what R1 and R2
    hold; a last call that makes a signal; whether the program exits."""

    def clicks_end(self):
        """The address after the data."""
        return (self.total + 63) // 64 * 64

    def all_calls(self):
        return self.calls + ([self.ending] if self.ending else [])


class Words:
    """Words that are put one after another. A text stands for the address of a label."""

    def __init__(self):
        self.words, self.labels = [], {}

    def put(self, *words):
        self.words += words

    def at(self):
        return 2 * len(self.words)

    def label(self, name):
        self.labels[name] = self.at()

    def back(self, opcode, name):
        """A branch back to a label."""
        self.put(opcode | (self.labels[name] - self.at() - 2) // 2 & 0o377)

    def sob(self, register, name):
        self.put(0o077000 | register << 6 | (self.at() + 2 - self.labels[name]) // 2)

    def data(self, data):
        data += b"\0" * (len(data) % 2)
        self.put(*struct.unpack(f"<{len(data) // 2}H", data))

    def bytes(self):
        values = [self.labels[word] if isinstance(word, str) else word for word in self.words]
        return struct.pack(f"<{len(values)}H", *values)


def tell_on_console(w, fd):
    """The routine `tell`: one line of R0 and C to a number of the console. It leaves all registers."""
    w.label("text")
    w.data(b"\0" + b"000000\n")
    w.label("tell")
    w.put(0o010046, 0o010146, 0o010246)              # MOV R0,-(SP); MOV R1,-(SP); MOV R2,-(SP)
    w.put(0o010001, 0o012702, "text")                # MOV R0,R1; MOV #text,R2
    w.put(0o012700, 0o60, 0o005500, 0o110022)        # MOV #'0,R0; ADC R0; MOVB R0,(R2)+
    w.put(0o005000, 0o073027, 1)                     # CLR R0; ASHC #1,R0
    w.label("digit")
    w.put(0o062700, 0o60, 0o110022)                  # ADD #'0,R0; MOVB R0,(R2)+
    w.put(0o005000, 0o073027, 3)                     # CLR R0; ASHC #3,R0
    w.put(0o020227, w.labels["text"] + 7)            # CMP R2,#text+7
    w.back(0o001000, "digit")                        # BNE digit
    w.put(0o012700, fd, TRAP | 4, "text", 8)         # MOV #fd,R0; write text 8
    w.put(0o105037, "text")                          # CLRB @#text: what is written of the memory is no result
    w.put(0o012602, 0o012601, 0o012600, 0o000207)    # MOV (SP)+,R2; MOV (SP)+,R1; MOV (SP)+,R0; RTS PC


def tell_in_file(w, fd):
    """The same into a file."""
    w.label("text")
    w.put(0, 0)
    w.label("tell")
    w.put(0o010037, "text", 0o012737, MARK, w.labels["text"] + 2)    # MOV R0,@#text; MOV #052400,@#text+2
    w.put(0o005537, w.labels["text"] + 2, 0o010046)                  # ADC @#text+2; MOV R0,-(SP)
    w.put(0o012700, fd, TRAP | 4, "text", 4)                         # MOV #fd,R0; write text 4
    w.put(0o012600, 0o000207)                                        # MOV (SP)+,R0; RTS PC


def tell_words(w):
    """The routine `words`: tells the eighteen words from R4 on."""
    w.label("words")
    w.put(0o012703, 18)                              # MOV #18.,R3
    w.label("word")
    w.put(0o012400, 0o004737, "tell")                # MOV (R4)+,R0; JSR PC,@#tell
    w.sob(3, "word")
    w.put(0o000207)                                  # RTS PC


def begin(w, plan):
    """Opens what results go to, as the number `fd`, and perhaps leaves the numbers below it open."""
    w.label("start")
    w.put(*([TRAP | 8, "=" + RESULTS, 0o666] if plan.in_file else [TRAP | 5, "=/dev/tty8", 1]))
    if plan.fd:
        w.put(0o012701, plan.fd)                     # MOV #fd,R1
        w.label("more")
        w.put(0o005000, TRAP | 41)                   # CLR R0; dup
        w.sob(1, "more")
    if plan.fd and not plan.leave_open:
        w.put(0o012701, plan.fd)                     # MOV #fd,R1
        w.label("fewer")
        w.put(0o010100, 0o005300, TRAP | 6)          # MOV R1,R0; DEC R0; close
        w.sob(1, "fewer")
    if plan.in_file:
        w.put(0o012700, plan.fd, TRAP | 4, "=" + RESULTS, 8)
    w.put(0o012705, 15)                              # MOV #15.,R5: nothing is open there
    for register, value in enumerate(plan.registers, 1):
        w.put(0o012700 | register, value)            # MOV #value,Rn


def put_call(w, call):
    if call.r0 == "last":
        w.put(0o010500)                              # MOV R5,R0
    elif call.r0 is not None:
        w.put(0o012700, call.r0)                     # MOV #r0,R0
    call.at = w.at()
    w.put(TRAP | call.number, *(("=" + arg[0], arg[1]) if isinstance(arg, tuple) else arg for arg in call.args))


def put_told(w, plan, call):
    """A call, and the telling of its result and of its buffer."""
    put_call(w, call)
    if call.keep:
        w.put(0o103401, 0o010005)                    # BCS .+4; MOV R0,R5
    w.put(0o004737, "tell")                          # JSR PC,@#tell
    if call.tell == "bytes":
        at, count = call.args[-2:] if call.number in (3, 4) else (call.args[-1], 36)
        w.put(0o012700, plan.fd, TRAP | 4, at, count)
    elif call.tell == "words":
        w.put(0o012704, call.args[-1], 0o004737, "words")    # MOV #buffer,R4; JSR PC,@#words


def end(w, plan):
    """The registers are told. The program exits, or makes a last call, or neither; then it stays at one place, also
    where a call takes some words as arguments."""
    for register in range(1, len(plan.registers) + 1):
        w.put(0o010000 | register << 6, 0o004737, "tell")    # MOV Rn,R0; JSR PC,@#tell
    if plan.ending:
        put_call(w, plan.ending)
    elif plan.exits:
        w.put(TRAP | EXIT)
    w.put(*[0o000777] * 5)                           # BR .


def assembled(plan):
    """The bytes of the program."""
    w = Words()
    w.put(0o000137, "start")                         # JMP @#start
    w.put(*[0] * (plan.room // 2))
    calls = plan.all_calls()
    names = {arg[0] for call in calls for arg in call.args if isinstance(arg, tuple)}
    for name in sorted(names | {RESULTS if plan.in_file else "/dev/tty8"}):
        w.label("=" + name)
        w.data(name.encode() + b"\0")
    (tell_in_file if plan.in_file else tell_on_console)(w, plan.fd)
    if any(call.tell == "words" for call in calls):
        tell_words(w)
    begin(w, plan)
    for call in plan.calls:
        put_told(w, plan, call)
    end(w, plan)
    w.words = [with_skip(w, word) for word in w.words]
    return w.bytes()


def with_skip(w, word):
    """The address of a name of which some bytes are left out, which wraps round."""
    return (w.labels[word[0]] + word[1]) % 65536 if isinstance(word, tuple) else word


def init_of(rng, plan):
    """The file /etc/init: header, text and data. What is left up to the program's size is its bss, or zeros in the
    file."""
    body = assembled(plan)
    zeros = plan.total - len(body)
    if rng.random() < 0.2:
        body, zeros = body + bytes(zeros), 0
    text = rng.choice((len(body), 0, rng.randrange(len(body) + 1)))
    symbols = rng.choice((b"", b"", rng.randbytes(30)))
    return struct.pack("<8H", 0o407, text, len(body) - text, zeros, len(symbols), 0, 0, 0) + body + symbols


def text_of(arg):
    """The name that an argument is, or none where it is an address."""
    return arg[0][arg[1] :] if isinstance(arg, tuple) else None


def last_component(name):
    """The component that a name ends with, as the kernel cuts it."""
    return name.rstrip("/").split("/")[-1][:14]


def may_be_console(arg):
    """Whether a name may be one of the console; of an address that is no name's nobody knows."""
    return text_of(arg) is None or last_component(text_of(arg)) in CONSOLE_NAMES


def slots_of(plan):
    """A number of slots that is enough for all of the program."""
    told = sum(1 + 18 * (call.tell == "words") for call in plan.calls) + len(plan.registers)
    return 200 + 75 * told + 8 * len(plan.calls) + 12 * plan.fd


def items_of(plan):
    """What the program tells, in order: a call whose result is told, or a number of words or bytes."""
    for call in plan.calls:
        yield call
        if call.tell == "words":
            yield from ["word"] * 18
        elif call.tell == "bytes":
            yield call.args[-1] if call.number in (3, 4) else 36
    yield from ["word"] * len(plan.registers)
