"""Python for the instructions of a program, one by one or several in a row: docs/manual/instructions.md.

The text speaks of `M`, the word at each even address and None where nothing is, and of `K`, which isn't 0 where a word can't just be
stored: a row that comes to what isn't there leaves before its instruction, with nothing of it done. Of the condition codes `n` and
`v` have N and V in bit 15, `z` is 0 where Z is set, and `c` is true where C is."""
import re

from v6.pdp11.names import signed

MASK, TOP = 0xFFFF, 0x8000
N, Z, V, C = 8, 4, 2, 1
CODE = re.compile(r"\b[nzvc]\b")  # the name of a condition code
STORED = 12  # after the registers and the codes: where an instruction stored, or -1
BRANCHES = {
    0o1: "True", 0o2: "z", 0o3: "not z", 0o4: "not (n ^ v) & 32768", 0o5: "(n ^ v) & 32768", 0o6: "z and not (n ^ v) & 32768",
    0o7: "not z or (n ^ v) & 32768", 0o200: "not n & 32768", 0o201: "n & 32768", 0o202: "z and not c", 0o203: "not z or c",
    0o204: "not v", 0o205: "v", 0o206: "not c", 0o207: "c",
}


ONES = {0o51: "~{d}", 0o52: "{d} + 1", 0o53: "{d} - 1", 0o54: "-{d}", 0o55: "{d} + (1 if {c} else 0)", 0o56: "{d} - (1 if {c} else 0)"}
CODES = {0o51: ("0", "1"), 0o52: ("32768 if {d} == {most} else 0", None), 0o53: ("32768 if {d} == {top} else 0", None),
         0o54: ("32768 if {x} == {top} else 0", "{x} != 0"),
         0o55: ("32768 if {d} == {most} and {c} else 0", "{d} == {mask} and {c}"),
         0o56: ("32768 if {d} == {top} and {c} else 0", "{d} == 0 and {c}")}


class Unfit(Exception):
    """An instruction that the kernel does, or that can't stand in a row."""


class Row:
    """Instructions in a row, from an address on: registers and codes are variables of their own, and PC is known in each place."""

    indent, carry, negative = "        ", "c", "n"

    def __init__(self, words, at):
        self.words, self.pc, self.here = words, at, at  # the word at an address, and the addresses of the next and of this instruction
        self.out, self.used, self.done, self.count, self.ends = [], [], 0, 0, False

    def register(self, number):
        return f"r{number}"

    def begin(self):
        """The first word of the next instruction."""
        self.here, self.now, self.stored, self.codes, self.goes = self.pc, {}, None, [], None
        return int(self.fetch())

    def fetch(self):
        word = self.words[self.pc] if not self.pc & 1 else None
        if word is None:
            raise Unfit
        self.used.append(self.pc)
        self.pc = self.pc + 2 & MASK
        return str(word)

    def counter(self):
        """PC, as text."""
        return str(self.pc)

    def emit(self, line):
        self.out.append(self.indent + line)

    def keep(self, text):
        """A name for a value."""
        self.count += 1
        self.emit(f"t{self.count} = {text}")
        return f"t{self.count}"

    def leave(self):
        """What leaves the row before this instruction."""
        return f"p = {self.here}; k += {self.done}; break"

    def get(self, number):
        return self.counter() if number == 7 else self.now.get(number) or self.register(number)

    def set(self, number, text):
        if number == 7:
            self.goes = text
        else:
            self.now[number] = text

    # operands

    def load(self, at, is_byte=False):
        """What is at an address."""
        if at.isdigit() and int(at) in self.used:
            return str(self.words[int(at)] & (255 if is_byte else MASK))
        if not is_byte:
            found = self.keep(f"M[{at}]")
            self.emit(f"if {found} is None: {self.leave()}")
            return found
        found = self.keep(f"M[{at} & 65534]")
        self.emit(f"if {found} is None: {self.leave()}")
        return self.keep(f"{found} >> 8 if {at} & 1 else {found} & 255")

    def moved(self, number, by):
        """A register that steps up or down, before what follows."""
        if number == 7:
            return self.moved_counter(by)
        self.now[number] = self.keep(f"{self.get(number)} {'+' if by > 0 else '-'} {abs(by)} & 65535")
        return self.now[number]

    def moved_counter(self, by):
        if by < 0:
            raise Unfit
        self.fetch()
        return self.counter()

    def place(self, spec, is_byte=False):
        """Where an operand is: the number of its register, or its address as text."""
        mode, number = spec >> 3, spec & 7
        step = 1 if is_byte and number < 6 else 2
        if mode == 0:
            return number
        if mode == 1:
            return self.get(number)
        if mode in (2, 3):
            at = self.get(number)
            self.moved(number, step if mode == 2 else 2)
        elif mode in (4, 5):
            at = self.moved(number, -step if mode == 4 else -2)
        else:
            x = self.fetch()
            at = self.keep(f"{x} + {self.get(number)} & 65535")
        return self.load(at) if mode in (3, 5, 7) else at

    def read(self, place, is_byte=False):
        if isinstance(place, str):
            return self.load(place, is_byte)
        return self.keep(f"{self.get(place)} & 255") if is_byte else self.get(place)

    def write(self, place, value, is_byte=False):
        """Takes a value for a place; it is stored when all of the instruction is done."""
        if not isinstance(place, str):
            self.set(place, self.keep(f"{self.get(place)} & 65280 | {value}") if is_byte else value)
            return
        at = self.keep(f"{place} & 65534") if is_byte else place
        self.emit(f"if K[{at}]: {self.leave()}")
        if is_byte:
            value = f"M[{at}] & 255 | {value} << 8 if {place} & 1 else M[{at}] & 65280 | {value}"
        self.stored = at, value

    # the end of an instruction

    def code(self, name, text):
        self.codes.append(f"{name} = {text}")

    def result(self, value, is_byte=False, v="0", c=None):
        """The condition codes by a result."""
        if is_byte:
            self.code("n", f"{value} << 8")
            self.code("z", value)
        else:
            self.code("n = z", value)
        self.code("v", v)
        if c is not None:
            self.code("c", c)

    def finish(self):
        """What has been held back until nothing can be missing any more."""
        if self.stored:
            self.emit(f"M[{self.stored[0]}] = {self.stored[1]}")
        for text in self.codes:
            self.emit(text)
        if self.goes:
            self.emit(f"p = {self.goes}")
        if self.now:
            self.emit(f"{', '.join(map(self.register, self.now))} = {', '.join(self.now.values())}")
        self.done += 1
        self.ends |= self.goes is not None

    def branch(self, condition, target):
        """Goes to an address where a condition holds."""
        if target == self.used[0]:
            self.emit(f"if {condition}:")
            self.emit(f"    k += {self.done + 1}")
            self.emit(f"    if k + {{size}} > limit: p = {target}; break")
            self.emit("    continue")
            self.ends = condition == "True"
        elif condition == "True":
            self.goes = str(target)
        else:
            self.emit(f"if {condition}: p = {target}; k += {self.done + 1}; break")

    def counted(self, value, target):
        """Goes to an address where a value, which is kept already, isn't 0."""
        self.emit(f"{', '.join(map(self.register, self.now))} = {', '.join(self.now.values())}")
        self.now = {}
        self.branch(value, target)

    def target(self, distance):
        return self.pc + distance & MASK


class Single(Row):
    """One instruction at any address, of which the first word is known. The registers and codes are in a list."""

    indent, carry, negative = "    ", "r[11]", "r[8]"
    names = {"n = z": "r[8] = r[9]", "n": "r[8]", "z": "r[9]", "v": "r[10]", "c": "r[11]"}

    def __init__(self, word):
        super().__init__(None, 0)
        self.word, self.pc = word, "p"

    def register(self, number):
        return f"r[{number}]"

    def begin(self):
        self.now, self.stored, self.codes, self.goes = {}, None, [], None
        self.pc = self.keep("p + 2 & 65535")
        return self.word

    def fetch(self):
        found = self.keep(f"M[{self.pc}]")
        self.emit(f"if {found} is None: return 0")
        self.pc = self.keep(f"{self.pc} + 2 & 65535")
        return found

    def counter(self):
        return self.pc

    def moved_counter(self, by):
        self.pc = self.keep(f"{self.pc} {'+' if by > 0 else '-'} {abs(by)} & 65535")
        return self.pc

    def leave(self):
        return "return 0"

    def code(self, name, text):
        super().code(self.names[name], text)

    def branch(self, condition, target):
        condition = CODE.sub(lambda found: self.names[found[0]], condition)
        self.goes = f"{target} if {condition} else {self.pc}"

    def counted(self, value, target):
        self.goes = f"{target} if {value} else {self.pc}"

    def target(self, distance):
        return f"({self.pc} + {distance} & 65535)"

    def finish(self):
        if self.stored:
            self.emit(f"r[{STORED}] = {self.stored[0]}")
        self.now[7], self.goes = self.goes or self.pc, None
        super().finish()


# What a word does. Each of these emits all but the end of it, and tells whether the row ends there.

def two(row, word):
    """Two operands."""
    operation, is_byte = word >> 12 & 7, word >> 15 and word >> 12 & 7 != 6
    source = row.read(row.place(word >> 6 & 0o77, is_byte), is_byte)
    place = row.place(word & 0o77, is_byte)
    mask, top, up = (255, 128, " << 8") if is_byte else (MASK, TOP, "")
    if operation == 1:
        row.result(source, is_byte)
        if is_byte and not isinstance(place, str):
            row.set(place, row.keep(f"{source} | 65280 if {source} & 128 else {source}"))
        else:
            row.write(place, source, is_byte)
        return
    other = row.read(place, is_byte)
    if operation == 2:
        x = row.keep(f"{source} - {other} & {mask}")
        row.result(x, is_byte, f"(({source} ^ {other}) & ({source} ^ {x}) & {top}){up}", f"{source} < {other}")
    elif operation == 6 and word < TOP:
        y = row.keep(f"{other} + {source}")
        x = row.keep(f"{y} & 65535")
        row.result(x, False, f"~({source} ^ {other}) & ({source} ^ {x}) & 32768", f"{y} >> 16")
        row.write(place, x)
    elif operation == 6:
        x = row.keep(f"{other} - {source} & 65535")
        row.result(x, False, f"({source} ^ {other}) & ({other} ^ {x}) & 32768", f"{other} < {source}")
        row.write(place, x)
    else:
        x = row.keep(f"{other} {({3: '&', 4: '& ~', 5: '|'})[operation]} {source}")
        row.result(x, is_byte)
        if operation != 3:
            row.write(place, x, is_byte)


def one(row, word):
    """One operand."""
    is_byte, operation = bool(word >> 15), word >> 6 & 0o77
    mask, top, up = (255, 128, " << 8") if is_byte else (MASK, TOP, "")
    place = row.place(word & 0o77, is_byte)
    if operation == 0o50:
        row.result("0", is_byte, "0", "0")
        return row.write(place, "0", is_byte)
    d = row.read(place, is_byte)
    if operation == 0o57:
        return row.result(d, is_byte, "0", "0")
    if operation >= 0o60:
        c = row.keep(f"{d} & 1" if operation in (0o60, 0o62) else f"({d} & {top}) > 0")
        c_in = f"({top} if {row.carry} else 0)"
        x = row.keep({0o60: f"{d} >> 1 | {c_in}", 0o61: f"{d} << 1 & {mask} | (1 if {row.carry} else 0)",
                      0o62: f"{d} >> 1 | {d} & {top}", 0o63: f"{d} << 1 & {mask}"}[operation])
        v = f"({x}{up} ^ (32768 if {c} else 0)) & 32768"
        row.result(x, is_byte, v, c)
    else:
        x = row.keep(ONES[operation].format(d=d, c=row.carry) + f" & {mask}")
        v, c = CODES[operation]
        words = {"d": d, "x": x, "c": row.carry, "most": top - 1, "top": top, "mask": mask}
        row.result(x, is_byte, v.format(**words), c and c.format(**words))
    row.write(place, x, is_byte)


def register_and(row, word):
    """A register and an operand, signed numbers and shifts."""
    operation, number = word >> 9 & 7, word >> 6 & 7
    if operation == 4:
        value = row.get(number)
        place = row.place(word & 0o77)
        x = row.keep(f"{row.read(place)} ^ {value}")
        row.result(x)
        return row.write(place, x)
    source = row.read(row.place(word & 0o77))
    high, low = row.get(number), row.get(number | 1)
    name = ("multiply", "divide", "shift", "shift_both")[operation]
    found = row.keep(f"{name}({high}, {source})" if name in ("multiply", "shift") else f"{name}({high}, {low}, {source})")
    if name == "shift":
        row.set(number, row.keep(f"{found}[4]"))
    elif name == "divide" or not number & 1:
        row.set(number, row.keep(f"{found}[4]"))
        row.set(number | 1, row.keep(f"{found}[5]"))
    else:
        row.set(number, row.keep(f"{found}[5]"))
    for place, code in enumerate("nzvc"):
        row.code(code, f"{found}[{place}]")


def counts(row, word):
    """SOB."""
    number = word >> 6 & 7
    x = row.keep(f"{row.get(number)} - 1 & 65535")
    if number == 7:
        return row.set(7, row.keep(f"{x} - {2 * (word & 0o77)} & 65535 if {x} else 0"))
    row.set(number, x)
    row.counted(x, row.target(-2 * (word & 0o77)))


def pop(row):
    """The word at SP, which passes it."""
    found = row.load(row.get(6))
    row.moved(6, 2)
    return found


def jumps(row, word):
    """JMP, JSR, RTS and MARK; then the row ends."""
    number = word >> 6 & 7
    if word < 0o200:
        row.set(7, row.place(word & 0o77))
    elif word < 0o210:
        number = word & 7
        at = row.get(number)
        found = pop(row)
        row.set(7, at)
        row.set(number, found)
    elif word >= 0o6400:
        row.now[6] = row.keep(f"{row.counter()} + {2 * (word & 0o77)} & 65535")
        at = row.get(5)
        row.set(5, pop(row))
        row.set(7, at)
    else:
        at = row.place(word & 0o77)
        value = row.get(number)
        row.write(row.moved(6, -2), value)
        row.set(number, row.counter())
        row.set(7, at)


def returns(row, word):
    """RTI and RTT."""
    row.set(7, pop(row))
    word = pop(row)
    for name, text in zip("nzvc", CODES_OF):
        row.code(name, text.format(word))


def sets(row, word):
    """Condition codes by their names."""
    is_set = word & 0o20
    for name, bit, there, gone in (("n", N, TOP, 0), ("z", Z, 0, 1), ("v", V, TOP, 0), ("c", C, 1, 0)):
        if word & bit:
            row.code(name, str(there if is_set else gone))


def low(row, word):
    """SWAB and SXT."""
    place = row.place(word & 0o77)
    if word < 0o400:
        d = row.read(place)
        x = row.keep(f"({d} >> 8 | {d} << 8) & 65535")
        row.result(row.keep(f"{x} & 255"), True, "0", "0")
        return row.write(place, x)
    row.write(place, row.keep(f"65535 if {row.negative} & 32768 else 0"))
    row.code("z", f"1 if {row.negative} & 32768 else 0")
    row.code("v", "0")


def nothing(row, word):
    """WAIT and RESET."""


def kind_of(word):
    """What does a word, or None where it is no instruction of a program alone."""
    if 1 <= word >> 12 & 7 <= 6:
        return two
    if word >> 12 == 7:
        return register_and if word < 0o75000 else counts if word >= 0o77000 else None
    if word >> 12 == 0o17:
        return None
    if word >> 8 in BRANCHES:
        return branches
    if word & 0o77777 >= 0o5000 and word & 0o77777 < 0o6400:
        return one
    return kind_below(word)


def kind_below(word):
    if word in (1, 5):
        return nothing
    if word in (2, 6):
        return returns
    is_place = word & 0o70 > 0
    if 0o100 <= word < 0o200 or 0o4000 <= word < 0o5000:
        return jumps if is_place else None
    if 0o200 <= word < 0o210 or 0o6400 <= word < 0o6500:
        return jumps
    if 0o240 <= word < 0o300:
        return sets
    return low if 0o300 <= word < 0o400 or 0o6700 <= word < 0o7000 else None


def branches(row, word):
    row.branch(BRANCHES[word >> 8], row.target(2 * signed(word, 8)))


CODES_OF = ("({0} & 8) << 12", "not {0} & 4", "({0} & 2) << 14", "{0} & 1")


# What is too long for a line: N and V in bit 15, what is 0 for Z, C, and one or two words.

def codes_of(value, v, c, *words):
    return TOP if value < 0 else 0, value, TOP if v else 0, c, *words


def multiply(one, other):
    value = signed(one) * signed(other)
    return codes_of(value, False, not -TOP <= value < TOP, value >> 16 & MASK, value & MASK)


def divide(high, low, by):
    """The quotient and the remainder, or the words as they were."""
    value, by = signed(high << 16 | low, 32), signed(by)
    if not by:
        return codes_of(1, True, True, high, low)
    quotient = abs(value) // abs(by) * (1 if (value < 0) == (by < 0) else -1)
    if not -TOP <= quotient < TOP:
        return codes_of(1, True, False, high, low)
    return codes_of(quotient, False, False, quotient & MASK, value - quotient * by & MASK)


def shifted(value, count, bits):
    """A signed number after so many steps to the left, or to the right, with V and C."""
    over, count = False, signed(count, 6)
    if count < 0:
        return value >> -count, False, value >> -count - 1 & 1
    if not count:
        return value, False, 0
    wide = value << count
    carry = wide >> bits & 1
    steps = wide >> bits - 1  # the sign and all that have passed it: V where they aren't all the same
    over = steps not in (0, -1)
    return signed(wide, bits), over, carry


def shift(word, count):
    value, over, carry = shifted(signed(word), count, 16)
    return codes_of(value, over, carry, value & MASK)


def shift_both(high, low, count):
    value, over, carry = shifted(signed(high << 16 | low, 32), count, 32)
    return codes_of(value, over, carry, value >> 16 & MASK, value & MASK)


# The functions

NAMES = {"multiply": multiply, "divide": divide, "shift": shift, "shift_both": shift_both}
LOCALS = {**{f"r{number}": number for number in range(7)}, "n": 8, "z": 9, "v": 10, "c": 11}
LOCAL = re.compile(r"\b(?:r[0-6]|[nzvc])\b")
MOST = 24  # instructions in a row


def made(lines):
    """The function of these lines."""
    names = dict(NAMES)
    exec(compile("\n".join(lines), "<instructions>", "exec"), names)  # all of it is made of the numbers of instructions
    return names["f"]


def single(word):
    """f(r, M, K, p) does the instruction with this first word at p, and tells whether it did; None where the kernel does it."""
    does = kind_of(word)
    if does is None:
        return None
    one_row = Single(word)
    one_row.begin()
    does(one_row, word)
    one_row.finish()
    return made(["def f(r, M, K, p):", *one_row.out, "    return 1"])


def row_at(words, at, goes_on):
    """f(r, M, K, limit) does instructions from an address on, no more than that many, and gives how many it did. With it come how
    many it does at most without going round, and the addresses of their words. `goes_on` tells whether the instruction at an
    address may stand in the row. None where there is none."""
    row = Row(words, at)
    while row.done < MOST and not row.ends and goes_on(row.pc):
        before = len(row.out), len(row.used), row.pc
        try:
            word = row.begin()
            does = kind_of(word)
            if does is None:
                raise Unfit
            does(row, word)
            row.finish()
        except Unfit:
            del row.out[before[0] :], row.used[before[1] :]
            row.pc = before[2]
            break
    if not row.done:
        return None
    if not row.ends:
        row.emit(f"p = {row.pc}")
    row.emit(f"k += {row.done}; break")
    text = "\n".join(row.out).replace("{size}", str(row.done))
    used = sorted(set(LOCAL.findall(text)))
    there, back = [f"r[{LOCALS[name]}]" for name in used], ", ".join(used)
    lines = ["def f(r, M, K, limit):", "    k = 0"]
    lines += [f"    {back} = {', '.join(there)}"] * bool(used) + ["    while 1:", text]
    lines += [f"    {', '.join(there)} = {back}"] * bool(used) + ["    r[7] = p", "    return k"]
    return made(lines), row.done, tuple(row.used)
