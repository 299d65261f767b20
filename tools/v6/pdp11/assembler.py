"""The assembler: the bytes of a program from its source, in two passes. docs/tools/as.md has the language."""
import re
import struct
from dataclasses import dataclass

from v6.pdp11.names import CALLS, CODES, INSTRUCTIONS, JUMPS, MAGIC, REGISTERS, SECOND_NAMES, SEGMENT, SHARED, signed

TOKEN = re.compile(r"""(?P<blank>[ \t]+) | (?P<comment>/.*) | (?P<text><(?:\\.|[^>\\])*>) | (?P<open><.*)
    | (?P<local>[0-9][fb](?![\w.~])) | (?P<number>[0-9][\w]*\.?) | (?P<name>[A-Za-z_.~][\w.~]*)
    | (?P<char>'(?:\\.|[^\\])) | (?P<pair>"(?:\\.|[^\\])(?:\\.|[^\\])) | (?P<mark>\\[/<>] | [-+&|*$(),:;=!%^[\]])""",
    re.X | re.A)
ESCAPES = {"n": 0o12, "t": 0o11, "e": 0o4, "0": 0, "r": 0o15, "a": 0o6, "p": 0o33, "\\": 0o134, ">": 0o76}
WORD = 0o177777
MOST = 65536
TOO_LARGE = f"the program has more than {MOST} bytes"
HEADER = struct.Struct("<8H")
SYMBOL = struct.Struct("<8s2H")  # a name, a type and a value: a.out(V)
TYPES = {None: 1, "text": 2, "data": 3, "bss": 4}
GLOBAL = 0o40  # of the type of a symbol that other programs may name
FILE, LINE = 0o37, 0o36  # types: eight bytes of a file's name, by its number; a file's number and a line, with its address
MARK = re.compile(r"/~([0-9]+)$")  # what the compiler of C puts before the words of a line
FUNCTION = re.compile(r"_[\w.~]*:")


class SourceError(Exception):
    """What is wrong with a line."""


@dataclass
class Value:
    """A number, counted from the beginning of a part of the program where it is an address. One that a name further on gives
    isn't known in the first pass."""

    number: int
    part: str = None
    known: bool = True


class Part:
    """The text, the data or the bss: its bytes so far, or their number."""

    def __init__(self):
        self.bytes, self.size, self.base = bytearray(), 0, 0


def even(size):
    return size + 1 & ~1


def plain_bytes(text):
    """The bytes between the marks of a text or a character, with its escapes."""
    data, at = bytearray(), 0
    while at < len(text):
        if text[at] == "\\":
            at += 1
            if text[at] not in ESCAPES:
                raise SourceError(f"'\\{text[at]}': no such escape")
            data.append(ESCAPES[text[at]])
        elif ord(text[at]) < 128:
            data.append(ord(text[at]))
        else:
            raise SourceError(f"'{text[at]}': no character of ASCII")
        at += 1
    return bytes(data)


def tokens(line):
    """The tokens of a line: (kind, text)."""
    at, found = 0, []
    while at < len(line):
        match = TOKEN.match(line, at)
        if not match:
            raise SourceError(f"'{line[at]}': no character of a program")
        if match.lastgroup == "open":
            raise SourceError("the text has no end: > is missing")
        if match.lastgroup not in ("blank", "comment"):
            found.append((match.lastgroup, match[0]))
        at = match.end()
    return found


def tokens_if_any(line):
    """The tokens of a line that is passed over, which may be anything."""
    try:
        return tokens(line)
    except SourceError:
        return []


def near_name(jump):
    name = {"jbr": "br", "jec": "bcc", "jes": "bcs"}.get(jump, "b" + jump[1:])
    return SECOND_NAMES.get(name, name)


def number_of(text):
    digits = text.rstrip(".")
    base = 10 if text.endswith(".") else 8
    try:
        value = int(digits, base)
    except ValueError:
        raise SourceError(f"'{text}': no number; one in decimal ends with a point") from None
    if value > WORD:
        raise SourceError(f"'{text}': too large for a word")
    return value


class Assembler:
    def __init__(self):
        self.labels, self.places, self.registers = {}, {}, dict(REGISTERS)
        self.constants = {name: Value(word) for name, word in CODES.items()}
        self.common, self.common_at, self.globals = {}, {}, set()
        self.errors, self.lines, self.first, self.last = [], [], True, False
        self.origin = 0  # what `..` is: where address 0 of the text stands
        self.long, self.grew = set(), False  # the jumps that need more than a branch, by their count
        self.traced, self.traces = (), []  # the sources whose lines are wanted; and of each of these where it begins in the text

    def assemble(self, sources, shared=False, symbols=False, traced=()):
        """The file of a program, of its sources: (name, text). None where one has an error: see `errors`. The first pass
        finds what the names are, others which jumps need more than a branch, and the last makes the words. The table of symbols
        has the lines of the sources `traced` too."""
        self.traced = traced
        while True:
            self.parts = {name: Part() for name in ("text", "data", "bss")}
            if not self.first:
                self.put_bases(shared)
            self.passes(sources)
            if self.errors:
                return None
            self.sizes = {name: even(part.size) for name, part in self.parts.items()}
            if self.last:
                break
            self.last = not self.first and not self.grew or not self.count
            self.first, self.grew = False, False
        if self.parts["bss"].base + self.sizes["bss"] > MOST:
            self.errors.append(TOO_LARGE)
        self.errors += [f"the {name} has more than {WORD - 1} bytes" for name, size in self.sizes.items() if size > WORD]
        if self.errors:
            return None
        text, data = (bytes(self.parts[name].bytes).ljust(self.sizes[name], b"\0") for name in ("text", "data"))
        table = b"".join(SYMBOL.pack(name.encode()[:8], kind, value) for name, kind, value in self.symbols() if symbols)
        table += self.line_symbols()
        if len(table) > WORD:
            self.errors.append(f"the table of symbols has more than {WORD} bytes")
            return None
        header = HEADER.pack(SHARED if shared else MAGIC, len(text), len(data), self.sizes["bss"], len(table), 0, 0, 0)
        return header + text + data + table

    def symbols(self):
        """The names that the source gives, with the types of a.out(V) and their values, by address."""
        constants = {name: value for name, value in self.constants.items() if name not in CODES}
        named = {**constants, **self.common_at, **self.labels}
        found = [(name, TYPES[value.part] + GLOBAL * (name in self.globals), self.resolve(value) & WORD)
                 for name, value in named.items()]
        return sorted(found, key=lambda symbol: (symbol[1] & 7, symbol[2], symbol[0]))

    def line_symbols(self):
        """The lines of the sources that are traced, with the addresses where their words begin; line 0 is none."""
        files, out = {}, b""
        for at, file, line in self.traces:
            if file not in files:
                files[file] = len(files)
                name = file.encode()
                out += b"".join(SYMBOL.pack(name[start : start + 8], FILE, files[file]) for start in range(0, len(name), 8))
            out += SYMBOL.pack(struct.pack("<2H", files[file], line), LINE, at)
        return out

    def trace(self, file, line, start):
        """Takes down that words of a line begin here, in the text."""
        base = self.parts["text"].base + self.origin
        if not self.traces or self.traces[-1][1:] != (file, line):
            self.traces.append((start + base & WORD, file, line))

    def put_bases(self, shared):
        text, data = self.sizes["text"], self.sizes["data"]
        self.parts["data"].base = -(-text // SEGMENT) * SEGMENT if shared else text
        self.parts["bss"].base = self.parts["data"].base + data

    def passes(self, sources):
        """One pass over all lines."""
        self.part, self.seen, self.count, self.ifs, self.traces = "text", {}, 0, [], []
        for file, source in sources:
            is_traced, is_c, mark = file in self.traced, file.endswith(".c"), 0
            for count, line in enumerate(source.split("\n"), 1):
                start, self.at = (self.part, self.here().size), f"{file}:{count}: "
                try:
                    self.line(line.rstrip("\r"))
                except SourceError as error:
                    self.complain(error)
                if self.last:
                    self.lines.append((*start, line))
                    if is_c:
                        found = MARK.match(line)
                        mark = int(found[1]) if found else 0 if FUNCTION.match(line) else mark
                    if self.traced and start[0] == "text" and self.parts["text"].size > start[1]:
                        wanted = (file, mark if is_c else count) if is_traced else (self.traced[0], 0)
                        self.trace(*wanted, start[1])
        if self.ifs:
            self.complain(".if without .endif")
        bss = self.parts["bss"]
        for name in [name for name in self.common if name not in self.labels]:
            bss.size = even(bss.size)
            self.common_at[name] = Value(bss.size, "bss")
            bss.size += self.common[name]

    def complain(self, error):
        """Tells what is wrong in this line. It keeps its words in the second pass, so that all others stay in place."""
        self.errors.append(f"{self.at}{error}")

    def here(self):
        return self.parts[self.part]

    def line(self, line):
        self.tokens = tokens(line) if all(self.ifs) else tokens_if_any(line)
        self.tokens.append(("end", ""))
        while True:
            if all(self.ifs) or self.peek("name", ".if") or self.peek("name", ".endif"):
                self.statement()
            else:
                self.skip()
            if self.accept("end"):
                return
            if not self.accept("mark", ";"):
                raise SourceError(f"'{self.tokens[0][1]}' isn't expected here")

    # tokens

    def peek(self, kind, text=None, at=0):
        return at < len(self.tokens) and self.tokens[at][0] == kind and text in (None, self.tokens[at][1])

    def accept(self, kind, text=None):
        if self.peek(kind, text):
            return self.tokens.pop(0)
        return None

    def skip(self):
        """Passes over a statement."""
        while not self.peek("end") and not self.peek("mark", ";"):
            self.tokens.pop(0)

    def want(self, kind, text=None):
        found = self.accept(kind, text)
        if not found:
            wanted = f"'{text}'" if text else "a name"
            raise SourceError(f"{self.found()} where {wanted} is wanted")
        return found[1]

    def found(self, token=None):
        """What stands in the place of something else."""
        text = (token or self.tokens[0])[1]
        return f"'{text}'" if text else "the end of the line"

    # statements

    def statement(self):
        while self.peek("mark", ":", 1):
            self.label()
        if self.peek("end") or self.peek("mark", ";"):
            return
        if self.peek("text"):
            self.put(plain_bytes(self.want("text")[1:-1]))
        elif self.peek("name") and self.peek("mark", "=", 1):
            self.assignment()
        elif self.peek("name") and self.tokens[0][1] in DIRECTIVES:
            DIRECTIVES[self.want("name")](self)
        elif self.peek("name") and self.tokens[0][1] in JUMPS:
            self.jump(self.want("name"))
        elif self.peek("name") and SECOND_NAMES.get(self.tokens[0][1], self.tokens[0][1]) in INSTRUCTIONS:
            self.instruction(self.want("name"))
        elif self.is_unknown():
            raise SourceError(f"'{self.tokens[0][1]}': no instruction")
        else:
            self.words(self.expression())

    def is_unknown(self):
        """Whether a name, which is no instruction's, has operands after it."""
        kind, text = self.tokens[1] if self.peek("name") else ("end", "")
        return kind != "end" and (kind != "mark" or text in "*$(")

    def label(self):
        kind, name = self.tokens.pop(0)
        self.want("mark", ":")
        place = Value(self.here().size, self.part)
        if kind == "number" and len(name) == 1:
            self.seen[name] = self.seen.get(name, 0) + 1
            self.places[name, self.seen[name]] = place
        elif kind != "name":
            raise SourceError(f"'{name}': no name for a label")
        elif name in (".", "..") or name in OWN or name in self.constants or name in self.registers:
            raise SourceError(f"'{name}' has a meaning already")
        elif self.first and name in self.labels:
            raise SourceError(f"'{name}' is defined twice")
        else:
            self.labels[name] = place

    def assignment(self):
        name = self.want("name")
        self.want("mark", "=")
        if self.peek("name") and self.tokens[0][1] in self.registers and name not in OWN:
            self.registers[name] = self.register()
            return
        value = self.expression()
        if name == ".":
            self.advance(value)
        elif name == "..":
            self.origin = self.number_now(value, name)
        elif name in OWN or name in self.labels:
            raise SourceError(f"'{name}' has a meaning already")
        else:
            self.constants[name] = value

    def advance(self, value):
        size = self.here().size
        if not value.known:
            raise SourceError("'.' can't go by a name that stands further on")
        if value.part != self.part or value.number < size:
            raise SourceError("'.' can only move on, in its own part")
        if value.number > MOST:
            raise SourceError(TOO_LARGE)
        if self.part == "bss":
            self.here().size = value.number
        else:
            self.put(bytes(value.number - size))

    def put(self, data):
        part = self.here()
        if self.part == "bss" and data:
            raise SourceError("the bss has no bytes of its own: .=.+N takes room")
        part.bytes += data
        part.size += len(data)

    def words(self, *values):
        if self.here().size & 1:
            raise SourceError("a word at an odd address: .even is wanted before it")
        self.put(struct.pack(f"<{len(values)}H", *(self.resolve(value) & WORD for value in values)))

    def number_now(self, value, name):
        """A number that has to be known where it stands."""
        if not value.known:
            raise SourceError(f"'{name}' can't go by a name that stands further on")
        return self.resolve(value) & WORD

    def condition(self):
        """.if: what follows up to .endif is read where the expression isn't 0."""
        self.ifs.append(all(self.ifs) and self.number_now(self.expression(), ".if") != 0)
        if not self.ifs[-1]:
            self.skip()

    def end_of_condition(self):
        if not self.ifs:
            raise SourceError(".endif without .if")
        self.ifs.pop()

    def global_names(self):
        self.globals.add(self.want("name"))
        while self.accept("mark", ","):
            self.globals.add(self.want("name"))

    def common_name(self):
        """.comm: room in the bss, unless the name has a place elsewhere."""
        name = self.want("name")
        self.want("mark", ",")
        size = self.number_now(self.expression(), ".comm")
        self.globals.add(name)
        self.common[name] = max(size, self.common.get(name, 0))

    def section(self, name):
        self.part = name

    def even(self):
        size = even(self.here().size)
        self.advance(Value(size, self.part))

    def bytes_list(self):
        while True:
            value = self.resolve(self.expression())
            value = signed(value) if value > 0o377 else value
            if not -128 <= value <= 255:
                self.complain("a number that doesn't fit a byte")
            self.put(bytes([value & 255]))
            if not self.accept("mark", ","):
                return

    # expressions

    def expression(self):
        value = Value(0) if any(self.peek("mark", sign) for sign in "-+!") else self.term()
        while self.peek("mark") and self.tokens[0][1] in OPERATORS and not self.is_step():
            operator = self.tokens.pop(0)[1]
            value = self.combined(value, operator, self.term())
        return value

    def is_step(self):
        """Whether a minus begins `-(r)`."""
        return self.peek("mark", "-") and self.peek("mark", "(", 1)

    def combined(self, left, operator, right):
        if operator == "^":
            return Value(left.number, right.part, left.known)
        if not (left.known and right.known):
            return Value(0, known=False)
        if left.part and right.part and operator == "-":
            return Value(self.resolve(left) - self.resolve(right) & WORD)
        if right.part and not (operator == "+" and not left.part) or left.part and operator not in "+-":
            raise SourceError("addresses can't be put together so")
        if operator in ("\\/", "%") and not right.number & WORD:
            raise SourceError("division by 0")
        number, part = OPERATORS[operator](left.number, right.number), left.part or right.part
        return Value(number if part else number & WORD, part)

    def term(self):
        kind, text = self.tokens[0]
        if self.accept("mark", "["):
            value = self.expression()
            self.want("mark", "]")
            return value
        if kind not in TERMS or kind == "name" and text in self.registers:
            raise SourceError(f"{self.found()} where a value is wanted")
        self.tokens.pop(0)
        return TERMS[kind](self, text)

    def named(self, name):
        if name == ".":
            return Value(self.here().size, self.part)
        if name == "..":
            return Value(self.origin)
        found = self.labels.get(name) or self.constants.get(name) or self.common_at.get(name)
        if self.last and not (found and found.known):
            self.complain(f"'{name}' isn't defined")
        return found or Value(0, known=False)

    def near(self, text):
        name, count = text[0], self.seen.get(text[0], 0) + (text[1] == "f")
        found = self.places.get((name, count))
        if not found and (self.last or text[1] == "b"):
            self.complain(f"'{text}': there is no label {name}: that way")
        return found or Value(0, known=False)

    def resolve(self, value):
        return value.number + (self.parts[value.part].base + self.origin if value.part else 0)

    # instructions

    def instruction(self, name):
        form, word = INSTRUCTIONS[SECOND_NAMES.get(name, name)]
        start = self.here().size
        more = []
        for count, kind in enumerate(form.split(",") if form else ()):
            if count:
                self.want("mark", ",")
            word |= OPERANDS[kind](self, form, more, start)
        self.words(Value(word), *more)

    def register(self):
        found = self.accept("name")
        if not found or found[1] not in self.registers:
            raise SourceError(f"{self.found(found)} where a register is wanted")
        return self.registers[found[1]]

    def register_field(self, form, more, start):
        return self.register() << (0 if form == "r" else 6)

    def source(self, form, more, start):
        return self.operand(more, start) << (6 if form == "s,d" else 0)

    def destination(self, form, more, start):
        return self.operand(more, start)

    def target(self, form, more, start):
        spec = self.operand(more, start)
        if spec < 0o10:
            raise SourceError("a register has no address to go to")
        return spec

    def operand(self, more, start):
        """The six bits of an operand; its word, where it has one, goes to `more`."""
        deferred = 0o10 if self.accept("mark", "*") else 0
        if self.accept("mark", "$"):
            more.append(self.expression())
            return 0o27 + deferred
        if self.peek("mark", "("):
            register = self.in_brackets()
            if self.accept("mark", "+"):
                return 0o20 + deferred + register
            if deferred:
                more.append(Value(0))
                return 0o70 + register
            return 0o10 + register
        if self.is_step():
            self.accept("mark", "-")
            return 0o40 + deferred + self.in_brackets()
        if self.peek("name") and self.tokens[0][1] in self.registers:
            return self.register() + deferred
        value = self.expression()
        if self.peek("mark", "("):
            more.append(value)
            return 0o60 + deferred + self.in_brackets()
        after = start + 2 * len(more) + 4
        more.append(Value(self.resolve(value) - self.resolve(Value(after, self.part)) & WORD))
        return 0o67 + deferred

    def in_brackets(self):
        self.want("mark", "(")
        register = self.register()
        self.want("mark", ")")
        return register

    def branch(self, form, more, start):
        value = self.expression()
        distance = signed(self.resolve(value) - self.resolve(Value(start + 2, self.part)))
        if not self.last:
            return 0
        back = form == "r,b"
        steps = -distance // 2 if back else distance // 2
        if distance & 1:
            self.complain("a branch to an odd address")
        elif not (0 <= steps <= 63 if back else -128 <= steps <= 127):
            self.complain(f"the branch is too far: {distance} bytes")
        return steps & (0o77 if back else 0o377)

    def jump(self, name):
        """A branch where the target is near enough; else a jmp, after the opposite branch where there is a condition."""
        self.count += 1
        count, start, value = self.count, self.here().size, self.expression()
        opposite = JUMPS[name]
        distance = signed(self.resolve(value) - self.resolve(Value(start + 2, self.part)))
        if not self.first and count not in self.long and not -256 <= distance <= 254:
            self.long.add(count)
            self.grew = True
        if count not in self.long:
            self.words(Value(INSTRUCTIONS[near_name(name)][1] | distance // 2 & 0o377))
            return
        words = [INSTRUCTIONS[opposite][1] | 2] if opposite else []
        after = start + 2 * len(words) + 4
        distance = self.resolve(value) - self.resolve(Value(after, self.part))
        self.words(*map(Value, words), Value(INSTRUCTIONS["jmp"][1] | 0o67), Value(distance & WORD))

    def small(self, form, more, start):
        value, most = self.resolve(self.expression()), 63 if form == "n6" else 255
        if value > most:
            self.complain(f"a number above {most}")
        return value & most

    def call(self, form, more, start):
        kind, name = self.tokens[0]
        if kind != "name" or name not in CALLS:
            return self.small(form, more, start)
        self.tokens.pop(0)
        return CALLS[name]


def quotient(left, right):
    """Left divided by right, towards 0."""
    size = abs(left) // abs(right)
    return size if (left < 0) == (right < 0) else -size


OPERATORS = {"+": int.__add__, "-": int.__sub__, "&": int.__and__, "|": int.__or__, "*": int.__mul__, "^": None,
             "\\/": lambda a, b: quotient(signed(a), signed(b)),
             "%": lambda a, b: signed(a) - quotient(signed(a), signed(b)) * signed(b),
             "\\>": lambda a, b: (a & WORD) >> (b & 31), "\\<": lambda a, b: a << (b & 31), "!": lambda a, b: a | ~b & WORD}
TERMS = {"number": lambda a, text: Value(number_of(text)), "name": Assembler.named, "local": Assembler.near,
         "char": lambda a, text: Value(plain_bytes(text[1:])[0]),
         "pair": lambda a, text: Value(int.from_bytes(plain_bytes(text[1:]), "little"))}
DIRECTIVES = {".byte": Assembler.bytes_list, ".even": Assembler.even, ".if": Assembler.condition,
              ".endif": Assembler.end_of_condition, ".globl": Assembler.global_names, ".comm": Assembler.common_name,
              **{"." + name: lambda a, name=name: a.section(name) for name in ("text", "data", "bss")}}
OPERANDS = {"s": Assembler.source, "d": Assembler.destination, "j": Assembler.target, "r": Assembler.register_field,
            "b": Assembler.branch, "n6": Assembler.small, "n8": Assembler.small, "call": Assembler.call}
OWN = {*REGISTERS, *INSTRUCTIONS, *SECOND_NAMES, *JUMPS, *CODES, *DIRECTIVES}  # the names that have a meaning from the start
