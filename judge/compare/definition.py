"""Evaluates the definition of a lawful log as it stands in crates/pick_rules/specs, with no word of it copied.

The definitions are read, and each becomes a function of Python: equations with patterns, records, lists, options, numbers. A
proposition becomes a truth value: an equality is whether two values are equal, a product is `and`, a sum is `or`, and a number
that is said to be there is looked for among the fifty entries. What the definitions use of std is written here, and
`same_chan`, which is a derive's. A definition that this can't read, as one with an implication, may not be asked for. `first_fault` gives
the number of the first line of a log that the definition `Fits` refuses.
"""
import functools
import re

from judge import TOP

FILES = ("map_fit/specs/Fit", *("pick_rules/specs/" + name for name in (
    "Search", "Table", "Priority", "Sleepers", "Clock", "Choice", "Board", "Swapper", "Apply", "Ranges", "Fits", "Lawful")))
CONSTANTS = ("v6_base/src/entry.rt", "pick_rules/src/ranges.rt")
NONE = ("None",)
OPERATORS = (("→", "right"), ("⊎", "right"), ("×", "right"), ("≡ ≢ < ≤ <ℤ ≤ℤ", "none"), ("||", "right"), ("&&", "right"),
             ("==", "none"), ("++ ∷", "right"), ("+ - +ℤ", "left"), ("* / %", "left"), ("^", "right"))
PYTHON = {"⊎": "({} or {})", "×": "({} and {})", "≡": "({} == {})", "≢": "({} != {})", "<": "({} < {})", "≤": "({} <= {})",
          "<ℤ": "({} < {})", "≤ℤ": "({} <= {})", "||": "({} or {})", "&&": "({} and {})", "==": "({} == {})", "++": "({} + {})",
          "∷": "[{}, *{}]", "+": "({} + {})", "+ℤ": "({} + {})", "-": "max({} - {}, 0)", "*": "({} * {})", "/": "({} // {})",
          "%": "({} % {})", "^": "({} ** {})"}
WORDS = {"true": "True", "false": "False", "⊤": "True", "⊥": "False", "Unit": "True", "[]": "[]", "ℕ": "True"}
TOKEN = re.compile(r"\s*(≤ℤ|<ℤ|\+ℤ|\+\+|==|\|\||&&|\[\]|λ|[()≡≢<≤×⊎→∷+*/%^{}=;:⊤⊥-]|\d+|\.(?=\w)|[^\W\d][\w-]*|\.)")


def some(x):
    return ("Some", x)


def local(name):
    """What a name is called in Python that a definition binds: a definition may have the same one."""
    return f"its_{name}"


def slice_set(items, i, x):
    return items[:i] + [x] + items[i + 1 :] if i < len(items) else items


STD = {
    "min": min, "int_min": min, "nat_lt": lambda a, b: a < b, "nat_le": lambda a, b: a <= b, "int_lt": lambda a, b: a < b,
    "pos": lambda n: n, "negsuc": lambda n: -n - 1, "suc": lambda n: n + 1, "not": lambda b: not b,
    "length": len, "map": lambda f, xs: [f(x) for x in xs], "filter": lambda f, xs: [x for x in xs if f(x)],
    "find": lambda f, xs: next((some(x) for x in xs if f(x)), NONE), "list_any": lambda f, xs: any(f(x) for x in xs),
    "flat_map": lambda f, xs: [y for x in xs for y in f(x)], "fold": lambda f, a, xs: functools.reduce(f, xs, a),
    "replicate": lambda n, x: [x] * n, "range_with_len": lambda first, n: list(range(first, first + n)),
    "slice_index_or": lambda xs, i, x: xs[i] if i < len(xs) else x, "slice_set": slice_set,
    "option_map": lambda f, o: some(f(o[1])) if o != NONE else NONE, "option_or": lambda o, p: o if o != NONE else p,
    "unwrap_or": lambda o, x: o[1] if o != NONE else x, "is_none": lambda o: o == NONE, "is_some": lambda o: o != NONE,
    "same_chan": lambda a, b: a == b,
}
ARITIES = {name: f.__code__.co_argcount if hasattr(f, "__code__") else 2 for name, f in STD.items()}
ARITIES.update(length=1, Core=1, Swap=1, Some=1)


class Reader:
    """Reads an expression over some bound names, and gives the Python of it."""

    def __init__(self, text, arities, aliases, bound):
        self.tokens, self.at, self.arities, self.aliases, self.bound = TOKEN.findall(text), 0, arities, aliases, list(bound)
        if "".join(self.tokens) != re.sub(r"\s", "", text):
            raise ValueError(f"no expression: {text}")

    def peek(self):
        return self.tokens[self.at] if self.at < len(self.tokens) else ""

    def take(self, wanted=None):
        token = self.peek()
        if wanted and token != wanted:
            raise ValueError(f"{wanted} is wanted at {self.tokens[self.at :][:9]}")
        self.at += 1
        return token

    def expression(self, level=0):
        if self.peek() in ("λ", "let", "if"):
            return getattr(self, {"λ": "function", "let": "binding", "if": "choice"}[self.peek()])()
        if level == len(OPERATORS):
            return self.application()
        if level == 0 and self.tokens[self.at : self.at + 1] == ["("] and self.tokens[self.at + 2 : self.at + 3] == [":"]:
            return self.existence()
        left, (operators, side) = self.expression(level + 1), OPERATORS[level]
        while self.peek() in operators.split():
            operator = self.take()
            right = self.expression(level + (side != "right"))
            left = PYTHON[operator].format(left, right)
            if side != "left":
                break
        return left

    def existence(self):
        """An entry is there with which the rest holds."""
        self.take("(")
        name = self.take()
        self.take(":")
        self.take("ℕ")
        self.take(")")
        self.take("×")
        return f"any({self.over(name)} for {local(name)} in range(50))"

    def over(self, *names):
        """An expression in which these names are bound."""
        self.bound += names
        value = self.expression()
        del self.bound[len(self.bound) - len(names) :]
        return value

    def function(self):
        self.take("λ")
        names = []
        while self.peek() != ".":
            names.append(self.take())
        self.take(".")
        return f"(lambda {', '.join(map(local, names))}: {self.over(*names)})"

    def binding(self):
        self.take("let")
        name = self.take()
        while self.take() != "=":
            pass
        value = self.expression()
        self.take("in")
        return f"(lambda {local(name)}: {self.over(name)})({value})"

    def choice(self):
        self.take("if")
        test = self.expression()
        self.take("then")
        yes = self.expression()
        self.take("else")
        return f"({yes} if {test} else {self.expression()})"

    def application(self):
        head, is_constructor = self.atom()
        args = []
        while self.peek() in ("(", "[]", "record", "⊤") or re.match(r"\w", self.peek()) and self.peek() not in (
                "then", "else", "in"):
            args.append(self.value(*self.atom()))
        if is_constructor:
            return f"({', '.join([repr(head), *args])},)" if args or head not in self.arities else self.value(head, True)
        arity = self.arities.get(head)
        if not args:
            return head if arity != 0 else f"{head}()"
        return f"{head}({', '.join(args)})" if arity in (None, len(args)) else f"partial({', '.join([head, *args])})"

    def value(self, text, is_constructor):
        """An atom by itself."""
        if is_constructor:
            return f"(lambda x: ({text!r}, x))" if text in self.arities else f"({text!r},)"
        return f"{text}()" if self.arities.get(text) == 0 else text

    def atom(self):
        token = self.take()
        if token == "record":
            return self.record(), False
        if token == "(":
            inner = self.expression()
            self.take(")")
            return self.fields(inner), False
        if token in WORDS:
            if token == "Unit":
                self.tokens[self.at : self.at + 3] = []  # {0}
            return WORDS[token], False
        if token.isdigit():
            return token, False
        if token in self.aliases and self.peek() == "." and self.tokens[self.at + 1][0].isupper():
            self.take(".")
            return f"({self.take()!r},)", False
        if token in self.bound:
            return self.fields(local(token)), False
        if token[0].isupper() and token not in self.arities or token in ("Core", "Swap", "Some"):
            return token, True
        return self.fields(token), False

    def fields(self, text):
        while self.peek() == ".":
            self.take()
            text = f"{text}[{self.take()!r}]"
        return text

    def record(self):
        """A record, or another one with some fields anew."""
        base = "" if self.peek() == "{" else f"**{self.value(*self.atom())}, "
        self.take("{")
        parts = []
        while self.peek() != "}":
            name = self.take()
            self.take("=")
            parts.append(f"{name!r}: {self.expression()}")
            if self.peek() == ";":
                self.take()
        self.take("}")
        return f"{{{base}{', '.join(parts)}}}"


def pattern(words, at, place, tests, names):
    """Reads a pattern of what is at a place: its tests, and the places of its names. Gives the next index."""
    word = words[at]
    if word == "(":
        if words[at + 2] == "∷":
            tests.append(place)
            names += [(words[at + 1], f"{place}[0]"), (words[at + 3], f"{place}[1:]")]
            return at + 5
        at += 1
        if words[at + 1] == ".":
            at += 2
        tests.append(f"{place}[0] == {words[at]!r}")
        at, count = at + 1, 1
        while words[at] != ")":
            at = pattern(words, at, f"{place}[{count}]", tests, names)
            count += 1
        return at + 1
    if words[at + 1 : at + 2] == ["."]:
        tests.append(f"{place}[0] == {words[at + 2]!r}")
        return at + 3
    if word == "[]":
        tests.append(f"not {place}")
    elif word[0].isupper():
        tests.append(f"{place}[0] == {word!r}")
    else:
        names.append((word, place))
    return at + 1


def items(text):
    """The items of a file: each begins at the margin."""
    text = re.sub(r"--.*", "", text)
    return [item for item in re.split(r"\n(?=\w)", text) if item.strip()]


class Definitions:
    """The definitions of some files, in the order in which they stand."""

    def __init__(self):
        self.arities, self.equations, self.aliases, self.bodies = dict(ARITIES), {}, set(), []
        self.space = {**STD, "partial": functools.partial}
        for name in CONSTANTS:
            with open(f"{TOP}/crates/{name}", encoding="utf-8") as file:
                self.space.update((name, int(value)) for name, value in re.findall(r"const (\w+): \w+ = (\d+);", file.read()))
        self.arities.update((name, None) for name in self.space if name.isupper())
        sources = []
        for name in FILES:
            with open(f"{TOP}/crates/{name}.antt", encoding="utf-8") as file:
                sources += items(file.read())
        for item in sources:
            self.declare(item)
        for name, equations in self.equations.items():
            self.define(name, equations)

    def declare(self, item):
        """Keeps the equations of an item; a record that says something is one equation, by its fields."""
        if item.startswith("use "):
            self.aliases.update(re.findall(r" as (\w+)\s*$", item))
        found = re.match(r"(?:pub )?record (\w+)((?: \([^)]*\))*) : Type 0 where(.*)", item, re.S)
        if found and found[2]:
            args = [word for part in re.findall(r"\(([^:]*):", found[2]) for word in part.split()]
            fields = re.findall(r"pub (\w+) : (.*?)(?=\n  pub |\Z)", found[3], re.S)
            there = "".join(f"({name} : ℕ) × " for name, kind in fields if kind.strip() == "ℕ")
            said = " × ".join(f"({kind})" for _, kind in fields if kind.strip() != "ℕ")
            self.equations[found[1]] = [(" ".join(args), there + said)]
            self.arities[found[1]] = len(args)
            return
        found = re.match(r"([^\W\d]\w*)((?: [^=]*?)?) =\s(.*)", item, re.S)
        if found and found[1] not in STD and not re.match(r"(abbrev|unfoldable|pub|data|use) ", item):
            self.equations.setdefault(found[1], []).append((found[2], found[3]))
            self.arities[found[1]] = None

    def define(self, name, equations):
        """Reads the patterns of a function's equations."""
        lines, count = [], 0
        for patterns, body in equations:
            words, at, count, tests, names = TOKEN.findall(patterns), 0, 0, [], []
            while at < len(words):
                at, count = pattern(words, at, f"a{count}", tests, names), count + 1
            lines.append((tests, names, body))
        self.arities[name] = count
        self.bodies.append((name, count, lines))

    def compiled(self):
        """All of them as functions, once their numbers of arguments are known."""
        for name, count, lines in self.bodies:
            code = [f"def {name}({', '.join(f'a{i}' for i in range(count))}):"]
            for tests, names, body in lines:
                try:
                    reader = Reader(body, self.arities, self.aliases, [word for word, _ in names])
                    value = reader.expression()
                    if reader.peek():
                        raise ValueError(f"more than an expression: {reader.tokens[reader.at :]}")
                except ValueError as error:
                    code.append(f"    raise ValueError({str(error)!r})")
                    continue
                code.append(f"    if {' and '.join(tests) or 'True'}:")
                code += [f"        {local(word)} = {place}" for word, place in names]
                code.append(f"        return {value}")
            exec("\n".join(code), self.space)  # pylint: disable=exec-used
        return self.space


# the lines of a log

NUMBER, NATURAL = re.compile(r"0|-?[1-9][0-9]*"), re.compile(r"0|[1-9][0-9]*")
CHANNELS = {"runin": "RunIn", "runout": "RunOut", "tout": "Tout", "keys": "Keys", "show": "Show"}
NUMBERED = {"wait": "Wait", "read": "Read", "write": "Write", "disk": "Disk", "keys": "KeysOf", "show": "ShowOf"}
FORMS = {
    "boot N N": "Boot", "go N": "Go", "idle": "Idle", "trap N": "Trap", "tick u": "TickUser", "tick k": "TickKernel",
    "tick i": "TickIdle", "sleep N N W": "Sleep", "sleep N -N W": "Sleep", "wake W": "Wake", "signal N N": "Signal",
    "nice N N": "Nice", "nice N -N": "Nice", "time N": "Time", "size N N at N": "Size", "size N N swap N": "Size",
    "size N N keep": "SizeKeep", "fork N N at N": "Fork", "fork N N swap N": "Fork", "drop N N plain": "Leave",
    "drop N N sticky": "Leave", "bare N": "Bare", "text N N N swap N": "Text", "share N N": "Share",
    "image N N at N": "Image", "image N N swap N": "Image", "in N N": "SwapIn", "out N N": "SwapOut", "exit N swap N": "Exit",
    "reap N": "Reap", "panic swap": "Panic", "panic zombie": "Panic", "panic text": "Panic", "end": "End",
}


def word_of(word):
    """What a word of a line stands for, and its value."""
    head, dot, number = word.partition(".")
    if NUMBER.fullmatch(word):
        return "-N" if word.startswith("-") else "N", int(word)
    if dot and head in NUMBERED and NATURAL.fullmatch(number):
        return "W", (NUMBERED[head], int(number))
    if not dot and head in CHANNELS:
        return "W", (CHANNELS[head],)
    return word, None


def entry_of(line):
    """The entry of a line, or None where it has no line's form."""
    words = [word_of(word) for word in line.split(" ")]
    form = " ".join(word for word, _ in words)
    name, values = FORMS.get(form), [value for _, value in words if value is not None]
    if name in ("Size", "Fork", "Image"):
        values[2:] = [("Core" if words[3][0] == "at" else "Swap", values[2])]
    elif name == "Leave":
        values.append(form.endswith("sticky"))
    elif name == "Panic":
        values.append((words[1][0].capitalize(),))
    return name and (name, *values)


class Auditor:
    """Follows logs by the definition."""

    def __init__(self):
        self.names = Definitions().compiled()

    def begin(self):
        return self.names["nothing_seen"]()

    def after(self, seen, line):
        """What is seen after a line; None where it doesn't fit."""
        entry = entry_of(line)
        return self.names["seen_after"](seen, entry) if entry and self.names["Fits"](seen, entry) else None

    def first_fault(self, lines, seen=None, number=1):
        """The number of the first line that doesn't fit, where these go on from what is seen, or of the line that lacks at the
        end; None where the log is lawful."""
        seen = seen or self.begin()
        for line in lines:
            seen = self.after(seen, line)
            if seen is None:
                return number
            number += 1
        return None if seen["stage"] == ("Over",) else number
