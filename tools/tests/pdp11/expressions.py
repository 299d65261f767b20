"""Expressions of C at random, over words, longs and bytes, and what they come to by the rules of C for an int of 16 bits."""
TYPES = {"char": (8, True), "unsigned char": (8, False), "int": (16, True), "unsigned": (16, False), "long": (32, True),
         "unsigned long": (32, False)}
SUFFIX = {"int": "", "unsigned": "u", "long": "L", "unsigned long": "UL"}
COMPARED = {"<": int.__lt__, ">": int.__gt__, "<=": int.__le__, ">=": int.__ge__, "==": int.__eq__, "!=": int.__ne__}
PLAIN = {"+": int.__add__, "-": int.__sub__, "*": int.__mul__, "&": int.__and__, "|": int.__or__, "^": int.__xor__}


def fitted(value, kind):
    """A value as this type keeps it."""
    bits, sign = TYPES[kind]
    value &= (1 << bits) - 1
    return value - (1 << bits) if sign and value >> (bits - 1) else value


def promoted(kind):
    return "int" if TYPES[kind][0] == 8 else kind


def common(one, other):
    """The type in which two values are put together."""
    both = {promoted(one), promoted(other)}
    return next((kind for kind in ("unsigned long", "long", "unsigned") if kind in both), "int")


def quotient(left, right):
    size = abs(left) // abs(right)
    return size if (left < 0) == (right < 0) else -size


class Expressions:
    """Makes expressions over variables, by name their type and value: (text, type, value)."""

    def __init__(self, random, variables):
        self.random, self.variables = random, variables

    def leaf(self):
        if self.random.random() < 0.3:
            kind = self.random.choice(list(SUFFIX))
            most = 16 if kind in ("int", "unsigned") else 32
            value = self.random.choice([0, 0, 1, 2, 3, 7, 10, 127, 128, 255, 256, 32767, self.random.getrandbits(most - 1)])
            return f"{value}{SUFFIX[kind]}", kind, value
        name = self.random.choice(list(self.variables))
        return (name, *self.variables[name])

    def make(self, depth):
        if depth == 0 or self.random.random() < 0.1:
            return self.leaf()
        forms = [self.cast, self.unary, self.choice, self.logical, self.shift, *[self.binary] * 4]
        return self.random.choice(forms)(depth - 1)

    def cast(self, depth):
        text, _, value = self.make(depth)
        kind = self.random.choice(list(TYPES))
        return f"(({kind}){text})", kind, fitted(value, kind)

    def unary(self, depth):
        (text, kind, value), operator = self.make(depth), self.random.choice("-~!")
        if operator == "!":
            return f"(!{text})", "int", int(not value)
        kind = promoted(kind)
        return f"({operator}{text})", kind, fitted(-value if operator == "-" else ~value, kind)

    def choice(self, depth):
        which, one, other = self.make(depth), self.make(depth), self.make(depth)
        kind = common(one[1], other[1])
        return f"({which[0]} ? {one[0]} : {other[0]})", kind, fitted(one[2] if which[2] else other[2], kind)

    def logical(self, depth):
        (one, _, left), (other, _, right) = self.make(depth), self.make(depth)
        operator = self.random.choice(["&&", "||"])
        return f"({one} {operator} {other})", "int", int(bool(left and right if operator == "&&" else left or right))

    def shift(self, depth):
        text, kind, value = self.make(depth)
        kind, operator = promoted(kind), self.random.choice(["<<", ">>"])
        by = self.random.randrange(1, TYPES[kind][0] - 1)
        value = fitted(value, kind)
        return f"({text} {operator} {by})", kind, fitted(value << by if operator == "<<" else value >> by, kind)

    def binary(self, depth):
        (one, first, left), (other, second, right) = self.make(depth), self.make(depth)
        kind = common(first, second)
        left, right = fitted(left, kind), fitted(right, kind)
        operator = self.random.choice([*COMPARED, *PLAIN, "/", "%"])
        if operator in COMPARED:
            return f"({one} {operator} {other})", "int", int(COMPARED[operator](left, right))
        if operator in "/%" and right in (0, -1):
            operator = "+"
        value = (PLAIN[operator](left, right) if operator in PLAIN else quotient(left, right) if operator == "/"
                 else left - quotient(left, right) * right)
        return f"({one} {operator} {other})", kind, fitted(value, kind)


def literal(kind, value):
    """A constant of this type."""
    return f"({kind})({value}{'UL' if value >= 0 else 'L'})" if value > -(2**31) else f"({kind})(-2147483647L - 1)"


def program(random, count, depth):
    """A program in C that prints so many expressions, each as a long in hexadecimal, and what it must print."""
    variables = {}
    for prefix in ("g", "p"):
        for kind in TYPES:
            value = fitted(random.choice([random.getrandbits(32), random.randrange(-300, 300)]), kind)
            variables[prefix + "".join(word[0] for word in kind.split()) + str(TYPES[kind][0])] = kind, value
    globals_, parameters = ([(name, *value) for name, value in variables.items() if name[0] == prefix] for prefix in "gp")
    heads = ", ".join(f"{kind} {name}" for name, kind, _ in parameters)
    lines = ["#include <stdio.h>", *(f"{kind} {name} = {literal(kind, value)};" for name, kind, value in globals_)]
    calls, wanted = [], []
    for at in range(count):
        text, kind, value = Expressions(random, variables).make(depth)
        form = random.randrange(3)
        if form == 0:
            lines.append(f"{kind} f{at}({heads}) {{ return {text}; }}")
        elif form == 1:
            lines.append(f"{kind} f{at}({heads}) {{ {kind} it; it = {text}; return it; }}")
        else:
            lines.append(f"int f{at}({heads}) {{ if ({text}) return 1; return 0; }}")
            kind, value = "int", int(bool(value))
        arguments = ", ".join(literal(kind, value) for _, kind, value in parameters)
        calls.append(f'\tprintf("%lx\\n", (long)f{at}({arguments}));')
        wanted.append(f"{value & 0xffffffff:x}\n")
    return "\n".join([*lines, "int main(void)", "{", *calls, "\treturn 0;", "}", ""]), "".join(wanted)
