"""The disassembler: source of which the assembler makes the same words."""
import functools
import struct

from v6.pdp11.names import ARGUMENTS, CALLS, CODES, INSTRUCTIONS, MAGIC, REGISTERS, SEGMENT, SHARED, signed

# how many of a word's low bits are its operands
BITS = {"": 0, "r": 3, "d": 6, "j": 6, "n6": 6, "b": 8, "n8": 8, "call": 8, "s,r": 9, "r,d": 9, "r,j": 9, "r,b": 9, "s,d": 12}
FORMS = {(word, BITS[form]): (name, form) for name, (form, word) in INSTRUCTIONS.items()}
REGISTER = {number: name for name, number in REGISTERS.items()}
CALL = {number: name for name, number in CALLS.items()}
CODE = {word: name for name, word in CODES.items()}


def unnamed(_):
    """No address has a name."""
    return None


class Words:
    """The words of a program from one on, with the address of the next. `name` gives the name of an address, or None."""

    def __init__(self, words, at, name=unnamed):
        self.words, self.at, self.name = list(words), at, name

    def place(self, address):
        """An address as text: its name, where it has one."""
        return self.name(address & 0xFFFF) or f"{address & 0xFFFF:o}"

    def next(self):
        """The next word; IndexError where there is none."""
        self.at = self.at + 2 & 0xFFFF
        return self.words.pop(0)


def operand(spec, more):
    mode, register = spec >> 3, REGISTER[spec & 7]
    star = "*" if mode & 1 and mode > 1 else ""
    if mode < 2:
        return (register, f"({register})")[mode]
    if mode < 4:
        if register == "pc":
            return f"*${more.place(more.next())}" if star else f"${more.next():o}"
        return f"{star}({register})+"
    if mode < 6:
        return f"{star}-({register})"
    x = more.next()
    return f"{star}{more.place(x + more.at)}" if register == "pc" else f"{star}{x:o}({register})"


def operands(form, word, more):
    """The operands of an instruction, as text. Those of a jump are None where it goes to a register."""
    high, low, register = word >> 6 & 0o77, word & 0o77, REGISTER[word >> 6 & 7]
    if form == "s,d":
        source = operand(high, more)
        return f"{source},{operand(low, more)}"
    if form in ("j", "r,j") and low < 0o10:
        return None
    if form == "s,r":
        return f"{operand(low, more)},{register}"
    if form in ("r,d", "r,j"):
        return f"{register},{operand(low, more)}"
    if form in ("d", "j"):
        return operand(low, more)
    return {"": "", "r": REGISTER[word & 7], "b": more.place(more.at + 2 * signed(word, 8)),
            "r,b": f"{register},{more.place(more.at - 2 * low)}", "n6": f"{low:o}", "n8": f"{word & 0o377:o}",
            "call": CALL.get(word & 0o377, f"{word & 0o377:o}")}[form]


def more_words(spec):
    """How many words an operand takes after its instruction."""
    return int(spec >> 3 >= 6 or spec & 7 == 7 and spec >> 3 in (2, 3))


@functools.lru_cache(maxsize=None)
def known(word):
    """The name and the form of the instruction that begins with a word, and how many words it has; None where the word is none."""
    if 0o240 <= word <= 0o277:
        return CODE.get(word, ""), "", 1
    for bits in sorted(set(BITS.values())):
        name, form = FORMS.get((word >> bits << bits, bits), (None, None))
        if name is not None:
            break
    else:
        return None
    if form in ("j", "r,j") and not word & 0o70:
        return None
    specs = {"s,d": (word >> 6 & 0o77, word & 0o77)}.get(form, (word & 0o77,) if form in ("d", "j", "s,r", "r,d", "r,j") else ())
    return name, form, 1 + sum(map(more_words, specs))


def codes(word):
    """Several condition codes that are cleared or set together."""
    bits = [bit for bit in (1, 2, 4, 8) if word & bit]
    return "|".join(CODE[word & ~0o17 | bit] for bit in bits) if bits else None


def instruction(words, at, name=unnamed):
    """The instruction with which the words at an address begin, and how many it has; None where they have no name."""
    more = Words(words, at, name)
    word = more.next()
    if word in CODE:
        return CODE[word], 1
    if 0o240 <= word <= 0o277:
        text = codes(word)
        return (text, 1) if text else None
    for bits in sorted(set(BITS.values())):
        if (word >> bits << bits, bits) in FORMS:
            name, form = FORMS[word >> bits << bits, bits]
            try:
                text = operands(form, word, more)
            except IndexError:
                return None
            if text is not None:
                return f"{name}\t{text}".rstrip(), len(words) - len(more.words)
    return None


def lines(words, at, name=unnamed):
    """Source for words from an address on."""
    while words:
        text, count = instruction(words, at, name) or (f"{words[0]:o}", 1)
        arguments = ARGUMENTS.get(text[4:], 0) if text.startswith("sys\t") else 0
        yield at, text, words[:count]
        for n, word in enumerate(words[count : count + arguments], count):
            yield at + 2 * n, f"{word:o}", [word]
        at, words = at + 2 * (count + arguments), words[count + arguments :]


def source(data):
    """Source for the bytes of a program's file, or ValueError."""
    magic, text, size, bss = struct.unpack("<4H", data[:16].ljust(16, b"\0")[:8])
    if magic not in (MAGIC, SHARED) or len(data) < 16 + text + size or (text | size) & 1:
        raise ValueError("no program of magic 0407 or 0410")
    words = struct.unpack(f"<{(text + size) // 2}H", data[16 : 16 + text + size])
    out = [f"\t{line:23} / {at:06o}: {' '.join(f'{w:06o}' for w in found)}"
           for at, line, found in lines(list(words[: text // 2]), 0)]
    start = -(-text // SEGMENT) * SEGMENT if magic == SHARED else text
    rest = words[text // 2 :]
    out += [".data"] * bool(rest) + [f"\t{word:<23o} / {start + 2 * n:06o}" for n, word in enumerate(rest)]
    return "\n".join(out + ([".bss", f"\t.=.+{bss:o}"] if bss else [])) + "\n"
