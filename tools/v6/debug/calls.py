"""Calls of the kernel as they stand in a program, told with their arguments and their answers: docs/manual/calls.md."""
from dataclasses import dataclass, field

from v6.debug.answers import DESCRIPTORS, FILES
from v6.pdp11.names import ARGUMENTS, CALLS, signed

SYS, NUMBER, INDIRECT = 0o104400, 0o77, 0
SHOWN = 32  # bytes of a text that are shown
MOST_ARGUMENTS = 16  # words of a list of arguments that are shown
NAMES = {number: name for name, number in CALLS.items()}
ERRORS = {1: "EPERM", 2: "ENOENT", 3: "ESRCH", 4: "EINTR", 5: "EIO", 6: "ENXIO", 7: "E2BIG", 8: "ENOEXEC", 9: "EBADF",
          10: "ECHILD", 11: "EAGAIN", 12: "ENOMEM", 13: "EACCES", 15: "ENOTBLK", 16: "EBUSY", 17: "EEXIST", 18: "EXDEV",
          19: "ENODEV", 20: "ENOTDIR", 21: "EISDIR", 22: "EINVAL", 23: "ENFILE", 24: "EMFILE", 25: "ENOTTY", 26: "ETXTBSY",
          27: "EFBIG", 28: "ENOSPC", 29: "ESPIPE", 30: "EROFS", 31: "EMLINK", 32: "EPIPE"}
# What a call gets in R0, before the words after it, and those words: a number in decimal (d), signed (s) or octal (o), the
# address of a name (n), of a list of arguments (l), of bytes whose count is the next word (b), or of a place for an answer (a).
FORMS = {
    "exit": "d:", "fork": ":", "read": "d:ad", "write": "d:bd", "open": ":nd", "close": "d:", "wait": ":", "creat": ":no",
    "link": ":nn", "unlink": ":n", "exec": ":nl", "chdir": ":n", "time": ":", "mknod": ":noo", "chmod": ":no", "chown": ":no",
    "break": ":o", "stat": ":na", "seek": "d:sd", "getpid": ":", "mount": ":nnd", "umount": ":n", "setuid": "d:", "getuid": ":",
    "stime": "t:", "ptrace": "d:doo", "fstat": "d:a", "smdate": ":o", "stty": "d:a", "gtty": "d:a", "nice": "s:", "sleep": "d:",
    "sync": ":", "kill": "d:d", "csw": ":", "dup": "d:", "pipe": ":", "times": ":a", "profil": ":oooo", "setgid": "d:",
    "getgid": ":", "signal": ":do",
}
# What R0, and R1 where it counts, are when a call is done.
ANSWERS = {"fork": "d", "read": "r", "write": "d", "open": "d", "creat": "d", "wait": "w", "time": "t", "getpid": "d", "getuid": "u",
           "getgid": "u", "csw": "o", "dup": "d", "pipe": "p", "signal": "o"}
PENDING = {1: "read", 2: "write", 3: "read", 4: "write", 5: "sleep", 6: "wait", 7: "disk"}


@dataclass
class Call:
    """A call that was met: its name, its arguments as text, and where a read puts its bytes."""

    name: str
    arguments: list
    buffer: int = 0
    began: int = None  # the slot of its word, where that was seen
    waited: list = field(default_factory=list)  # what it has waited for

    def told(self):
        return f"{self.name}({', '.join(self.arguments)})"


def octal(value):
    return f"0{value:o}" if value else "0"


def text_of(data, more=False):
    """Bytes as text between quotes."""
    names = {0o12: "\\n", 0o11: "\\t", 0o15: "\\r", 0: "\\0", 0o42: '\\"', 0o134: "\\\\"}
    shown = "".join(names.get(byte) or (chr(byte) if 0o40 <= byte < 0o177 else f"\\{byte:03o}") for byte in data[:SHOWN])
    return f'"{shown}"' + (".." if more or len(data) > SHOWN else "")


def call_at(process):
    """The call whose word stands at the PC of a process, or None where it is no call."""
    at, found = process.pc, process.word(process.pc)
    if found is not None and found == SYS | INDIRECT:
        at = process.word(at + 2)
        found = None if at is None else process.word(at)
    if found is None or not SYS <= found <= SYS | 0o377:
        return None
    name = NAMES.get(found & NUMBER, f"call {found & NUMBER}")
    first, _, rest = FORMS.get(name, ":").partition(":")
    words = [process.word(at + 2 + 2 * number) for number in range(ARGUMENTS.get(name, 0))]
    words = [0o177777 if one is None else one for one in words]
    arguments = [argument(process, form, process.registers[0], process.registers[1]) for form in first]
    for form, one, after in zip(rest, words, [*words[1:], 0]):
        arguments.append(argument(process, form, one, after))
    return Call(name, arguments, buffer=words[0] if "a" in rest and words else 0)


def argument(process, form, value, after):
    """An argument as text; `after` is the next word."""
    if form == "n":
        return text_of(process.string(value))
    if form == "l":
        return list_of(process, value)
    if form == "b":
        return text_of(process.bytes(value, min(after, SHOWN + 1)), more=after > SHOWN)
    if form == "t":
        return str(value << 16 | after)
    return {"d": str(value), "s": str(signed(value)), "o": octal(value), "a": octal(value)}[form]


def list_of(process, address):
    """The arguments of a program, from their list."""
    found = []
    for number in range(MOST_ARGUMENTS):
        at = process.word(address + 2 * number)
        if not at:
            break
        found.append(text_of(process.string(at)))
    else:
        found.append("..")
    return "[" + ", ".join(found) + "]"


def name_of(process):
    """The name in the first argument of the call at the PC, as it stands in memory."""
    at = process.pc
    if process.word(at) == SYS | INDIRECT:
        at = process.word(at + 2)
    name = process.word(at + 2)
    return process.string(name).decode("ascii", "replace")


def kept(process):
    """A call that has waited since before its beginning was seen, by what the u area keeps of it. That has the entry of its open file, so R0
    is the descriptor where it leads there."""
    name = PENDING.get(process.pending, "call")
    entry, address, count, *_ = process.kept
    r0 = process.registers[0]
    first = str(r0) if r0 < DESCRIPTORS and process.u[FILES + r0] == entry + 1 else ".."
    return Call(name, [first, octal(address), str(count)] if name in ("read", "write") else [], buffer=address)


def answer(call, process):
    """What a call that is done has answered."""
    r0, r1 = process.registers[:2]
    if process.carry:
        return ERRORS.get(r0, f"error {r0}")
    form = ANSWERS.get(call.name)
    if form == "r":
        return f"{r0}" + (f" {text_of(process.bytes(call.buffer, min(r0, SHOWN + 1)), more=r0 > SHOWN)}" if r0 else "")
    if form == "w":
        return f"{r0}, status {octal(r1)}"
    if form == "t":
        return str(r0 << 16 | r1)
    if form == "u":
        return f"{r0 & 0o377}, effective {r0 >> 8}"
    if form == "p":
        return f"{r0}, {r1}"
    return {None: "done", "d": str(r0), "o": octal(r0)}[form]
