"""What the machine's terminal shows of a line that is typed: docs/manual/terminal.md."""
import itertools

CAPITALS = {ord(key): b"\\" + shown for key, shown in zip("{}|~`", (b"(", b")", b"!", b"^", b"'"))}
TAB, NEW_LINE, RETURN, BACKSPACE, END_OF_FILE = 0o11, 0o12, 0o15, 0o10, 0o4


def column(data, start=0):
    """Where the head of the typewriter stands after these bytes."""
    for byte in data:
        if 0o40 <= byte <= 0o176:
            start = (start + 1) % 256
        elif byte == BACKSPACE:
            start = max(start - 1, 0)
        elif byte == TAB:
            start = (start // 8 + 1) * 8 if start < 248 else 0
        elif byte in (NEW_LINE, RETURN):
            start = 0
    return start


def echo(data, at, capitals, tabs, returns):
    """What goes out of keys, from a column on, on a terminal of these modes: LCASE, XTABS, CRMOD."""
    out = bytearray()
    for key in data:
        if returns and key == RETURN:
            key = NEW_LINE
        if key == END_OF_FILE:
            piece = b""
        elif tabs and key == TAB:
            piece = b" " * (8 - column(out, at) % 8)
        elif returns and key == NEW_LINE:
            piece = b"\r\n"
        elif capitals and key in CAPITALS:
            piece = CAPITALS[key]
        else:
            piece = bytes([key]).upper() if capitals else bytes([key])
        out += piece
    return bytes(out)


def without_echo(before, new, data):
    """What is new on the terminal, without the echo of a line that the keyboard's own terminal has shown. The modes of the
    machine's terminal aren't known, so it is whichever echo stands there."""
    at = column(before[before.rfind(b"\n") + 1 :])
    echoes = {echo(data, at, *modes) for modes in itertools.product((True, False), repeat=3)}
    return new[max((len(one) for one in echoes if new.startswith(one)), default=0) :]
