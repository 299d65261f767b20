"""What a page of a run has in it, packed: texts, numbers line by line, and the differences of its panels from line to line."""
import base64
import json
import zlib
from array import array

WIDTHS = {"B": 1, "H": 2, "I": 4}  # bytes of a number, the fewest first
LEVEL = 9  # of packing
NOTHING = 0  # the number of the empty text


class Texts:
    """Each text once, by its number; that of the empty one is 0."""

    def __init__(self):
        self.numbers = {"": NOTHING}

    def number(self, text):
        return self.numbers.setdefault(text, len(self.numbers))

    def all(self):
        return list(self.numbers)


class Panels:
    """The rows of all panels, and what each line of the log changes in them. A panel has room for so many rows; of more, its last
    row says how many there are."""

    def __init__(self, texts):
        self.texts, self.places, self.used = texts, {}, {}
        self.rows = array("I")
        self.counts, self.fields, self.values = array("H"), array("H"), array("I")
        self.begun = 0  # how many changes there were when the line began

    def add(self, name, rows):
        """A panel of this name, of so many rows."""
        self.places[name] = len(self.rows), rows
        self.rows.extend([NOTHING] * rows)
        self.used[name] = 0

    def row(self, name, at, text):
        """The text of one row of a panel."""
        field, number = self.places[name][0] + at, self.texts.number(text)
        if self.rows[field] != number:
            self.rows[field] = number
            self.fields.append(field)
            self.values.append(number)

    def show(self, name, lines):
        """All rows of a panel."""
        room = self.places[name][1]
        if len(lines) > room:
            lines = [*lines[: room - 1], f"and {len(lines) - room + 1} more"]
        for at, text in enumerate(lines):
            self.row(name, at, text)
        for at in range(len(lines), self.used[name]):
            self.row(name, at, "")
        self.used[name] = len(lines)

    def end_line(self):
        """A line of the log is done. No field is named twice in its changes: the last one counts."""
        changes = len(self.fields) - self.begun
        if len(set(self.fields[self.begun :])) < changes:
            last = dict(zip(self.fields[self.begun :], self.values[self.begun :]))
            del self.fields[self.begun :], self.values[self.begun :]
            self.fields.extend(last)
            self.values.extend(last.values())
        self.counts.append(len(self.fields) - self.begun)
        self.begun = len(self.fields)

    def columns(self):
        return {"counts": self.counts, "fields": self.fields, "values": self.values}


def packed(head, columns):
    """A head and columns of numbers as one text. First come the bytes of the head and its length, then the columns, the widest first,
    so that each begins at a multiple of its width."""
    blob, places = bytearray(), {}
    columns = {name: narrowed(column) for name, column in columns.items()}
    for name, column in sorted(columns.items(), key=lambda one: -WIDTHS[one[1].typecode]):
        places[name] = [len(blob), len(column), WIDTHS[column.typecode]]
        blob += little(column)
    text = json.dumps({**head, "columns": places}, ensure_ascii=True, separators=(",", ":")).encode()
    text += b" " * (-len(text) % 4)
    return base64.b64encode(zlib.compress(len(text).to_bytes(4, "little") + text + bytes(blob), LEVEL)).decode()


def narrowed(column):
    """A column with as few bytes for a number as its largest one asks for: what a browser needn't unpack opens sooner."""
    most = max(column, default=0)
    code = next(code for code, width in WIDTHS.items() if most < 256**width)
    return column if code == column.typecode else array(code, column)


def little(column):
    """The bytes of a column, the low byte of a number first."""
    if array("H", [1]).tobytes() == b"\1\0":
        return column.tobytes()
    column = array(column.typecode, column)
    column.byteswap()
    return column.tobytes()
