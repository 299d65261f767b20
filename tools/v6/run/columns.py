"""What several terminals show, side by side on one of the host."""

NARROWEST = 40  # columns of a terminal; where fewer would be left, others go below
BETWEEN = " | "
FEWEST = 4  # rows of a terminal, also where the host's has no room for them
TAB = 8


class Paper:
    """The paper of a teletype of so many columns: its rows, and where the next character goes. What is printed over another
    character takes its place."""

    def __init__(self, width):
        self.width, self.rows, self.at = width, [[]], 0

    def put(self, byte):
        if byte == 0o15:
            self.at = 0
        elif byte == 0o12:
            self.rows.append([])
        elif byte == 0o10:
            self.at = max(self.at - 1, 0)
        elif byte == 0o11:
            self.at = (self.at // TAB + 1) * TAB
        elif 0o40 <= byte < 0o177:
            if self.at >= self.width:
                self.rows.append([])
                self.at = 0
            row = self.rows[-1]
            row += " " * (self.at + 1 - len(row))
            row[self.at] = chr(byte)
            self.at += 1


def rows_of(term, width, most):
    """The last rows that a terminal has shown."""
    paper = Paper(width)
    for byte in b"\n".join(term.split(b"\n")[-most:]):
        paper.put(byte)
    return ["".join(row) for row in paper.rows[-most:]]


def frame(terms, shown, at, columns, rows):
    """The terminals of these numbers side by side, in so many columns and rows of the host. That where one types is told."""
    across = max(min((columns + len(BETWEEN)) // (NARROWEST + len(BETWEEN)), len(shown)), 1)
    bands = [shown[first : first + across] for first in range(0, len(shown), across)]
    width = max((columns - len(BETWEEN) * (across - 1)) // across, 1)
    height = max(rows // len(bands) - 1, FEWEST)
    lines = []
    for band in bands:
        heads = [f"== line {line}{', typed at' * (line == at)} ".ljust(width, "=")[:width] for line in band]
        found = [rows_of(terms[line], width, height) for line in band]
        deep = max(map(len, found))
        cells = [heads, *zip(*([row.ljust(width) for row in one + [""] * (deep - len(one))] for one in found))]
        lines += [BETWEEN.join(row).rstrip() for row in cells]
    return lines
