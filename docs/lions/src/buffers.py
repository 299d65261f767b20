#!/usr/bin/env python3
"""Plays a list of blocks through a number of buffers, as bio.c does: what is read and written, and when.

    buffers.py [-n BUFFERS] [-q] [-o PICTURE] [LIST]

A line of LIST is `read N`, `change N`, `clear N` or `sync`; what stands behind it is said again. BUFFERS are fifteen without -n;
with -q only the sums are told. PICTURE gets a lane for each block in SVG: where it is in a buffer, and where it is still to be
written."""
import argparse
import itertools
import sys


class Buffers:
    """The buffers, that which was used last first: [block, whether its write is delayed]."""

    def __init__(self, count):
        self.count, self.list, self.reads, self.writes = count, [], 0, 0

    def used(self, word, block):
        """What getblk does, with bread or clear behind it, and then brelse or bdwrite; in words."""
        found, said = next((one for one in self.list if one[0] == block), None), []
        if found:
            self.list.remove(found)
            said.append("has a buffer")
        else:
            found = [block, False]
            if len(self.list) == self.count:
                last, is_delayed = self.list.pop()
                said.append(f"{last} goes" + (" and is written" if is_delayed else ""))
                self.writes += is_delayed
            if word != "clear":
                said.append(f"{block} is read")
                self.reads += 1
        found[1] = found[1] or word != "read"
        self.list.insert(0, found)
        return ", ".join(said or ["gets a buffer"])

    def sync(self):
        delayed = [one for one in self.list if one[1]]
        for one in delayed:
            one[1] = False
        self.writes += len(delayed)
        return f"{len(delayed)} are written"

    def take(self, line):
        word, *rest = line.split()
        if word == "sync":
            return self.sync()
        return self.used(word, int(rest[0]))

    def __str__(self):
        return " ".join(f"{block}{'*' * is_delayed}" for block, is_delayed in self.list)


def drawn(states):
    """A picture: `states` has the blocks in buffers after each line, with whether they are to be written."""
    blocks = sorted({block for state in states for block in state})
    wide, high, left = 12, 12, 60
    width, height = left + wide * len(states) + 20, 40 + high * len(blocks) + 20
    out = [f'<svg xmlns="http://www.w3.org/2000/svg" viewBox="0 0 {width} {height}" width="{width}" height="{height}">',
           "<style>text { font: 10px sans-serif } @page { size: landscape; margin: 10mm } "
           "@media print { svg { width: 100%; height: auto; max-height: 100vh } }</style>",
           '<rect width="100%" height="100%" fill="#fff"/>',
           '<rect x="4" y="8" width="14" height="8" fill="#333"/><text x="22" y="16">in a buffer, still to be written</text>',
           '<rect x="204" y="8" width="14" height="8" fill="#ccc" stroke="#555"/>'
           '<text x="222" y="16">in a buffer as the disk has it</text>']
    for lane, block in enumerate(blocks):
        y = 30 + high * lane
        out.append(f'<text x="4" y="{y + 9}">block {block}</text>')
        out.append(f'<path d="M{left} {y + high - 1}H{width - 20}" stroke="#ddd"/>')
        at = 0
        for has, same in itertools.groupby(state.get(block) for state in states):
            columns = len(list(same))
            if has is not None:
                out.append(f'<rect x="{left + wide * at}" y="{y + 1}" width="{wide * columns}" height="{high - 3}" '
                           f'fill="{"#333" if has else "#ccc"}"/>')
            at += columns
    for at in range(0, len(states), 10):
        out.append(f'<text x="{left + wide * at}" y="{height - 6}">{at + 1}</text>')
    return "\n".join([*out, "</svg>", ""])


def main():
    parser = argparse.ArgumentParser(description="Plays a list of blocks through buffers.")
    parser.add_argument("-n", dest="count", type=int, default=15)
    parser.add_argument("-q", dest="is_quiet", action="store_true")
    parser.add_argument("-o", dest="picture")
    parser.add_argument("list", nargs="?", type=argparse.FileType(), default=sys.stdin)
    options = parser.parse_args()
    buffers, states = Buffers(options.count), []
    for line in options.list.read().splitlines():
        said = buffers.take(line)
        states.append(dict(buffers.list))
        if not options.is_quiet:
            print(f"{line:<48}{said}")
    print(f"read {buffers.reads}, written {buffers.writes}, in buffers: {buffers}")
    if options.picture:
        with open(options.picture, "w", encoding="ascii") as file:
            file.write(drawn(states))


if __name__ == "__main__":
    main()
