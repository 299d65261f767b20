#!/usr/bin/env python3
"""Draws which blocks a file has: its inode's addresses, the indirect blocks, and the blocks of data, in SVG.

    file.py DISK INODE [PICTURE]"""
import struct
import sys

WIDE, HIGH, GAP = 64, 18, 90


def words(data, at, count):
    return struct.unpack_from(f"<{count}H", data, at)


def cell(x, y, text, fill="#fff"):
    return (f'<rect x="{x}" y="{y}" width="{WIDE}" height="{HIGH}" fill="{fill}" stroke="#333"/>'
            f'<text x="{x + 5}" y="{y + 13}">{text}</text>')


def line(x, y, to_x, to_y):
    return f'<path d="M{x} {y + HIGH // 2}L{to_x} {to_y + HIGH // 2}" stroke="#555" fill="none"/>'


def drawn(data, number):
    at = 512 * ((number + 31) // 16) + 32 * ((number + 31) % 16)
    mode, addresses = words(data, at, 1)[0], words(data, at + 8, 8)
    is_large, out, rows = mode & 0o10000, [], 0
    columns = [10, 10 + WIDE + GAP, 10 + 2 * (WIDE + GAP)]
    top = 40
    for at, block in enumerate(addresses):
        y = top + at * HIGH
        out.append(cell(columns[0], y, block or "0"))
        if not block:
            continue
        names = [(n, one) for n, one in enumerate(words(data, 512 * block, 256)) if one] if is_large else [(at, block)]
        first = top + rows * (HIGH + 6)
        for place, (n, one) in enumerate(names):
            x, there = columns[1 + bool(is_large)], top + rows * (HIGH + 6)
            out.append(cell(x, there, one, "#ddd"))
            out.append(f'<text x="{x + WIDE + 8}" y="{there + 13}">block {256 * at * bool(is_large) + n} of the file</text>')
            if is_large:
                out.append(cell(columns[1], first + place * HIGH, f"{n}: {one}"))
                out.append(line(columns[1] + WIDE, first + place * HIGH, x, there))
            else:
                out.append(line(columns[0] + WIDE, y, x, there))
            rows += 1
        if is_large:
            out.append(line(columns[0] + WIDE, y, columns[1], first))
    heads = [f"inode {number}", *["indirect block"] * bool(is_large), "blocks of data"]
    out += [f'<text x="{x}" y="{top - 12}" font-weight="bold">{head}</text>' for x, head in zip(columns, heads)]
    width, height = columns[len(heads) - 1] + WIDE + 160, top + max(8 * HIGH, rows * (HIGH + 6)) + 10
    return "\n".join([f'<svg xmlns="http://www.w3.org/2000/svg" viewBox="0 0 {width} {height}" width="{width}" height="{height}">',
                      "<style>text { font: 11px sans-serif }</style>", '<rect width="100%" height="100%" fill="#fff"/>', *out, "</svg>", ""])


def main(words_of_command):
    disk, number, *picture = words_of_command
    with open(disk, "rb") as file:
        shown = drawn(file.read(), int(number))
    with open(*picture, "w", encoding="ascii") if picture else sys.stdout as file:
        file.write(shown)


if __name__ == "__main__":
    main(sys.argv[1:])
