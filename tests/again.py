#!/usr/bin/env python3
"""OASIS records that use lists again: tests/again.py PROGRAM [CASES [FIRST]]

Each case is a random layout in two files. In one, rectangles, polygons, paths and placements use the last point list or the
last repetition again where they can; in the other each writes its own. Both must give the same shots, byte for byte. FIRST is
the number of the first case, which is its seed.
"""
import os
import sys

from pairs import agree

sys.path.insert(0, os.path.join(os.path.dirname(os.path.abspath(__file__)), "hostile"))
from records import END, OAS_HEAD, oas_cell, signed, text, unsigned  # noqa: E402


class Lists:
    """The lists of the last records: for each record what it writes in the one file, and what in the other."""

    def __init__(self, chance):
        self.chance = chance
        self.last = {}

    def either(self, kind, make):
        """The list's bytes, or none where it is used again, and its bytes."""
        if kind in self.last and self.chance.random() < 0.75:
            return b"", self.last[kind]
        self.last[kind] = make()
        return self.last[kind], self.last[kind]


def ring(chance):
    """Moves that are level and upright in turn, of a polygon that may cross itself."""
    count = chance.choice([2, 4, 8, 10, 12, 40])
    return unsigned(0, count) + signed(*(chance.choice([-1, 1]) * chance.randrange(1, 60) for _ in range(count)))


def course(chance):
    """Moves to each side of a path that doesn't turn back."""
    count = chance.choice([1, 2, 9, 10, 11, 40])
    sides = [chance.randrange(4)]
    while len(sides) < count:
        side = chance.randrange(4)
        if side != (sides[-1] + 2) % 4:
            sides.append(side)
    return unsigned(2, count) + unsigned(*(4 * chance.randrange(1, 40) + side for side in sides))


def repetition(chance):
    kind = chance.choice([1, 2, 4, 10])
    if kind == 1:
        return unsigned(1, chance.randrange(3), chance.randrange(3), chance.randrange(1, 300), chance.randrange(1, 300))
    if kind == 2:
        return unsigned(2, chance.randrange(4), chance.randrange(1, 300))
    if kind == 4:
        return unsigned(4, 3) + unsigned(*(chance.randrange(1, 90) for _ in range(4)))
    return unsigned(10, 1) + b"".join(unsigned(4 * chance.randrange(1, 200) + 1) + signed(chance.randrange(-90, 90)) for _ in range(2))


def repeated(chance, lists):
    """The bit of a repetition, and its bytes in both files: kind 0 is the last one."""
    if chance.random() < 0.5:
        return 0, b"", b""
    short, whole = lists.either("repetition", lambda: repetition(chance))
    return 4, short or b"\x00", whole


def shape(chance, lists):
    """A record in both files."""
    layer = unsigned(chance.choice([1, 1, 2, 3]), 0)
    place = signed(chance.randrange(-3000, 3000), chance.randrange(-3000, 3000))
    bit, again, rows = repeated(chance, lists)
    kind = chance.randrange(5)
    if kind == 0:
        head = b"\x14" + bytes([0x7B | bit]) + layer + unsigned(chance.randrange(1, 300), chance.randrange(1, 300)) + place
        return head + again, head + rows
    if kind == 1:
        head = b"\x11" + bytes([0xB0 | 2 * bit | chance.randrange(8)]) + text("INNER") + place
        return head + again, head + rows
    if kind == 2:
        short, whole = lists.either("ring", lambda: ring(chance))
        return (b"\x15" + bytes([0x1B | bit | 0x20 * bool(short)]) + layer + short + place + again,
                b"\x15" + bytes([0x3B | bit]) + layer + whole + place + rows)
    lengths = unsigned(chance.choice([5, 5, 5, 0, 7]), chance.choice([5, 5, 6, 10]))
    short, whole = lists.either("course", lambda: course(chance))
    return (b"\x16" + bytes([0xDB | bit | 0x20 * bool(short)]) + layer + lengths + short + place + again,
            b"\x16" + bytes([0xFB | bit]) + layer + lengths + whole + place + rows)


def layouts(chance):
    """Both files: a cell of such records, which the top cell shows plain, turned, mirrored and enlarged."""
    lists = Lists(chance)
    pairs = [shape(chance, lists) for _ in range(chance.randrange(3, 30))]
    inner = oas_cell("INNER", b"\x14\x7B" + unsigned(1, 0, 30, 20) + signed(0, 0))
    places = b"".join(b"\x11" + bytes([0xB0 | way]) + text("C") + signed(x, y) for way, x, y in [(0, 0, 0), (2, 9000, 100), (5, -700, 9000)])
    places += b"\x12\xB6" + text("C") + unsigned(0, 2, 0, 90) + signed(-30000, 20000)
    return [OAS_HEAD + inner + oas_cell("C", *records) + oas_cell("TOP", places) + END for records in zip(*pairs)]


if len(sys.argv) >= 2:
    sys.exit(not agree(sys.argv[1], layouts, lambda outcome: outcome, *map(int, sys.argv[2:])))
sys.exit(__doc__)
