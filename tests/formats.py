#!/usr/bin/env python3
"""The same layout in both formats: tests/formats.py PROGRAM [CASES [FIRST]]

Each case is a random layout with shapes of every kind that both formats have: rectangles, polygons of 3 to 9 points, one of up
to 8,191, paths with flush ends and with ends longer by half the width, single placements and arrays, turned, mirrored and
enlarged. `tools/gds` and `tools/oas` write it, and both files must give the same shots, byte for byte. FIRST is the number of
the first case, which is its seed.
"""
import os
import subprocess
import sys
import tempfile

from pairs import agree

TOOLS = os.path.join(os.path.dirname(os.path.abspath(__file__)), "..", "tools")
OCTANTS = [(1, 0), (1, 1), (0, 1), (-1, 1), (-1, 0), (-1, -1), (0, -1), (1, -1)]


def words(points):
    return " ".join(f"{x},{y}" for x, y in points)


def pair(chance):
    return f"{chance.choice([1, 1, 2, 3])} 0"


def spot(chance):
    return chance.randrange(-3000, 3000), chance.randrange(-3000, 3000)


def box(chance):
    x, y = spot(chance)
    return f"box {pair(chance)} " + words([(x, y), (x + chance.randrange(1, 300), y + chance.randrange(1, 300))])


def ring(chance):
    """The corners of a convex octagon, some of whose sides have no length: 3 to 8 of them."""
    while True:
        cut = [chance.choice([0, 0, 1, 2]) * 20 for _ in range(4)]
        wide, high = 20 * chance.randrange(2, 9), 20 * chance.randrange(2, 9)
        if max(cut) < min(wide, high) // 2:
            break
    a, b, c, d = cut
    around = [(a, 0), (wide - b, 0), (wide, b), (wide, high - c), (wide - c, high), (d, high), (0, high - d), (0, a)]
    corners = [p for k, p in enumerate(around) if p != around[k - 1]]
    if chance.random() < 0.2:
        corners = [(0, 0), (wide, 0), (0, wide)]
    return corners


def polygon(chance):
    x, y = spot(chance)
    corners = [(x + u, y + v) for u, v in ring(chance)]
    if chance.random() < 0.5:
        corners.reverse()
    if chance.random() < 0.3:
        corners.insert(0, corners[0])
    return f"boundary {pair(chance)} " + words(corners)


def stairs(chance, count):
    """A polygon of stairs with this number of corners, which is even."""
    x, y = spot(chance)
    steps = [(x + 3 * (k // 2), y + 2 * ((k + 1) // 2)) for k in range(count - 1)]
    return f"boundary {pair(chance)} " + words(steps + [(steps[-1][0], y)])


def path(chance):
    x, y = spot(chance)
    points, side = [(x, y)], chance.randrange(4)
    for _ in range(chance.randrange(1, 8)):
        dx, dy = OCTANTS[2 * side]
        far = chance.randrange(60, 300)
        x, y = x + dx * far, y + dy * far
        points.append((x, y))
        side = (side + chance.choice([1, 3])) % 4
    return f"path {pair(chance)} type={chance.choice([0, 2])} width={2 * chance.randrange(0, 30)} " + words(points)


def way(chance):
    flip = chance.choice(["", " flip"])
    return f"{flip} mag={chance.choice([1, 1, 2, 3])} angle={90 * chance.randrange(4)}"


def placement(chance, name):
    if chance.random() < 0.5:
        return f"sref {name}{way(chance)} " + words([spot(chance)])
    x, y = spot(chance)
    columns, rows = chance.choice([(1, 4), (2, 1), (2, 2), (3, 4), (4, 3)])
    dx, dy = 20 * chance.randrange(1, 99), 20 * chance.randrange(1, 99)
    return f"aref {name}{way(chance)} size={columns}x{rows} " + words([(x, y), (x + columns * dx, y), (x, y + rows * dy)])


def description(chance):
    """The description of a layout for both tools."""
    lines = ["cell LEAF"]
    lines += [chance.choice([box, polygon, path])(chance) for _ in range(chance.randrange(1, 12))]
    lines += [stairs(chance, chance.choice([8, 10, 12, 14, 8190])), "cell MIDDLE"]
    lines += [chance.choice([box, polygon, path])(chance) for _ in range(chance.randrange(12))]
    lines += [placement(chance, "LEAF") for _ in range(chance.randrange(1, 4))]
    lines += ["cell TOP", box(chance)] + [placement(chance, "MIDDLE") for _ in range(chance.randrange(1, 4))]
    return "\n".join(lines) + "\n"


def written(tool, text):
    """The file that the tool makes of a description."""
    with tempfile.TemporaryDirectory() as folder:
        name = os.path.join(folder, "layout")
        subprocess.run([sys.executable, os.path.join(TOOLS, tool), name], input=text.encode(), check=True)
        with open(name, "rb") as file:
            return file.read()


def layouts(chance):
    """Both files of a layout."""
    text = description(chance)
    return [written("gds", text), written("oas", text)]


def status_and_files(outcome):
    """What is compared: the report has the format."""
    return outcome[0], outcome[2]


if len(sys.argv) >= 2:
    sys.exit(not agree(sys.argv[1], layouts, status_and_files, *map(int, sys.argv[2:])))
sys.exit(__doc__)
