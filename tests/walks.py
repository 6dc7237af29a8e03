#!/usr/bin/env python3
"""Large cells in orders that a walk has to look out for: tests/walks.py PROGRAM

Each case is a layout of some hundred boxes in cells: in descending order of Y, in none, with boxes that are as high as the
cell among them, placed with quarter turns and flips, in arrays that go to the left and down, and enlarged. What they come to
in the top cell is worked out here, one box after another. That flat layout, sorted, must give the same shots, byte for byte,
with bands of 1,024 rows, of 4,096 and of 1,048,576, and where no boxes overlap the triangles must be those of all of them.
"""
import os
import random
import subprocess
import sys
import tempfile

GDS = os.path.join(os.path.dirname(os.path.abspath(__file__)), "..", "tools", "gds")
BANDS = [1024, 4096, 1048576]


def turned(box, flip, mag, quarters):
    """The box mirrored at the X axis, then turned and enlarged."""
    points = [(box[0], box[1]), (box[2], box[3])]
    points = [(x, -y if flip else y) for x, y in points]
    for _ in range(quarters):
        points = [(-y, x) for x, y in points]
    (x0, x1), (y0, y1) = sorted(mag * x for x, _ in points), sorted(mag * y for _, y in points)
    return x0, y0, x1, y1


def at(box, x, y):
    return box[0] + x, box[1] + y, box[2] + x, box[3] + y


def box_line(box):
    return "box 1 0 %d,%d %d,%d" % box


def placement(flip, mag, quarters, columns, rows, x, y, right, up):
    """A line of tools/gds, and where the cell comes to: `right` and `up` are the steps of columns and rows."""
    words = "aref C" + (" flip" if flip else "") + (f" mag={mag}" if mag > 1 else "") + (f" angle={90 * quarters}" if quarters else "")
    line = (f"{words} size={columns}x{rows} {x},{y} {x + columns * right[0]},{y + columns * right[1]} "
            f"{x + rows * up[0]},{y + rows * up[1]}")
    places = [(x + i * right[0] + j * up[0], y + i * right[1] + j * up[1]) for j in range(rows) for i in range(columns)]
    return line, (flip, mag, quarters), places


def column(count):
    """Boxes one over another, from the highest down."""
    return [(k % 7, 20 * k, 11 + k % 5, 20 * k + 15) for k in reversed(range(count))]


def scattered(count, chance):
    """Disjoint boxes in no order, on a grid of 30."""
    places = [(30 * i, 30 * j) for i in range(20) for j in range(count // 20)]
    chance.shuffle(places)
    return [(x + chance.randrange(5), y + chance.randrange(5), x + 6 + chance.randrange(20), y + 6 + chance.randrange(20)) for x, y in places]


def overlapping(count, chance):
    """Boxes anywhere, some of them as high as all together."""
    boxes = [(x, y, x + chance.randrange(1, 60), y + chance.randrange(1, 60))
             for x, y in ((chance.randrange(900), chance.randrange(-900, 900)) for _ in range(count))]
    return boxes + [(100 * k, -900, 100 * k + 3, 960) for k in range(5)]


CASES = [
    ("a column from the highest box down", lambda chance: column(300),
     [placement(False, 1, 0, 1, 1, 0, 0, (1, 0), (0, 1))], True),
    ("the same in an array that goes to the left and down", lambda chance: column(200),
     [placement(False, 1, 0, 5, 3, 700, 900, (-40, 0), (0, -4100))], True),
    ("turned by each quarter, flipped and not", lambda chance: column(150),
     [placement(flip, 1, quarters, 2, 2, 9000 * quarters, 9000 * flip, (100, 0), (0, 100) if quarters % 2 else (0, 4000))
      for quarters in range(4) for flip in (False, True)], False),
    ("boxes in no order, in arrays by each quarter that go every way", lambda chance: scattered(400, chance),
     [placement(quarters == 1, 1, quarters, 3, 3, 5000 * quarters, -3000, (-700, 0) if quarters < 2 else (700, 0),
                (0, 700) if quarters % 2 else (0, -700)) for quarters in range(4)], True),
    ("boxes that overlap, some as high as the cell, enlarged and turned", lambda chance: overlapping(350, chance),
     [placement(True, 2, 3, 2, 3, -4000, 100, (1100, 0), (0, 500)), placement(False, 3, 1, 1, 2, 3000, -800, (1, 0), (0, -777))], False),
]


def run(program, folder, band):
    with open(os.path.join(folder, "K"), "w") as deck:
        deck.write(f"unit 1000\ntop TOP\nband {band}\nlayer A 1 0\nwrite A out.oas 1 0\n")
    done = subprocess.run([program, "fracture", "G.gds", "K"], cwd=folder, capture_output=True, text=True)
    if done.returncode != 0:
        return done.stdout, None
    with open(os.path.join(folder, "out.oas"), "rb") as file:
        return done.stdout, file.read()


def write_layout(folder, lines):
    subprocess.run([GDS, "G.gds"], cwd=folder, input="\n".join(lines) + "\n", text=True, check=True)


def fault_of(program, folder, boxes, placements, disjoint):
    """What is wrong with the case, or None."""
    lines = ["cell TOP", *(line for line, _, _ in placements), "cell C", *map(box_line, boxes)]
    flat = sorted(at(turned(box, *how), x, y) for _, how, places in placements for x, y in places for box in boxes)
    triangles = sum(8 * (x1 - x0) * (y1 - y0) for x0, y0, x1, y1 in flat)
    for band in BANDS:
        write_layout(folder, lines)
        said, shots = run(program, folder, band)
        write_layout(folder, ["cell TOP", *map(box_line, flat)])
        _, wanted = run(program, folder, band)
        if shots is None or shots != wanted:
            return f"band {band}: not the shots of the flat layout: {said.strip()}"
        if disjoint and f" triangles {triangles}\n" not in said:
            return f"band {band}: not {triangles} triangles: {said.strip()}"
    return None


def main(program):
    chance, failed = random.Random(1), 0
    with tempfile.TemporaryDirectory() as folder:
        for name, boxes, placements, disjoint in CASES:
            fault = fault_of(os.path.realpath(program), folder, boxes(chance), placements, disjoint)
            if fault:
                print(f"{name}: {fault}")
                failed += 1
    print(f"{len(CASES) - failed} passed, {failed} failed")
    return failed > 0


if __name__ == "__main__":
    if len(sys.argv) != 2:
        sys.exit(__doc__.strip())
    sys.exit(main(sys.argv[1]))
