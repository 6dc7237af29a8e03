#!/usr/bin/env python3
"""Tests tools/compare and tools/recast against a plain count: tests/compare.py PROGRAM [CASES [FIRST]]

Makes CASES layouts of a few shapes (20 where it isn't given), and shot files that are wrong in a few places:
shots that are left out, given twice, moved or added. In each triangle of the half grid the shots are
counted, and what `compare` tells of missing, outside and doubled area must be just that; so must the areas
of the polygons in its marker file. All is done in strips of a few shots too. `recast` must give the shots
back from OASIS polygons and GDSII boundaries in any order of their corners.
"""
import os
import random
import re
import subprocess
import sys
import tempfile
from importlib.machinery import SourceFileLoader
from types import ModuleType

TOOLS = os.path.join(os.path.dirname(os.path.abspath(__file__)), "..", "tools")
sys.path.insert(0, TOOLS)
from layout_bytes import END, GDS_END, gds_boundary, gds_cell, gds_head, oasis_cell, oasis_head, oasis_polygon  # noqa: E402
from nettletide_shots import is_legal, read_shots, triangles, write_shots  # noqa: E402

SIDE = 60
DECK = "unit 1000\ntop TOP\nlimits 12 30\nlayer A 1 0\nwrite A shots.oas 1 0\n"


def run(words, folder, program, status=0):
    ended = subprocess.run(words, cwd=folder, stdout=subprocess.PIPE, stderr=subprocess.STDOUT,
                           env={**os.environ, "NETTLETIDE": program})
    said = ended.stdout.decode()
    assert ended.returncode == status, (words, ended.returncode, said)
    return said


def loaded(name):
    module = ModuleType(name)
    module.__file__ = os.path.join(TOOLS, name)
    SourceFileLoader(name, module.__file__).exec_module(module)
    return module


def layout(some):
    """A few octilinear polygons on even places of the half grid, in grid steps."""
    shapes = []
    for _ in range(some.randrange(1, 6)):
        x, y, size = some.randrange(0, 14), some.randrange(0, 14), some.randrange(4, 12)
        cut = some.randrange(0, size // 2 + 1)
        corners = [(x + cut, y), (x, y + cut), (x, y + size), (x + size, y + size), (x + size, y)]
        shapes.append(oasis_polygon(corners if some.random() < 0.6 else [(x, y), *corners[2:]]))
    return oasis_head(1000) + oasis_cell("TOP", *shapes) + END


def harmed(some, shots):
    """The shots with a few that are wrong."""
    shots = list(shots)
    for _ in range(some.randrange(0, 5)):
        k = some.randrange(len(shots))
        y0, y1, a, b, c, d = shots[k]
        dx, dy = some.randrange(-3, 4) * 2, some.randrange(-3, 4) * 2
        change = some.randrange(4)
        if change == 0 and len(shots) > 1:
            shots.pop(k)
        elif change == 1:
            shots.insert(some.randrange(len(shots)), shots[k])
        else:
            moved = y0 + dy, y1 + dy, a + dx, b + dx, c + dx, d + dx
            if change == 2:
                shots[k] = moved
            else:
                shots.append(moved)
    some.shuffle(shots)
    return shots


def counts(shots):
    """How many shots are in each quarter of each square of the half grid, by a point inside."""
    found = {}
    for y0, y1, a, b, c, d in shots:
        left, right = (c - a) // (y1 - y0), (d - b) // (y1 - y0)
        for j in range(y0, y1):
            for low, points in ((1, [3]), (3, [1, 5]), (5, [3])):
                # in sixths of a half unit, so that no point is on a side
                y = 6 * j + low
                begin, end = 6 * a + left * (y - 6 * y0), 6 * b + right * (y - 6 * y0)
                for i in range(min(a, c) - 1, max(b, d) + 1):
                    for x in points:
                        if begin < 6 * i + x < end:
                            found[i, j, low, x] = found.get((i, j, low, x), 0) + 1
    return found


def wanted(right, given):
    """The wrong area of each kind in triangles of the half grid: a quarter of a square is half of one."""
    a, b = counts(right), counts(given)
    keys = set(a) | set(b)
    return {"missing": sum(1 for key in keys if key in a and key not in b) / 2,
            "outside": sum(1 for key in keys if key not in a) / 2,
            "doubled": sum(1 for key in keys if b.get(key, 0) > 1) / 2}


def told(said):
    """What compare says of each kind, and the areas of its polygons."""
    found = {kind: float(size) for kind, size in re.findall(r"^bad.oas: (\w+) \d+ places (\S+) triangles$", said, re.M)}
    for kind in ("missing", "outside", "doubled"):
        found.setdefault(kind, 0)
    return found


def marked(path):
    """The areas of the polygons of a marker file by their kinds, in triangles of the half grid."""
    with open(path) as file:
        text = file.read()
    found = dict.fromkeys(("missing", "outside", "doubled"), 0)
    for kind, polygon in re.findall(r"<category>'bad.oas (\w+)'</category>.*?<value>polygon: \((.*?)\)</value>", text):
        for loop in polygon.split("/"):
            points = [tuple(round(float(number) * 4000) for number in point.split(",")) for point in loop.split(";")]
            found[kind] += sum(x0 * y1 - x1 * y0 for (x0, y0), (x1, y1) in zip(points, points[1:] + points[:1])) / 4
    return found


def compare_case(case, folder, program, compare):
    some = random.Random(case)
    with open(os.path.join(folder, "G.oas"), "wb") as file:
        file.write(layout(some))
    run([program, "fracture", "G.oas", "K"], folder, program)
    right = list(read_shots(os.path.join(folder, "shots.oas")))
    given = harmed(some, right)
    write_shots(os.path.join(folder, "bad.oas"), 2000, 1, 0, given)
    expected = wanted(right, given)
    is_wrong = any(expected.values())
    said = run([os.path.join(TOOLS, "compare"), "-o", "m.lyrdb", "G.oas", "K", "bad.oas"], folder, program, int(is_wrong))
    assert told(said) == expected, (case, told(said), expected)
    assert marked(os.path.join(folder, "m.lyrdb")) == expected, case
    compare.SHOTS_IN_STRIP = 4
    found = compare.compared(compare.Program(folder), os.path.join(folder, "shots.oas"), os.path.join(folder, "bad.oas"))
    assert {kind: wrong.quarters / 4 for kind, wrong in found.items()} == expected, (case, "in strips")
    places = {kind: [tuple(area.box) for area in compare.areas(wrong.shots)] for kind, wrong in found.items()}
    assert sum(map(len, places.values())) == sum(map(int, re.findall(r" (\d+) places", said))), (case, "places in strips")
    return given


def recast_case(case, folder, program, shots):
    """Polygons and boundaries of shots, whose corners begin anywhere and go round either way."""
    some = random.Random(case)
    outlines = []
    for y0, y1, a, b, c, d in shots:
        corners = list(dict.fromkeys([(a, y0), (c, y1), (d, y1), (b, y0)]))
        k = some.randrange(len(corners))
        corners = (corners[k:] + corners[:k])[::some.choice((1, -1))]
        outlines.append(corners)
    for name, data in (("P.oas", oasis_head(2000) + oasis_cell("T", *map(oasis_polygon, outlines)) + END),
                       ("P.gds", gds_head() + gds_cell("T", *map(gds_boundary, outlines)) + GDS_END)):
        with open(os.path.join(folder, name), "wb") as file:
            file.write(data)
        options = ["--unit", "500"] if name == "P.gds" else []
        run([os.path.join(TOOLS, "recast"), *options, "--as", "1/0", name, "back.oas"], folder, program)
        assert list(read_shots(os.path.join(folder, "back.oas"))) == shots, (case, name)


def main(program, cases="20", first="0"):
    program = os.path.abspath(program)
    os.environ["NETTLETIDE"] = program
    compare = loaded("compare")
    with tempfile.TemporaryDirectory() as folder:
        with open(os.path.join(folder, "K"), "w") as file:
            file.write(DECK)
        for case in range(int(first), int(first) + int(cases)):
            shots = compare_case(case, folder, program, compare)
            assert all(map(is_legal, shots)) and sum(map(triangles, shots)) > 0
            recast_case(case, folder, program, shots)
    print(f"{cases} wrong shot files are told of as they are wrong, and recast")


if __name__ == "__main__":
    if not 2 <= len(sys.argv) <= 4:
        sys.exit(__doc__)
    main(*sys.argv[1:])
