#!/usr/bin/env python3
"""Compares the program with a plain one, triangle by triangle.

    usage: tests/plain.py PROGRAM [COUNT [SEED]]
           tests/plain.py case FOLDER SEED       writes a case as FOLDER/G.gds, G.oas and K, and compares nothing

Makes COUNT random small layouts and decks (100 where it is missing), and runs `fracture` on each with bands of 1,024,
4,096 and 1,048,576 rows. Each triangle of the half grid must be in exactly one shot where it is in the area that the deck
denotes, and in none otherwise; each shot must be within the limits and in one band; the report must count both right. The
same layout as an OASIS file must give the same shot files, byte for byte. Each shot file must be what its packed file is
unpacked to. The stripes into which a shot file is split, and those of a random list of shots, must be the maximal trapezoids
of each shot in each field. The densities of the deck must count the triangles of each area in each window.

What the area is is worked out here by the plain meaning of the deck's lines, with sets of triangles: the winding number of
each polygon at a point of each triangle, sets for the operations, and for sizing each pair of near triangles. No band,
window, edge list or trapezoid is in it, and no half of a number: where the program's definitions speak of strips, this has
the corners and the inner points of triangles.

All numbers are half units. A triangle is (i, j, side): the left (0) or the right one (1) of the square with the lower left
corner (i, j). The diagonal of the square rises where i + j is even, and falls where it is odd.
"""
import functools
import os
import random
import subprocess
import sys
import tempfile

HERE = os.path.dirname(os.path.abspath(__file__))
sys.path.insert(0, os.path.join(HERE, "hostile"))
import records

TOOLS = os.path.join(HERE, "..", "tools")
BANDS = [1024, 4096, 1048576]
FIELDS = [16, 17, 23, 64, 1024, 16777216]
WINDOWS = [64, 65, 100, 1024, 16777216]
# Where a file would be split into more stripes than this, the fields are made larger.
MOST_STRIPES = 40
# A sizing that would ask for more pairs than this is made smaller.
MOST_PAIRS = 2_000_000


# ---- triangles

def corners(tile):
    i, j, side = tile
    ends = [(i, j), (i + 1, j + 1)] if (i + j) % 2 == 0 else [(i, j + 1), (i + 1, j)]
    rest = [(i, j), (i, j + 1), (i + 1, j), (i + 1, j + 1)]
    own = [corner for corner in rest if corner not in ends]
    return ends + [min(own) if side == 0 else max(own)]


def inner_point(tile):
    """Three times the middle of the triangle, which is on no side of any triangle."""
    xs, ys = zip(*corners(tile))
    return sum(xs), sum(ys)


def winding(polygon, point):
    """How often the closed polygon runs round the point (three times its coordinates), counted on the ray to the left."""
    x, y = point
    turns = 0
    for (ax, ay), (bx, by) in zip(polygon, polygon[1:] + polygon[:1]):
        beside = (bx - ax) * (y - 3 * ay) - (by - ay) * (x - 3 * ax)
        if 3 * ay <= y < 3 * by and beside < 0:
            turns += 1
        if 3 * by <= y < 3 * ay and beside > 0:
            turns -= 1
    return turns


def tiles_of(polygon):
    """The triangles in a polygon, by the nonzero rule."""
    xs, ys = zip(*polygon)
    box = ((i, j, side) for i in range(min(xs), max(xs)) for j in range(min(ys), max(ys)) for side in (0, 1))
    return {tile for tile in box if winding(polygon, inner_point(tile)) != 0}


# ---- layouts: a cell is a list of elements, by its name

def path_rectangles(points, width, kind):
    """The rectangles of a path of level and upright moves: half the width to both sides and round corners."""
    for k, ((ax, ay), (bx, by)) in enumerate(zip(points, points[1:])):
        before = width if k > 0 or kind == 2 else 0
        after = width if k + 2 < len(points) or kind == 2 else 0
        across = (width, 0) if ax == bx else (0, width)
        dx, dy = (bx > ax) - (bx < ax), (by > ay) - (by < ay)
        xs = [ax - dx * before, bx + dx * after]
        ys = [ay - dy * before, by + dy * after]
        x0, x1, y0, y1 = min(xs) - across[0], max(xs) + across[0], min(ys) - across[1], max(ys) + across[1]
        yield [(x0, y0), (x1, y0), (x1, y1), (x0, y1)]


def moved(polygon, flip, mag, quarters, offset):
    """Mirrored at the X axis, then turned, enlarged and moved."""
    out = []
    for x, y in polygon:
        y = -y if flip else y
        for _ in range(quarters):
            x, y = -y, x
        out.append((mag * x + offset[0], mag * y + offset[1]))
    return out


def flattened(layout, cell):
    """The polygons of a cell and of all that it places, with their layers, in half units."""
    for kind, *rest in layout[cell]:
        if kind == "boundary":
            yield rest[0], [(2 * x, 2 * y) for x, y in rest[1]]
        elif kind == "path":
            layer, path_kind, width, points = rest
            for rectangle in path_rectangles([(2 * x, 2 * y) for x, y in points], width, path_kind):
                yield layer, rectangle
        else:
            child, flip, mag, quarters, offsets = rest
            for layer, polygon in flattened(layout, child):
                for x, y in offsets:
                    yield layer, moved(polygon, flip, mag, quarters, (2 * x, 2 * y))


# ---- the meaning of a deck's lines

def reaches(tile, dx, dy, point):
    """Whether the point (three times its coordinates) is inside the triangle, swept by the rectangle of these half sides."""
    i, j, side = tile
    x, y = point
    if not (3 * (i - dx) < x < 3 * (i + 1 + dx) and 3 * (j - dy) < y < 3 * (j + 1 + dy)):
        return False
    at, line = (x - y, i - j) if (i + j) % 2 == 0 else (x + y, i + j + 1)
    return at < 3 * (line + dx + dy) if side == 0 else at > 3 * (line - dx - dy)


def near_ones(dx, dy):
    """By a triangle's kind, what is to be added for each triangle that is near to it."""
    table = {}
    for parity in (0, 1):
        for side in (0, 1):
            point = inner_point((parity, 0, side))
            table[parity, side] = [
                (di, dj, other)
                for di in range(-dx - 1, dx + 2) for dj in range(-dy - 1, dy + 2) for other in (0, 1)
                if reaches((parity + di, dj, other), dx, dy, point)]
    return table


def near(tile, table):
    i, j, side = tile
    return ((i + di, j + dj, other) for di, dj, other in table[(i + j) % 2, side])


def area_of(step, areas, polygons, frame):
    """The triangles of a definition, by those of the definitions before it."""
    kind, *rest = step
    if kind == "layer":
        return set().union(*(tiles_of(polygon) for layer, polygon in polygons if layer == rest[0]))
    first = areas[rest[0]]
    if kind == "or":
        return first | areas[rest[1]]
    if kind == "and":
        return first & areas[rest[1]]
    if kind == "sub":
        return first - areas[rest[1]]
    if kind == "xor":
        return first ^ areas[rest[1]]
    if kind == "grow":
        table = near_ones(rest[1], rest[2])
        return {other for tile in first for other in near(tile, table)}
    if kind == "shrink":
        table = near_ones(rest[1], rest[2])
        return {tile for tile in first if all(other in first for other in near(tile, table))}
    if kind == "invert":
        x0, y0, x1, y1 = frame
        return {(i, j, side) for i in range(x0, x1) for j in range(y0, y1) for side in (0, 1)} - first
    if kind == "mirror":
        return {(2 * rest[1] - 1 - i, j, 1 - side) for i, j, side in first}
    raise ValueError(kind)


# ---- shots

@functools.lru_cache(maxsize=256)
def shot_tiles(shot):
    """The triangles of a shot, as the program lists it: two Y, two X of the lower side, two of the upper."""
    y0, y1, a, b, c, d = shot
    return tiles_of([(a, y0), (b, y0), (d, y1), (c, y1)])


def fault_of_shots(shots, area, band, limits):
    """What is wrong with the shots of an output, or nothing."""
    seen = set()
    for shot in shots:
        y0, y1, a, b, c, d = shot
        if y0 // band != (y1 - 1) // band:
            return f"shot {shot} crosses a band's edge"
        if y1 - y0 > limits[0] or max(b, d) - min(a, c) > limits[1]:
            return f"shot {shot} is beyond the limits"
        tiles = shot_tiles(shot)
        if tiles & seen:
            return f"triangle {min(tiles & seen)} is in two shots"
        seen |= tiles
    if seen != area:
        tile = min(seen ^ area)
        return f"triangle {tile} is {'in' if tile in area else 'not in'} the area, but {'not in' if tile in area else 'in'} a shot"
    return None


# ---- stripes of fields

def side_line(tile, is_left):
    """What bounds a run of triangles on its left, of which this is the first, or on its right, of which it is the last."""
    i, j, side = tile
    if side == (0 if is_left else 1):
        return "upright", i + side
    return ("rising", i - j) if (i + j) % 2 == 0 else ("falling", i + j + 1)


def x_on(line, y):
    kind, at = line
    return at + {"upright": 0, "rising": y, "falling": -y}[kind]


def runs_of(row):
    """The first and the last triangle of each run of a row's triangles, which are in order."""
    runs = []
    for i, j, side in row:
        if runs and runs[-1][1] == (i + side - 1, j, 1 - side):
            runs[-1][1] = (i, j, side)
        else:
            runs.append([(i, j, side), (i, j, side)])
    return runs


def joined(tiles):
    """The maximal trapezoids of a set of triangles, as shots, by upper Y and from left to right."""
    rows, spans = {}, {}
    for tile in sorted(tiles):
        rows.setdefault(tile[1], []).append(tile)
    for j in sorted(rows):
        for first, last in runs_of(rows[j]):
            some = spans.setdefault((side_line(first, True), side_line(last, False)), [])
            if some and some[-1][1] == j:
                some[-1][1] = j + 1
            else:
                some.append([j, j + 1])
    def order(it):
        (left, _), (_, y1) = it
        return y1, x_on(left, y1 - 1) + x_on(left, y1)
    traps = sorted(((lines, span) for lines, some in spans.items() for span in some), key=order)
    return [(*span, *(x_on(line, y) for y in span for line in lines)) for lines, span in traps]


def stripes_of(shots, size):
    """By number, the shots of each stripe from the least to the greatest: of each shot, field by field, what lies in it."""
    stripes = {}
    for shot in shots:
        fields = {}
        for tile in shot_tiles(shot):
            fields.setdefault((tile[1] // size, tile[0] // size), []).append(tile)
        for stripe, column in sorted(fields):
            stripes.setdefault(stripe, []).extend(joined(fields[stripe, column]))
    return {stripe: stripes.get(stripe, []) for stripe in range(min(stripes), max(stripes) + 1)} if stripes else {}


# ---- windows

def density_lines(name, area, size):
    """What is printed of the windows of an output."""
    counts = {}
    for i, j, _ in area:
        counts[j // size, i // size] = counts.get((j // size, i // size), 0) + 1
    windows = [f"{column} {row} {counts[row, column]}" for row, column in sorted(counts)]
    most = max(sorted(counts), key=counts.get, default=None)
    most_line = [f"most {most[1]} {most[0]} {counts[most]}"] if counts else []
    return [f"density {name} size {size}", *windows, *most_line, f"triangles {len(area)}"]


# ---- random layouts and decks

def random_polygon(chance, x, y):
    """A closed polygon round this place with edges in eight directions, which may cross itself."""
    if chance.random() < 0.3:
        w, h = chance.randrange(1, 10), chance.randrange(1, 10)
        points = [(x, y), (x + w, y), (x + w, y + h), (x, y + h)]
        return points if chance.random() < 0.5 else points[::-1]
    points = [(x, y)]
    for _ in range(chance.randrange(2, 6)):
        dx, dy = chance.choice([(1, 0), (-1, 0), (0, 1), (0, -1), (1, 1), (1, -1), (-1, 1), (-1, -1)])
        far = chance.randrange(1, 7)
        points.append((points[-1][0] + far * dx, points[-1][1] + far * dy))
    return points + [(x, points[-1][1])]


def random_path(chance, x, y):
    points = [(x, y)]
    upright = chance.random() < 0.5
    for _ in range(chance.randrange(1, 4)):
        far = chance.choice([-1, 1]) * chance.randrange(2, 9)
        points.append((points[-1][0], points[-1][1] + far) if upright else (points[-1][0] + far, points[-1][1]))
        upright = not upright
    return points


def random_elements(chance, places, most):
    """Some polygons and paths round these places, on the layers 1 and 2."""
    for _ in range(chance.randrange(1, most)):
        x, y = chance.choice(places)
        x, y = x + chance.randrange(-8, 9), y + chance.randrange(-8, 9)
        layer = chance.choice([1, 1, 2])
        if chance.random() < 0.2:
            yield "path", layer, chance.choice([0, 2]), 2 * chance.randrange(1, 4), random_path(chance, x, y)
        else:
            yield "boundary", layer, random_polygon(chance, x, y)


def random_placement(chance, child, place):
    """A cell once, or in a small grid."""
    x, y = place[0] + chance.randrange(-8, 9), place[1] + chance.randrange(-8, 9)
    columns, rows = chance.choice([(1, 1), (1, 1), (3, 2), (1, 3)])
    dx, dy = chance.randrange(5, 12), chance.randrange(5, 12)
    offsets = [(x + dx * c, y + dy * r) for r in range(rows) for c in range(columns)]
    return "place", child, chance.random() < 0.5, chance.choice([1, 1, 1, 2]), chance.randrange(4), offsets, (columns, rows, dx, dy)


def random_layout(chance):
    """A layout with shapes round two places at edges of bands."""
    base = chance.choice([0, 512, -512, 2048, -2048, 1024, 524288, -524288])
    places = [(0, base), (chance.randrange(-20, 20), base + chance.choice([0, 0, 512, -512]))]
    layout = {"TOP": list(random_elements(chance, places, 6))}
    if chance.random() < 0.25:
        x, width, high = chance.randrange(-8, 8), chance.randrange(1, 3), chance.randrange(500, 620)
        layout["TOP"].append(("boundary", chance.choice([1, 2]), [(x, base - 30), (x + width, base - 30), (x + width, base + high), (x, base + high)]))
    if chance.random() < 0.6:
        layout["LEAF"] = list(random_elements(chance, [(0, 0)], 3))
        middle = "TOP"
        if chance.random() < 0.4:
            layout["MIDDLE"] = [random_placement(chance, "LEAF", (0, 0))[:6]]
            middle = "MIDDLE"
        child = "LEAF" if middle == "TOP" else middle
        layout["TOP"].append(random_placement(chance, child, chance.choice(places)))
    return layout, places


def random_sizing(chance, area):
    """Half sides with an even sum, seldom of more rows than a band has."""
    dx, dy = chance.choice([(1, 1), (1, 1), (2, 2), (0, 2), (3, 1), (1, 5), (4, 0), (5, 5), (0, 300), (1, 601), (2, 1100)])
    while len(area) * (2 * dx + 3) * (2 * dy + 3) * 2 > MOST_PAIRS and dx + dy > 2:
        dx, dy = dx // 2, dy // 2
        dy += (dx + dy) % 2
    return dx, dy


def random_step(chance, areas):
    kind = chance.choice(["or", "and", "sub", "xor", "grow", "grow", "shrink", "shrink", "invert", "mirror"])
    a, b = chance.randrange(len(areas)), chance.randrange(len(areas))
    if kind in ("or", "and", "sub", "xor"):
        return kind, a, b
    if kind in ("grow", "shrink"):
        return kind, a, *random_sizing(chance, areas[a])
    if kind == "mirror":
        return kind, a, chance.randrange(-15, 16)
    return kind, a


def random_deck(chance, polygons, frame):
    """Steps on the two layers with their areas, few of them empty."""
    steps = [("layer", 1), ("layer", 2)]
    areas = [area_of(step, [], polygons, frame) for step in steps]
    for _ in range(chance.randrange(3, 9)):
        step = random_step(chance, areas)
        area = area_of(step, areas, polygons, frame)
        if area or chance.random() < 0.2:
            steps.append(step)
            areas.append(area)
    return steps, areas


def random_shot(chance, size):
    """A legal shot near a corner of four fields, up to twice as high and some times as wide as a field."""
    while True:
        y0, high = chance.randrange(-2 * size, 2 * size), chance.choice([1, 2, size, chance.randrange(1, 2 * size)])
        sides = []
        for _ in range(2):
            x, slant = chance.choice([0, size, chance.randrange(-2 * size, 2 * size)]), chance.choice([-1, 0, 0, 1])
            x += (x + y0) % 2 if slant else 0
            sides.append((x, x + slant * high))
        (a, c), (b, d) = sides
        if a <= b and c <= d and sides[0] != sides[1]:
            return y0, y0 + high, a, b, c, d


def random_shots(chance, size):
    """Shots in any order, which may share triangles, round 0 or far from it."""
    far = chance.choice([0, 0, 1 << 40, -(1 << 40)])
    shots = [random_shot(chance, size) for _ in range(chance.randrange(1, 6))]
    return [tuple(number + far for number in shot) for shot in shots]


# ---- files

def element_line(element):
    kind, *rest = element
    def said(points):
        return " ".join(f"{x},{y}" for x, y in points)
    if kind == "boundary":
        return f"boundary {rest[0]} 0 {said(rest[1])}"
    if kind == "path":
        return f"path {rest[0]} 0 type={rest[1]} width={rest[2]} {said(rest[3])}"
    child, flip, mag, quarters, offsets = rest[:5]
    how = f"{'flip ' if flip else ''}{f'mag={mag} ' if mag > 1 else ''}angle={90 * quarters}"
    if len(rest) == 5 or rest[5][:2] == (1, 1):
        return "\n".join(f"sref {child} {how} {said([offset])}" for offset in offsets)
    columns, rows, dx, dy = rest[5]
    x, y = offsets[0]
    return f"aref {child} {how} size={columns}x{rows} {said([(x, y), (x + columns * dx, y), (x, y + rows * dy)])}"


def layout_text(layout):
    return "".join(f"cell {name}\n" + "".join(element_line(it) + "\n" for it in cell) for name, cell in layout.items())


def deck_text(steps, frame, limits, band, outputs):
    lines = ["unit 1000", "top TOP", f"band {band}", "limits %d %d" % limits, "frame %d %d %d %d" % frame]
    for n, (kind, *rest) in enumerate(steps):
        if kind == "layer":
            words = [rest[0], 0]
        elif kind in ("or", "and", "sub", "xor"):
            words = [f"S{rest[0]}", f"S{rest[1]}"]
        else:
            words = [f"S{rest[0]}", *rest[1:]]
        lines.append(" ".join(map(str, [kind, f"S{n}", *words])))
    lines += [f"write S{name} out{k}.oas 1 0" for k, name in enumerate(outputs)]
    return "\n".join(lines) + "\n"


def run(words, folder):
    ended = subprocess.run(words, cwd=folder, stdout=subprocess.PIPE)
    return ended.returncode, ended.stdout.decode()


def listed_shots(program, folder, name):
    status, said = run([program, "shots", name], folder)
    lines = said.splitlines()
    if status != 0 or not lines:
        return None
    return [tuple(map(int, line.split())) for line in lines if line[0] in "-0123456789"]


def listing(shots):
    """What `shots` prints of a list on layer 1, datatype 0."""
    triangles = sum(len(shot_tiles(shot)) for shot in shots)
    lines = ["unit 2000", *["layer 1 0"][:len(shots)], *(" ".join(map(str, shot)) for shot in shots)]
    return [*lines, f"shots {len(shots)} triangles {triangles}"]


def fault_in_band(program, folder, steps, areas, frame, limits, band, outputs):
    with open(os.path.join(folder, "K"), "w") as file:
        file.write(deck_text(steps, frame, limits, band, outputs))
    status, said = run([program, "fracture", "G.gds", "K"], folder)
    if status != 0:
        return f"status {status}: {said}"
    report = [line.split() for line in said.splitlines() if line.startswith("output ")]
    for k, name in enumerate(outputs):
        shots = listed_shots(program, folder, f"out{k}.oas")
        if shots is None:
            return f"output {k} can't be listed"
        fault = fault_of_shots(shots, areas[name], band, limits)
        if fault:
            return f"output {k}: {fault}"
        if report[k] != ["output", f"out{k}.oas", "shots", str(len(shots)), "triangles", str(len(areas[name]))]:
            return f"output {k}: the report says {report[k]}"
    return None


def fault_in_oasis(program, folder, count):
    """What differs where the same layout is read of an OASIS file, with the deck that was the last."""
    names = [os.path.join(folder, f"out{k}.oas") for k in range(count)]
    files = []
    for name in names:
        with open(name, "rb") as file:
            files.append(file.read())
        os.remove(name)
    status, said = run([program, "fracture", "G.oas", "K"], folder)
    if status != 0 or not said.startswith("format oasis\n"):
        return f"OASIS: status {status}: {said}"
    for k, name in enumerate(names):
        with open(name, "rb") as file:
            if file.read() != files[k]:
                return f"OASIS: output {k} differs"
    return None


def fault_of_packing(program, folder, name):
    """What is wrong where a shot file is packed, unpacked and packed again."""
    for words in (["pack", name, "packed.oas"], ["unpack", "packed.oas", "plain.oas"], ["pack", "plain.oas", "again.oas"]):
        status, said = run([program, *words], folder)
        if status != 0:
            return f"{words[0]}: status {status}: {said}"
    for first, second in ((name, "plain.oas"), ("packed.oas", "again.oas")):
        with open(os.path.join(folder, first), "rb") as one, open(os.path.join(folder, second), "rb") as other:
            if one.read() != other.read():
                return f"{second} differs from {first}"
    return None


def stripe_files(folder):
    return [os.path.join(folder, file) for file in os.listdir(folder) if file.startswith("stripe.")]


def fault_of_stripes(program, folder, name, size):
    """What is wrong where a shot file is split into stripes of fields of this size."""
    shots = listed_shots(program, folder, name)
    while shots and (max(shot[1] for shot in shots) - min(shot[0] for shot in shots)) // size > MOST_STRIPES:
        size *= 2
    for file in stripe_files(folder):
        os.remove(file)
    status, said = run([program, "split", str(size), name, "stripe"], folder)
    if status != 0:
        return f"split {size}: status {status}: {said}"
    lines, count = [], 0
    for number, some in stripes_of(shots, size).items():
        wanted, found = listing(some), run([program, "shots", f"stripe.{number}"], folder)[1].splitlines()
        if found != wanted:
            return f"split {size}: stripe {number} has {found}, not {wanted}"
        lines.append(f"stripe {number} {wanted[-1]}")
        count += len(some)
        os.remove(os.path.join(folder, f"stripe.{number}"))
    lines.append(f"shots {count} triangles {sum(len(shot_tiles(shot)) for shot in shots)}")
    if said.splitlines() != lines:
        return f"split {size} says {said.splitlines()}, not {lines}"
    return f"split {size} makes {stripe_files(folder)}" if stripe_files(folder) else None


def fault_of_random_stripes(program, folder, seed):
    """The same of a random list of shots."""
    chance = random.Random(f"stripes {seed}")
    size = chance.randrange(16, 20)
    shots = random_shots(chance, size)
    records.write(os.path.join(folder, "random.oas"), records.SHOTS_HEAD, (records.trapezoid(*it) for it in shots), records.END)
    if listed_shots(program, folder, "random.oas") != shots:
        return f"the list {shots} isn't read as it is"
    fault = fault_of_stripes(program, folder, "random.oas", size)
    return f"{shots}: {fault}" if fault else None


def fault_of_densities(program, folder, areas, outputs, size):
    """What is wrong with the counts in windows of this size, by the last deck."""
    wanted = [line for k, name in enumerate(outputs) for line in density_lines(f"out{k}.oas", areas[name], size)]
    for k in range(len(outputs)):
        os.remove(os.path.join(folder, f"out{k}.oas"))
    for layout in ("G.gds", "G.oas"):
        status, said = run([program, "density", str(size), layout, "K"], folder)
        if status != 0 or said.splitlines() != wanted:
            return f"density {size} {layout}: status {status}: {said.splitlines()}, not {wanted}"
    made = [file for file in os.listdir(folder) if file.startswith("out")]
    return f"density {size} makes {made}" if made else None


def fault_in_files(program, folder, seed, areas, outputs):
    """What is wrong with what is made of the shot files that the last deck left, and with its densities."""
    chance = random.Random(f"files {seed}")
    for k in range(len(outputs)):
        name = f"out{k}.oas"
        fault = fault_of_packing(program, folder, name) or fault_of_stripes(program, folder, name, chance.choice(FIELDS))
        if fault:
            return f"output {k}: {fault}"
    return (fault_of_random_stripes(program, folder, seed)
            or fault_of_densities(program, folder, areas, outputs, chance.choice(WINDOWS)))


def random_case(folder, seed):
    """Writes the layout of this seed as G.gds and G.oas, and gives its deck: steps with areas, frame, limits, outputs."""
    chance = random.Random(seed)
    layout, places = random_layout(chance)
    with open(os.path.join(folder, "layout.txt"), "w") as file:
        file.write(layout_text({name: layout[name] for name in sorted(layout)}))
    for name in ("gds", "oas"):
        with open(os.path.join(folder, "layout.txt")) as file:
            subprocess.run([os.path.join(TOOLS, name), "G." + name], cwd=folder, stdin=file, check=True)
    polygons = list(flattened({name: [it[:6] for it in cell] for name, cell in layout.items()}, "TOP"))
    x, y = 2 * places[0][0], 2 * places[0][1]
    frame = (x - 17, y - 12, x + 15, y + 19)
    steps, areas = random_deck(chance, polygons, frame)
    outputs = [len(steps) - 1, chance.randrange(len(steps))]
    limits = chance.choice([(1048576, 2097152), (1048576, 2097152), (8, 16), (3, 40)])
    return steps, areas, frame, limits, outputs


def write_case(folder, seed):
    """Writes the layout of this seed as G.gds and G.oas, and its deck as K, for other programs to judge."""
    steps, _, frame, limits, outputs = random_case(folder, int(seed))
    with open(os.path.join(folder, "K"), "w") as file:
        file.write(deck_text(steps, frame, limits, BANDS[int(seed) % 3], outputs))


def compare(program, folder, seed):
    """What is wrong with the case of this seed, or nothing; and how many triangles were compared."""
    steps, areas, frame, limits, outputs = random_case(folder, seed)
    triangles = sum(len(areas[name]) for name in outputs)
    for band in BANDS:
        fault = fault_in_band(program, folder, steps, areas, frame, limits, band, outputs)
        if fault:
            return f"band {band}: {fault}", triangles
    return fault_in_oasis(program, folder, len(outputs)) or fault_in_files(program, folder, seed, areas, outputs), triangles


def main(program, count=100, seed=1):
    program = os.path.realpath(program)
    failed = triangles = 0
    with tempfile.TemporaryDirectory() as folder:
        for case in range(int(seed), int(seed) + int(count)):
            fault, some = compare(program, folder, case)
            triangles += some
            if fault:
                failed += 1
                print(f"seed {case}: {fault}")
    print(f"{count} layouts, {triangles} triangles in each of {len(BANDS)} bands, {failed} failed")
    return 1 if failed else 0


if len(sys.argv) == 4 and sys.argv[1] == "case":
    sys.exit(write_case(*sys.argv[2:]))
if 2 <= len(sys.argv) <= 4:
    sys.exit(main(*sys.argv[1:]))
sys.exit(__doc__)
