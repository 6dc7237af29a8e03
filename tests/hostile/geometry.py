"""Shapes and shots of which many meet at one place or along one line."""
from records import *

FRACTURE = ["fracture", "layout", "deck"]
LESS_NOTHING = ["layer A 1 0", "layer B 2 0", "sub C A B", "write C out.oas 1 0"]


def wires(count, length, step):
    """Slanted wires side by side, 4 steps wide; each begins a step higher where the step isn't 0."""
    for k in range(count):
        x, y = 10 * k, step * k
        yield polygon([(x, y), (x + length, y + length), (x + length + 4, y + length), (x + 4, y)])


def slanted(count, length, step):
    """Each wire is one shot where all lie in one band: that many rows, and 8 half units wide."""
    gds(cell("TOP", b"".join(wires(count, length, step))))
    deck("band 16777216", "limits 2097152 4194304", "layer A 1 0", "write A out.oas 1 0")
    return FRACTURE, 0, f"output out.oas shots {count} triangles {count * 2 * length * 16}"


def pile(count):
    """Squares round one place, each a little larger: the largest, cut where a band ends."""
    gds(cell("TOP", b"".join(box(-1000 - k, -1000 - k, 1000 + k, 1000 + k) for k in range(count))))
    deck()
    side = 4 * (1000 + count - 1)
    return FRACTURE, 0, f"output out.oas shots 2 triangles {2 * side * side}"


def stairs(count):
    """Squares, each a step to the right of the one before and above it: at each step one of them begins or ends."""
    gds(cell("TOP", b"".join(box(k, k, k + count, k + count) for k in range(count))))
    deck()
    area = count * count + (count - 1) * (2 * count - 1)
    return FRACTURE, 0, f"output out.oas shots {2 * count - 1} triangles {8 * area}"


def same(count):
    gds(cell("TOP", polygon(SQUARE) * count))
    deck()
    return FRACTURE, 0, SQUARE_LINE


def zigzag(teeth, height):
    """A polygon that goes up and down to the right and down and up to the left: it crosses itself at each slanted edge."""
    there = [(k * height, height * (k % 2)) for k in range(teeth + 1)]
    back = [(x, height - y) for x, y in reversed(there)]
    gds(cell("TOP", polygon(there + back)))
    deck()
    return FRACTURE, 0, f"output out.oas shots {2 * teeth + 2} triangles {4 * teeth * height * height}"


def woven(count, width):
    """A polygon that goes up and down so often, and then to and fro: each of its upright edges crosses each of its level ones.

    Of the squares that they make every other one is inside, and left of them a column of every other one, each of which is in
    one shot with its neighbour.
    """
    side = count * width
    up = [(x, y) for k in range(count) for x, y in ((k * width, 0 if k % 2 == 0 else side), (k * width, side if k % 2 == 0 else 0))]
    across = [(x, y) for k in range(count) for x, y in
              ((-width if k % 2 == 0 else side, k * width), (side if k % 2 == 0 else -width, k * width))]
    gds(cell("TOP", polygon(up + [(-width, 0)] + across[1:] + [(-width, side), (0, side), (0, 0)])))
    deck()
    return FRACTURE, 0, f"output out.oas shots {count * count // 2} triangles {count * (count + 1) // 2 * 8 * width * width}"


def check_same(count):
    """A shot given many times, for `check`."""
    gds(cell("TOP", polygon(SQUARE)))
    deck()
    write("out.oas", SHOTS_HEAD, shot(0, 0, 20, 20) * count, END)
    return ["check", "layout", "deck"], 7, f"check refused: out.oas: tile 0 0 left count {count} wanted 1"


def wide(word, count):
    """Shots 2^44 wide, as wide as a shot can be on one side of 0."""
    gds(cell("TOP", polygon(SQUARE)))
    deck()
    write("out.oas", SHOTS_HEAD, b"".join(shot(0, k, 1 << 44, 1) for k in range(count)), END)
    if word == "check":
        return ["check", "layout", "deck"], 7, "check refused: out.oas: shot 0 too large"
    return ["shots", "out.oas"], 0, f"shots {count} triangles {count << 45}"


def spiral(corners):
    """A path of width 4 that winds outward, 10 from turn to turn, as one polygon: each row crosses up to half of its sides.

    Its legs are level and upright in turn, and each is a shot, from corner to corner where it is level. The upright ones, but for
    the first, are cut at Y 0, where a band ends, and so is the first leg. An area of a path that ends in its last corner is its
    width times its length. Given are the rectangles of the legs, the number of shots and that of triangles.
    """
    legs = [10 * (k // 2 + 1) * (1 if k % 4 < 2 else -1) for k in range(corners - 1)]
    centre, normals = [(0, 0)], []
    for k, leg in enumerate(legs):
        x, y = centre[-1]
        centre.append((x + leg, y) if k % 2 == 0 else (x, y + leg))
        normals.append((0, 2 if leg > 0 else -2) if k % 2 == 0 else (-2 if leg > 0 else 2, 0))
    beside = [normals[:1]] + [list(pair) for pair in zip(normals, normals[1:])] + [normals[-1:]]
    moves = [(sum(x for x, _ in some), sum(y for _, y in some)) for some in beside]
    left = [(x + dx, y + dy) for (x, y), (dx, dy) in zip(centre, moves)]
    right = [(x - dx, y - dy) for (x, y), (dx, dy) in zip(centre, moves)]
    points = left + right[::-1]
    steps = [a - c or b - d for (a, b), (c, d) in zip(points[1:-1], points)]
    oas(oas_cell("TOP", b"\x15\x3B" + unsigned(1, 0, 0, len(steps)) + signed(*steps, *points[0])))
    whole = [sorted([left[k], left[k + 1], right[k], right[k + 1]]) for k in range(len(legs))]
    area = 4 * sum(abs(leg) for leg in legs)
    return whole, len(legs) + len(legs) // 2, 8 * area


def one_spiral(corners, *lines):
    _, shots, triangles = spiral(corners)
    deck(*lines)
    return FRACTURE, 0, f"output out.oas shots {shots} triangles {triangles}"


def spiral_checked(corners):
    """The legs of a spiral as shots, of which the upright ones are between the level ones."""
    legs, _, triangles = spiral(corners)
    shots = []
    for k, corners_of_leg in enumerate(legs):
        xs, ys = sorted(x for x, _ in corners_of_leg), sorted(y for _, y in corners_of_leg)
        if k % 2 == 0:
            shots.append((xs[0], ys[0], xs[-1], ys[-1]))
        else:
            shots.append((xs[0], ys[0] + 4, xs[-1], ys[-1] - (4 if k + 1 < len(legs) else 0)))
    return judged(shots, triangles)


def judged(shots, triangles):
    """What `check` says of these rectangles of grid steps, which are the area."""
    deck()
    write("out.oas", SHOTS_HEAD, (shot(*(2 * number for number in (x0, y0, x1 - x0, y1 - y0))) for x0, y0, x1, y1 in shots), END)
    return ["check", "layout", "deck"], 0, f"exact out.oas shots {len(shots)} triangles {triangles}"


def comb_checked(teeth):
    """A bar with upright teeth, of which no two have one length; below each a piece of the bar."""
    lengths = [k * 7919 % teeth + 1 for k in range(teeth)]
    gds(cell("TOP", box(0, -10, 20 * teeth, 0), *(box(20 * k, 0, 20 * k + 10, high) for k, high in enumerate(lengths))))
    pieces = [(20 * k, -10, 20 * k + 20, 0) for k in range(teeth)]
    pieces += [(20 * k, 0, 20 * k + 10, high) for k, high in enumerate(lengths)]
    return judged(pieces, 8 * (200 * teeth + 10 * sum(lengths)))


def hatch_checked(count):
    """Level bars across as many upright ones; each level one is a shot, and so is each piece of the others between them."""
    side = 20 * count
    level = (box(0, y, side, y + 10) for y in range(0, side, 20))
    gds(cell("TOP", *level, *(box(x, 0, x + 10, side) for x in range(0, side, 20))))
    shots = [piece for y in range(0, side, 20)
             for piece in [(0, y, side, y + 10)] + [(x, y + 10, x + 10, y + 20) for x in range(0, side, 20)]]
    return judged(shots, 8 * 300 * count * count)


def stair_and_wires(squares, count):
    """A stair of overlapping squares, and slanted wires over all its rows, each of which crosses it once.

    A wire has 72 square grid steps with the stair: 40 in the ten rows where it leaves the stair on the left, and in the ten below
    them 40 less the corner where it comes in. Each makes three shots more than the stair has.
    """
    high, space = 10 * (squares + 1), 100
    first = (high - space * count) // 40 * 20
    wire = [(first, 0), (first + 4, 0), (first + 4 - high, high), (first - high, high)]
    oas(oas_cell("TOP", rectangle(0, 0, 20, 20, repetition=unsigned(9, squares - 2) + general(10, 10))),
        b"\x15\x3F" + unsigned(1, 0) + point_list(wire) + signed(*wire[0]) + unsigned(2, count - 2, space))
    deck()
    area = 300 * squares + 100 + count * (4 * high - 72)
    return FRACTURE, 0, f"output out.oas shots {squares + 1 + 3 * count} triangles {8 * area}"


def along_diagonal(times):
    """A triangle whose outline goes up and down its slanted side so often, each time from a higher place to a lower one."""
    far = 10 * times
    there = [point for k in range(times // 2) for point in ((k, k), (far - k, far - k))]
    oas(oas_cell("TOP", oasis_polygon(there + [(far, far), (0, far)])))
    deck()
    return FRACTURE, 0, f"output out.oas shots 1 triangles {4 * far * far}"


def crossed(times):
    """Two wires that cross each other, so often on one place: four arms, and two halves where they meet."""
    far, wide = 10000, 10
    up = polygon([(0, 0), (far, far), (far + wide, far), (wide, 0)])
    down = polygon([(0, far), (wide, far), (far + wide, 0), (far, 0)])
    gds(cell("TOP", (up + down) * times))
    deck()
    return FRACTURE, 0, f"output out.oas shots 6 triangles {8 * (2 * far * wide - wide * wide // 2)}"


CASES = [
    ("300 slanted wires, each a step higher", True, lambda: slanted(300, 400000, 1)),
    ("100,000 slanted wires, side by side", False, lambda: slanted(100000, 400000, 0)),
    ("100,000 slanted wires, each a step higher", False, lambda: slanted(100000, 400000, 1)),
    ("a pile of 1,000 squares", True, lambda: pile(1000)),
    ("a pile of 100,000 squares", False, lambda: pile(100000)),
    ("a pile of 100,000 squares, each a step further", False, lambda: stairs(100000)),
    ("a square 1,000,000 times", False, lambda: same(1000000)),
    ("a polygon of 8,191 points that crosses itself at each edge", True, lambda: zigzag(4094, 100)),
    ("a spiral of 100,000 points", True, lambda: one_spiral(50000)),
    ("a spiral of 100,000 points less nothing", True, lambda: one_spiral(50000, *LESS_NOTHING), SWIFT),
    ("a spiral of 100,000 points, checked", True, lambda: spiral_checked(50000), SWIFT),
    ("a comb of 100,000 teeth, checked", False, lambda: comb_checked(100000), SWIFT),
    ("700 level bars across 700 upright ones, checked", False, lambda: hatch_checked(700), SWIFT),
    ("a stair of 20,000 squares with 1,500 slanted wires over it", True, lambda: stair_and_wires(20000, 1500), SWIFT),
    ("a polygon that runs 10,000 times along its own diagonal", True, lambda: along_diagonal(10000), SWIFT),
    ("two wires that cross 1,000 times on one place", True, lambda: crossed(1000), SWIFT),
    ("a polygon whose edges cross each other 40,000 times", True, lambda: woven(200, 10)),
    ("a polygon whose edges cross each other 4,000,000 times", False, lambda: woven(2000, 10)),
    ("a shot 1,000,000 times, checked", False, lambda: check_same(1000000)),
    ("100,000 shots 2^44 wide, checked", True, lambda: wide("check", 100000)),
    ("100,000 shots 2^44 wide, listed", True, lambda: wide("shots", 100000)),
]
