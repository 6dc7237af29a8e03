"""Square rings, one round another, 2 grid steps wide and 2 apart: each row through their middle crosses all of them."""
from records import *

FRACTURE = ["fracture", "layout", "deck"]


def rings(count):
    """The outer and the inner half side of each ring, in half units."""
    return [(8 * k + 4, 8 * k) for k in range(1, count + 1)]


def bars(outer, inner):
    """A ring as four bars: below, left, right, above."""
    return [(-outer, -outer, outer, -inner), (-outer, -inner, -inner, inner), (inner, -inner, outer, inner), (-outer, inner, outer, outer)]


def triangles(sides):
    return sum(2 * (4 * outer * outer - 4 * inner * inner) for outer, inner in sides)


def ringed(count, lines, sides, name="Z"):
    """The rings through these lines of a deck become these ones, by this name; a band ends at Y 0, so each has six shots."""
    gds(cell("TOP", b"".join(box(*(number // 2 for number in bar)) for ring in rings(count) for bar in bars(*ring))))
    deck("layer A 1 0", *lines, f"write {name} out.oas 1 0")
    return FRACTURE, 0, f"output out.oas shots {6 * len(sides)} triangles {triangles(sides)}"


def alone(count):
    return ringed(count, [], rings(count), "A")


def united(count):
    return ringed(count, ["layer B 2 0", "grow C A 0", "or Z C B"], rings(count))


def left_over(count):
    """What the rings grow by is a ring outside and one inside of each."""
    sides = [side for outer, inner in rings(count) for side in ((outer + 1, outer), (inner, inner - 1))]
    return ringed(count, ["grow B A 1", "sub Z B A"], sides)


def shrunk(count):
    return ringed(count, ["shrink Z A 1"], [(outer - 1, inner + 1) for outer, inner in rings(count)])


def mirrored(count):
    return ringed(count, ["mirror B A 0", "and Z A B"], rings(count))


def checked(count):
    """The rings' own shots, of which those at the sides go through the end of a band, checked."""
    gds(cell("TOP", b"".join(box(*(number // 2 for number in bar)) for ring in rings(count) for bar in bars(*ring))))
    deck()
    shots = [shot(x0, y0, x1 - x0, y1 - y0) for ring in rings(count) for x0, y0, x1, y1 in bars(*ring)]
    write("out.oas", SHOTS_HEAD, *shots, END)
    return ["check", "layout", "deck"], 0, f"exact out.oas shots {4 * count} triangles {triangles(rings(count))}"


CASES = [
    ("1,000 rings with an empty layer", True, lambda: united(1000)),
    ("1,000 rings, what they grow by", True, lambda: left_over(1000)),
    ("5,000 rings", False, lambda: alone(5000), SWIFT),
    ("5,000 rings with an empty layer", False, lambda: united(5000), SWIFT),
    ("5,000 rings, what they grow by", False, lambda: left_over(5000), SWIFT),
    ("5,000 rings and their mirror images", False, lambda: mirrored(5000), SWIFT),
    ("5,000 rings shrunk", False, lambda: shrunk(5000), SWIFT),
    ("5,000 rings checked", False, lambda: checked(5000), SWIFT),
]
