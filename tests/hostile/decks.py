"""Decks whose steps need much more than what they give."""
import random

from records import *

FRACTURE = ["fracture", "layout", "deck"]


def grown(steps, band):
    """A square grown again and again by the most that a step can: cut at each band's edge, and by the width."""
    gds(cell("TOP", polygon(SQUARE)))
    lines = [f"grow S{k} {'A' if k == 0 else f'S{k - 1}'} 65536" for k in range(steps)]
    deck(f"band {band}", "layer A 1 0", *lines, f"write S{steps - 1} out.oas 1 0")
    far, side = 65536 * steps, 20 + 2 * 65536 * steps
    bands = -(-(20 + far) // band) + -(-far // band)
    return FRACTURE, 0, f"output out.oas shots {bands * -(-side // 2097152)} triangles {2 * side * side}"


def grown_layout(count, band):
    """Squares in a row, upwards, grown by more than a band: one column."""
    chance = random.Random(1)
    places = [(chance.randrange(1000), 500 * k) for k in range(count)]
    gds(cell("TOP", box(0, 0, 1010, 10), *(box(x, y, x + 10, y + 10) for x, y in places)))
    deck(f"band {band}", "layer A 1 0", "grow G A 65536", "write G out.oas 1 0")
    return FRACTURE, 0, f"output out.oas shots .."


def stairs_of(count):
    """Squares of one grid step along a diagonal, 80,000 half units from 0 and on, and the area of all once they have grown so
    far that all of them lie on one place."""
    gds(cell("TOP", b"".join(box(k, k, k + 1, k + 1) for k in range(40000, 40000 + count))))
    side = 2 + 2 * 65536
    return side * side + (count - 1) * (4 * side - 4)


def grown_stairs(count):
    """Such squares, grown so far."""
    area = stairs_of(count)
    deck("layer A 1 0", "grow G A 65536", "write G out.oas 1 0")
    return FRACTURE, 0, f"output out.oas shots {2 * count - 1} triangles {2 * area}"


def shrunk_around_stairs(count):
    """What is around such squares, shrunk so far: a frame of 268,928 a side with a hole."""
    area = stairs_of(count)
    deck("frame -60000 -60000 340000 340000", "layer A 1 0", "invert B A", "shrink G B 65536", "write G out.oas 1 0")
    return FRACTURE, 0, f"output out.oas shots {2 * count + 2} triangles {2 * (268928 * 268928 - area)}"


def framed(count, reach, is_apart):
    """An inverted layer in a narrow frame of many bands, beside which all shapes are, in the top cell or in one of their own."""
    shapes = b"".join(box(20 * k, 0, 20 * k + 10, 10) for k in range(count))
    gds(*([cell("SHAPES", shapes), cell("TOP", place("SHAPES"))] if is_apart else [cell("TOP", shapes)]))
    deck("band 1024", f"frame -2000 {-reach} -1000 {reach}", "layer A 1 0", "invert C A", "write C out.oas 1 0")
    return FRACTURE, 0, f"output out.oas shots {reach // 512} triangles {4000 * reach}"


def mirrored(times):
    """A square beside its image, both beside theirs, and so on: 2^times squares in a row."""
    gds(cell("TOP", polygon(SQUARE)))
    lines, name = [], "A"
    for k in range(times):
        lines += [f"mirror M{k} {name} {40 * 2**k - 10}", f"or B{k} {name} M{k}"]
        name = f"B{k}"
    deck("layer A 1 0", *lines, f"write {name} out.oas 1 0")
    return FRACTURE, 0, f"output out.oas shots {2**times} triangles {800 * 2**times}"


def taken_twice(steps):
    """Steps each of which takes the one before twice: the first one's area, which isn't computed 2^steps times."""
    gds(cell("TOP", polygon(SQUARE)))
    lines = [f"or S{k} {below} {below}" for k, below in enumerate(["A"] + [f"S{k}" for k in range(steps - 1)])]
    deck("layer A 1 0", *lines, f"write S{steps - 1} out.oas 1 0")
    return FRACTURE, 0, SQUARE_LINE


def longest():
    """A deck of as many lines as fit, each of which is read before the last is refused."""
    with open("deck", "w") as file:
        lines = ["unit 1000", "top TOP", "layer A 1 0"] + [f"or N{k} A A" for k in range(255)]
        body = "\n".join(lines) + "\n"
        file.write(body + "#\n" * ((65536 - len(body) - 4) // 2) + "or\n")
    gds(cell("TOP", polygon(SQUARE)))
    return FRACTURE, 2, "deck refused: line .."


def written_often(steps, outputs):
    """A grid of squares changed by `xor` with smaller ones in them, and changed back, and so on; the last area in many files."""
    places = grid(100, 100, (20, 0), (0, 20))
    oas(oas_cell("TOP", rectangle(0, 0, 10, 10, repetition=places)), rectangle(2, 2, 8, 8, 2, places))
    lines = [f"xor S{k} {'A' if k == 0 else f'S{k - 1}'} B" for k in range(steps)]
    files = [f"write S{steps - 1} out{k}.oas 1 0" for k in range(outputs)]
    deck("layer A 1 0", "layer B 2 0", *lines, *files)
    return FRACTURE, 0, f"output out{outputs - 1}.oas shots 10000 triangles 8000000"


def bars(upright, level):
    """Upright bars on one layer, level ones on another; what both together grow by."""
    oas(oas_cell("TOP", upright), level)
    deck("layer A 1 0", "layer B 2 0", "or C A B", "grow D C 20", "xor E C D", "write E out.oas 1 0")
    return FRACTURE, 0


def many(count, dx, dy):
    return unsigned(9, count - 2) + general(dx, dy)


def bars_below(count):
    """The level bars begin where the upright ones end, and so does a band: the gaps and a rim."""
    side = 20 * count
    words = bars(rectangle(0, -side, 10, 0, 1, many(count, 20, 0)), rectangle(0, 0, side, 10, 2, many(count, 0, 20)))
    area = 400 * count * count + 800 * count + 200
    return *words, f"output out.oas shots {4 * count + 3} triangles {8 * area}"


def bars_across(count):
    """All bars cross, so that a hole is left between each two of both."""
    side = 20 * count
    words = bars(rectangle(0, 0, 10, side, 1, many(count, 20, 0)), rectangle(0, 0, side, 10, 2, many(count, 0, 20)))
    area = 100 * count * count + 800 * count + 300
    return *words, f"output out.oas shots {count * count + count + 3} triangles {8 * area}"


def bars_under(count):
    """The level bars leave no gap, each a step further to the right than the one below it, and cover the upright ones: a rim.

    Round the end of each, but for the last, are 20 rows that the next one has grown into too; these are wider by the step.
    """
    wide = 22 * count
    upright = rectangle(count, 0, count + 10, 20 * count, 1, many(count, 20, 0))
    words = bars(upright, rectangle(0, 0, wide, 20, 2, many(count, 1, 20)))
    area = (20 * count + 20) * (wide + 20) + 20 * (count - 1) - 20 * wide * count
    return *words, f"output out.oas shots {4 * count} triangles {8 * area}"


CASES = [
    ("a square grown by 65,536 once, band 1024", True, lambda: grown(1, 1024)),
    ("a square grown by 65,536 255 times, band 1048576", True, lambda: grown(255, 1048576)),
    ("a square grown by 65,536 255 times, band 1024", False, lambda: grown(255, 1024)),
    ("10,000 squares grown by 65,536, band 1048576", True, lambda: grown_layout(10000, 1048576)),
    ("10,000 squares grown by 65,536, band 1024", False, lambda: grown_layout(10000, 1024)),
    ("2,000 squares along a diagonal, grown by 65,536", True, lambda: grown_stairs(2000)),
    ("60,000 squares along a diagonal, grown by 65,536", False, lambda: grown_stairs(60000)),
    ("2,000 squares along a diagonal, around which a frame shrinks by 65,536", True, lambda: shrunk_around_stairs(2000)),
    ("60,000 squares along a diagonal, around which a frame shrinks by 65,536", False, lambda: shrunk_around_stairs(60000)),
    ("100,000 shapes in a cell, beside a frame of 2^31 rows, band 1024", False, lambda: framed(100000, 1 << 30, True)),
    ("100,000 shapes in the top cell, beside a frame of 2^31 rows, band 1024", False, lambda: framed(100000, 1 << 30, False)),
    ("255 steps, each of which takes the one before twice", True, lambda: taken_twice(255)),
    ("a row doubled 20 times by its mirror image", False, lambda: mirrored(20)),
    ("a deck of 65,536 bytes", True, longest),
    ("20,000 upright bars below 20,000 level ones, what both grow by", True, lambda: bars_below(20000), SWIFT),
    ("20,000 upright bars under 20,000 level ones, what both grow by", False, lambda: bars_under(20000), SWIFT),
    ("1,000 upright bars across 1,000 level ones, what both grow by", False, lambda: bars_across(1000), SWIFT),
    ("2,000 upright bars across 2,000 level ones, what both grow by", False, lambda: bars_across(2000), SWIFT),
    ("10,000 squares, `xor` 250 times, and the last area in 64 files", False, lambda: written_often(250, 64), SWIFT),
]
