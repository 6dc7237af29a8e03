"""OASIS layouts that give a long list once, and use it again in records of a few bytes."""
from records import *

OTHER = 9  # a layer that the deck doesn't name


def moves(count):
    """A repetition of kind 10: places one after the other, at irregular distances."""
    return unsigned(10, count - 2) + b"".join(unsigned(4 * (20 + k % 7) + 1) + signed(k % 5 - 2) for k in range(count - 1))


def spaces(count):
    """A repetition of kind 4: a row with irregular spaces."""
    return unsigned(4, count - 2) + unsigned(*(20 + k % 7 for k in range(count - 1)))


def many_points(count):
    """A polygon of an even number of points: stairs of one step each, then three steps to the right, down and back.

    It is a point list of kind 0, whose moves are level and upright in turn; the last two sides are left to the reader.
    """
    steps = [1] * (count - 4) + [3, -count]
    return unsigned(0, len(steps)) + signed(*steps)


def in_cell(name, first, again, times, reached=False):
    """TOP has a square; the cell has the first record and the other one so often."""
    top = rectangle(0, 0, 10, 10) + (b"\x11\xB0" + text(name) + signed(0, 0) if reached else b"")
    oas(oas_cell(name, first), again * times, oas_cell("TOP", top))
    deck()
    return ["fracture", "layout", "deck"], 0, SQUARE_LINE


def unreached_rectangles(repetition, times):
    return in_cell("OTHER", rectangle(0, 0, 10, 10, repetition=repetition), b"\x14\x04\x00", times)


def unwanted_rectangles(repetition, times):
    return in_cell("OTHER", rectangle(0, 0, 10, 10, OTHER, repetition), b"\x14\x04\x00", times, True)


def texts(repetition, times):
    first = b"\x13\x5F" + text("T") + unsigned(OTHER, 0) + signed(0, 0) + repetition
    return in_cell("OTHER", first, b"\x13\x04\x00", times, True)


def placements(repetition, times, name="TOP"):
    """Of a cell that has nothing, in TOP, or in a cell that nothing reaches."""
    first = b"\x11\xB8" + text("EMPTY") + signed(0, 0) + repetition
    square = rectangle(0, 0, 10, 10)
    above = [] if name == "TOP" else [oas_cell("TOP", square)]
    oas(oas_cell("EMPTY"), *above, oas_cell(name, square, first), b"\x11\x08\x00" * times)
    deck()
    return ["fracture", "layout", "deck"], 0, SQUARE_LINE


def polygons(layer, points, times, reached):
    first = b"\x15\x3B" + unsigned(layer, 0) + many_points(points) + signed(0, 0)
    return in_cell("OTHER", first, b"\x15\x00", times, reached)


def stairs_and_square(points, steps):
    """The line of `fracture` for a polygon of stairs and its copies, each a step to the right, with TOP's square of 10.

    There are n = points / 2 - 2 stairs. From Y n - points to 0 the polygon has all X from 0 to n + 3; in the row from Y k to
    k + 1 it has those from k + 1 on; the copies add as many X on the right. The square fills what is left of the stairs in its
    10 rows. So the shots are one below Y 0, where a band ends, one of these 10 rows, and one for each stair above. A square grid
    step has 8 triangles.
    """
    stairs = points // 2 - 2
    area = (stairs + 3 + steps) * (points - stairs + 10) + sum(stairs + 2 + steps - stair for stair in range(10, stairs))
    return f"output out.oas shots {stairs - 8} triangles {8 * area}"


def shown_polygons(points, times):
    """Of a cell that TOP places, all copies on one place, so that the area is that of one."""
    words, status, _ = polygons(1, points, times, True)
    return words, status, stairs_and_square(points, 0)


def rows_of_polygons(points, times, reached=False):
    """Each a step to the right of the one before: a record of three bytes."""
    first = b"\x15\x3B" + unsigned(1, 0) + many_points(points) + signed(0, 0)
    words, status, line = in_cell("OTHER", b"\x10" + first, b"\x15\x10" + signed(1), times, reached)
    return words, status, stairs_and_square(points, times) if reached else line


def paths(layer, points, times, reached):
    first = b"\x16\xFB" + unsigned(layer, 0, 1, 5) + unsigned(0, points) + signed(*[2] * points) + signed(0, 0)
    return in_cell("OTHER", first, b"\x16\x00", times, reached)


def paths_of_two_widths(points, times):
    """Each record has another width than the one before, and uses the point list again."""
    first = b"\x16\xFB" + unsigned(1, 0, 1, 5) + unsigned(0, points) + signed(*[2] * points) + signed(0, 0)
    return in_cell("OTHER", first, b"\x16\x40\x02\x16\x40\x01", times // 2)


def paths_without_width(points, times):
    """Each move goes back the way of the one before, which is no fault where there is no width."""
    first = b"\x16\xFB" + unsigned(1, 0, 0, 5) + unsigned(2, points) + unsigned(*[8, 10] * (points // 2)) + signed(0, 0)
    return in_cell("OTHER", first, b"\x16\x00", times)


def shown_paths(points, times):
    """Of the top cell: each two rows of the stairs are one shot, but the first two, since a band ends at Y 0, and so is the last row."""
    first = b"\x16\xFB" + unsigned(1, 0, 1, 5) + unsigned(0, points) + signed(*[2] * points) + signed(0, 0)
    oas(oas_cell("TOP", first), b"\x16\x00" * times)
    deck()
    stairs = points // 2
    area = 2 * 3 + (stairs - 1) * 2 * 4 + 2
    return ["fracture", "layout", "deck"], 0, f"output out.oas shots {stairs + 2} triangles {8 * area}"


LARGE_GRID = unsigned(1, 32766, 32766, 1, 1)  # of 2^30 places


def most_repeated(more):
    """2^40 rectangles on a layer that isn't written, and some more on another that is: the limit counts both."""
    oas(oas_cell("TOP", rectangle(0, 0, 10, 10, repetition=LARGE_GRID)), b"\x14\x04\x00" * 1023, rectangle(0, 0, 10, 10, 2) * more)
    deck("layer A 1 0", "layer B 2 0", "write B out.oas 1 0")
    words = ["fracture", "layout", "deck"]
    return (words, 3, f"layout refused: count TOP {2**40 + more}") if more else (words, 0, "output out.oas shots 0 triangles 0")


def counted(repetition, count, times):
    """Shapes on the deck's layer, more than a layout may have: refused by their number."""
    oas(oas_cell("TOP", rectangle(0, 0, 10, 10, repetition=repetition)), b"\x14\x04\x00" * (times - 1))
    deck()
    return ["fracture", "layout", "deck"], 3, f"layout refused: count TOP {count * times}"


CASES = [
    ("a list of 1,000 moves in rectangles that nothing reaches, 1,000 times", True,
     lambda: unreached_rectangles(moves(1000), 1000)),
    ("a list of 100,000 moves in rectangles that nothing reaches, 20,000 times", False,
     lambda: unreached_rectangles(moves(100000), 20000)),
    ("a list of 100,000 spaces in rectangles that nothing reaches, 20,000 times", False,
     lambda: unreached_rectangles(spaces(100000), 20000)),
    ("a list of 100,000 moves on an unwanted pair, 100,000 times", False, lambda: unwanted_rectangles(moves(100000), 100000)),
    ("a list of 100,000 spaces on an unwanted pair, 100,000 times", False, lambda: unwanted_rectangles(spaces(100000), 100000)),
    ("a list of 100,000 moves in texts, 100,000 times", False, lambda: texts(moves(100000), 100000)),
    ("a list of 100,000 spaces in texts, 100,000 times", False, lambda: texts(spaces(100000), 100000)),
    ("a list of 1,000 moves in placements of an empty cell, 1,000 times", True, lambda: placements(moves(1000), 1000)),
    ("a list of 100,000 moves in placements of an empty cell, 20,000 times", False, lambda: placements(moves(100000), 20000)),
    ("a list of 100,000 spaces in placements of an empty cell, 20,000 times", False, lambda: placements(spaces(100000), 20000)),
    ("a list of 100,000 moves in placements that nothing reaches, 20,000 times", False,
     lambda: placements(moves(100000), 20000, "OTHER")),
    ("a list of 100,000 spaces in placements that nothing reaches, 20,000 times", False,
     lambda: placements(spaces(100000), 20000, "OTHER")),
    ("a grid of 2^30 places, 1,024 times and once more", True, lambda: counted(LARGE_GRID, 1 << 30, 1025)),
    ("2^40 shapes, by a grid that is given again", True, lambda: most_repeated(0)),
    ("2^40 shapes and one more, by a grid that is given again", True, lambda: most_repeated(1)),
    ("a polygon of 100,000 points on an unwanted pair, 100,000 times", False, lambda: polygons(OTHER, 100000, 100000, True)),
    ("a polygon of 1,000 points that nothing reaches, 1,000 times", True, lambda: polygons(1, 1000, 1000, False)),
    ("a polygon of 100,000 points that nothing reaches, 100,000 times", False, lambda: polygons(1, 100000, 100000, False)),
    ("a polygon of 100,000 points in records of three bytes, 100,000 times", False, lambda: rows_of_polygons(100000, 100000)),
    ("a polygon of 1,000 points, 1,000 times", True, lambda: shown_polygons(1000, 1000)),
    ("a polygon of 100,000 points, 100,000 times", False, lambda: shown_polygons(100000, 100000)),
    ("a polygon of 1,000 points, 100 times, each a step further", True, lambda: rows_of_polygons(1000, 100, True)),
    ("a polygon of 20,000 points, 1,000 times, each a step further", False, lambda: rows_of_polygons(20000, 1000, True)),
    ("a path of 100,000 points on an unwanted pair, 100,000 times", False, lambda: paths(OTHER, 100000, 100000, True)),
    ("a path of 10,000 points that nothing reaches, 10,000 times", False, lambda: paths(1, 10000, 10000, False)),
    ("a path of 100,000 points that nothing reaches, 100,000 times", False, lambda: paths(1, 100000, 100000, False)),
    ("a path of 10,000 points with a width that changes, 20,000 times", False, lambda: paths_of_two_widths(10000, 20000)),
    ("a path of 10,000 points without width that turns back, 100,000 times", False, lambda: paths_without_width(10000, 100000)),
    ("a path of 200 points, 200 times", True, lambda: shown_paths(200, 200)),
    ("a polygon of 100,000 points, 100,000 times, each a step further", False, lambda: rows_of_polygons(100000, 100000, True)),
    ("a path of 100,000 points, 100,000 times", False, lambda: shown_paths(100000, 100000)),
    ("a path of 1,000 points, 1,000 times", False, lambda: shown_paths(1000, 1000)),
]
