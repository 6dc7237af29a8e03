"""Small layouts over the whole height of a chip, 2^31 rows: up to 2^21 bands, most of which have little or nothing."""
import random

from records import *

FRACTURE = ["fracture", "layout", "deck"]
DEFAULT_BAND = 1 << 20
# No row of a chip is as far from 0, in grid steps.
REACH = 1 << 29
# From here up to REACH there is room for 2,000 steps of 1,048 of the least bands each; such a band has 512 grid steps.
LOWEST, STEP = -536576000, 536576


def banded(band, *lines):
    """A deck of these definitions, of which the last is written."""
    deck(f"band {band}", *lines, f"write {lines[-1].split()[1]} out.oas 1 0")
    return FRACTURE


def row(count, step):
    """A repetition: a row of so many."""
    return unsigned(2, count - 2, step)


def bars_less_all(count, band):
    """Bars through all rows but a few, less a rectangle over all of them: nothing."""
    high = REACH - 16
    bars = rectangle(0, -high, 10, high, repetition=row(count, 20))
    oas(oas_cell("TOP", bars, rectangle(-10, -high, 20 * count + 10, high, 2)))
    return banded(band, "layer A 1 0", "layer B 2 0", "sub C A B"), 0, "output out.oas shots 0 triangles 0"


def dots(count, band):
    """A cell of two dots, one far above the other, placed side by side: two shots."""
    far = 500000000
    oas(oas_cell("DOTS", rectangle(0, -far, 1, 1 - far)), rectangle(0, far - 1, 1, far),
        oas_cell("TOP", oasis_placement("DOTS", (0, 0), repetition=row(count, 1))))
    return banded(band, "layer A 1 0"), 0, f"output out.oas shots 2 triangles {16 * count}"


def columns(count, band):
    """Two slanted columns of squares, each of them in a band of its own."""
    slant = unsigned(9, count - 2) + general(1000, STEP)
    oas(oas_cell("TOP", rectangle(0, LOWEST, 10, LOWEST + 10, repetition=slant)), b"\x14\x14" + signed(500) + b"\x00")
    return banded(band, "layer A 1 0"), 0, f"output out.oas shots {2 * count} triangles {1600 * count}"


def listed(count, times, band):
    """Places at irregular distances, given once and used again so often, each time a step to the right."""
    spaces = unsigned(6, count - 2, *(512 * (2090 + k % 7) for k in range(count - 1)))
    again = (b"\x14\x14" + signed(20 * k) + b"\x00" for k in range(1, times + 1))
    oas(oas_cell("TOP", rectangle(0, LOWEST, 10, LOWEST + 10, repetition=spaces)), again)
    shots = (times + 1) * count
    return banded(band, "layer A 1 0"), 0, f"output out.oas shots {shots} triangles {800 * shots}"


def scattered(count, band):
    """Squares in no order, each at the beginning of another of the least bands."""
    chance = random.Random(1)
    rows = chance.sample(range(-(1 << 20) + 1, (1 << 20) - 1), count)
    places = [(chance.randrange(1 << 20), 512 * k) for k in rows]
    oas(oas_cell("TOP"), (rectangle(x, y, x + 10, y + 10) for x, y in places))
    return banded(band, "layer A 1 0"), 0, f"output out.oas shots {count} triangles {800 * count}"


def placed(count, rise):
    """A cell of one dot, placed so often by a record each: all on one place, or in rows of 1,000, each of them one shot."""
    across = 1000 if rise else 1
    dots = (b"\x11\x30" + signed(k % across, LOWEST + k // across * rise) for k in range(1, count))
    first = b"\x11\xB0" + text("DOT") + signed(0, LOWEST)
    oas(oas_cell("DOT", rectangle(0, 0, 1, 1)), oas_cell("TOP", first), dots)
    shots = count // 1000 if rise else 1
    return banded(DEFAULT_BAND, "layer A 1 0"), 0, f"output out.oas shots {shots} triangles {8 * shots * across}"


CASES = [
    ("100 bars of almost 2^31 rows less a rectangle over all of them, band 1024", False, lambda: bars_less_all(100, 1024), SWIFT),
    ("60,000 bars of almost 2^31 rows less a rectangle over all of them", False,
     lambda: bars_less_all(60000, DEFAULT_BAND), SWIFT),
    ("a cell of two dots far apart, placed 200 times side by side, band 1024", False, lambda: dots(200, 1024), SWIFT),
    ("a cell of two dots far apart, placed 150,000 times side by side", False, lambda: dots(150000, DEFAULT_BAND), SWIFT),
    ("two slanted columns of 2,000 squares over 2^31 rows, band 1024", False, lambda: columns(2000, 1024), SWIFT),
    ("1,000 listed places over 2^31 rows, eleven times, band 1024", False, lambda: listed(1000, 10, 1024), SWIFT),
    ("10,000 squares over 2^31 rows in no order, band 1024", False, lambda: scattered(10000, 1024), SWIFT),
    ("a cell of one dot placed 1,000,000 times on one place", False, lambda: placed(1000000, 0), LEAN),
    ("a cell of one dot placed 1,000,000 times, in rows over 2^31 rows", False, lambda: placed(1000000, 2 * STEP), SWIFT),
]
