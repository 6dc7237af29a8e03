"""Packed shot files, writing fields and densities. They are skipped where the program doesn't know the words."""
from records import *

MOST_IN_RECORD = 1 << 24


def packed(more):
    """A packed file of a hundred bytes of records: as many shots as such a file may have, and some more."""
    first = b"\x14\x67\x01\x00" + unsigned(20, 20, 9, MOST_IN_RECORD - 2, 4 * 40 + 1) + signed(0)
    again = b"\x14\x04" + unsigned(9, MOST_IN_RECORD - 2, 4 * 40 + 1) + signed(0)
    write("packed", SHOTS_HEAD, first, again, *[b"\x14\x08" + signed(40)] * more, END)
    at = len(SHOTS_HEAD) + len(first) + len(again)
    if more:
        return ["unpack", "packed", "out.oas"], 7, f"check refused: packed: packed many at {at}"
    return ["unpack", "packed", "out.oas"], 0, f"unpacked {2 * MOST_IN_RECORD} shots"


def runs(more):
    """A square as often as one record may give it, and some times more: 134 MB."""
    write("shots.oas", SHOTS_HEAD, shot(0, 0, 20, 20) * (MOST_IN_RECORD + more), END)
    return ["pack", "shots.oas", "packed"], 0, f"packed {MOST_IN_RECORD + more} shots in {1 + more} records"


def stripes(count):
    """One upright shot through this number of stripes of fields."""
    write("shots.oas", SHOTS_HEAD, shot(0, 0, 2, 16 * count), END)
    words = ["split", "16", "shots.oas", "out"]
    if count > 4096:
        return words, 7, f"check refused: shots.oas: {count} stripes"
    return words, 0, f"shots {count} triangles {64 * count}"


def far_apart():
    """Two squares in opposite corners of the greatest chip, in windows of 64."""
    far = (1 << 29) - 10
    gds(cell("TOP", polygon(SQUARE), box(-far - 10, -far - 10, -far, -far), box(far, far, far + 10, far + 10)))
    deck()
    return ["density", "64", "layout", "deck"], 0, "triangles 2400"


def bar_of_windows(count):
    """A bar through this number of windows of 64, each of which has a line."""
    gds(cell("TOP", box(-16 * count, 0, 16 * count, 32)))
    deck()
    return ["density", "64", "layout", "deck"], 0, f"triangles {count * 2 * 64 * 64}"


def bars_through_windows(bars, count):
    """Bars one above another, all through the same windows of 64."""
    oas(oas_cell("TOP", rectangle(-16 * count, 0, 16 * count, 1, repetition=unsigned(3, bars - 2, 2))))
    deck()
    return ["density", "64", "layout", "deck"], 0, f"triangles {bars * count * 64 * 4}"


def leftward(size, rows):
    """Squares, each in the next window to the left of the one before, and a row above it; so many rows of windows of them."""
    count = size // 2
    repetition = unsigned(8, count - 2, rows - 2) + general(-count, 1) + general(0, count)
    oas(oas_cell("TOP", rectangle((1 << 29) - 1, 0, 1 << 29, 1, repetition=repetition)))
    deck()
    return ["density", str(size), "layout", "deck"], 0, f"triangles {8 * count * rows}"


def plane_of_fields():
    """One shot, as large as may be split, through as many fields as there may be stripes of."""
    write("shots.oas", SHOTS_HEAD, shot(0, 0, 1 << 25, 1 << 24), END)
    return ["split", "4096", "shots.oas", "out"], 0, f"shots {1 << 25} triangles {1 << 50}"


def alternating(count, size, stripes):
    """Shots from the lowest stripe and from the highest in turn, as high as a stripe and somewhat wider than a field."""
    wide, half = size + 4, stripes // 2
    rows = (k // 2 % half if k % 2 == 0 else stripes - 1 - k // 2 % half for k in range(count))
    places = [(wide * (k // stripes), size * row) for k, row in enumerate(rows)]
    write("shots.oas", SHOTS_HEAD, (shot(x, y, wide, size) for x, y in places), END)
    pieces = sum((x + wide - 1) // size - x // size + 1 for x, _ in places)
    return ["split", str(size), "shots.oas", "out"], 0, f"shots {pieces} triangles {2 * count * wide * size}"


CASES = [
    ("a packed file that asks for 33,554,432 shots", False, lambda: packed(0)),
    ("a packed file that asks for one shot more", False, lambda: packed(1)),
    ("16,777,216 shots of one run", False, lambda: runs(0)),
    ("a shot more than one run may have", False, lambda: runs(1)),
    ("4,096 stripes of fields", True, lambda: stripes(4096)),
    ("4,097 stripes of fields", True, lambda: stripes(4097)),
    ("one shot through 33,554,432 fields", False, plane_of_fields),
    ("1,000,000 shots in 4,000 stripes, from the lowest and the highest in turn", False, lambda: alternating(1000000, 16, 4000)),
    ("windows of 64 over a chip of 2^31", False, far_apart),
    ("a bar through 8,388,608 windows of 64", False, lambda: bar_of_windows(1 << 23)),
    ("16 bars through 1,000,000 windows of 64", False, lambda: bars_through_windows(16, 1000000), SWIFT),
    ("32 rows of 32,768 windows, met from right to left", False, lambda: leftward(65536, 32), SWIFT),
]
