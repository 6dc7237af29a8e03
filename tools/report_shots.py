"""The shots of a file, as columns of numbers, and what is measured of them.

Sizes are half units, and areas triangles of the half grid. A shot is a tuple as in a line of `nettletide shots`:
its lowest and its highest Y, and the X of its corners, lower left, lower right, upper left, upper right.
"""
from array import array
from bisect import bisect_right
from collections import Counter
from heapq import nsmallest
from operator import add, eq, mul, sub

from nettletide_shots import ShotFile

# The thinnest shots that are told one by one.
MOST_THIN = 5
# The lower edges of the classes of a histogram, in hundredths, for each power of ten micrometres.
STEPS = (100, 150, 200, 300, 500, 700)
POWERS = range(-4, 6)
# The sizes of windows that `density` takes.
LEAST_WINDOW, GREATEST_WINDOW = 64, 1 << 24
# How many shots a window of the densest has on average.
SHOTS_A_WINDOW = 200


# ---- reading

def kept(column):
    """A column of numbers, in four bytes each where they fit, else in eight."""
    numbers = column.tolist() if hasattr(column, "tolist") else column
    try:
        return array("i", numbers)
    except OverflowError:
        return array("q", numbers)


class Shots:
    """The shots of a file, in pieces of six columns each. `unit` is half units a micrometre."""

    def __init__(self, path):
        file = ShotFile(path)
        self.unit = file.unit
        self.pieces = [tuple(map(kept, columns)) for columns in file.columns()]
        self.count = sum(len(piece[0]) for piece in self.pieces)

    def shots(self, box=None, most=None):
        """The shots whose box meets this one, or all, in their order; no more than `most`."""
        found = []
        for piece in self.pieces:
            for shot in zip(*piece):
                if box is None or meets(shot, box):
                    found.append(shot)
                    if len(found) == most:
                        return found
        return found

    def windows(self, size):
        """How many shots have their middle in each window of this size, by column and row."""
        counts = Counter()
        for y0, y1, a, b, c, d in self.pieces:
            columns = [(p + q + r + s) // (4 * size) for p, q, r, s in zip(a, b, c, d)]
            rows = [(p + q) // (2 * size) for p, q in zip(y0, y1)]
            counts.update(zip(columns, rows))
        return counts


def meets(shot, box):
    y0, y1, a, b, c, d = shot
    return y0 < box[3] and y1 > box[1] and min(a, c) < box[2] and max(b, d) > box[0]


def thickness2(shot):
    """Twice the thickness of a shot: the lesser of its height and its width halfway up."""
    y0, y1, a, b, c, d = shot
    return min(2 * (y1 - y0), b - a + d - c)


# ---- histograms

def edges(unit):
    """The lower edges of all classes: in micrometres, and the least whole number of parts that is in the class,
    where `unit` parts are a micrometre."""
    micrometres, least = [], []
    for power in POWERS:
        for step in STEPS:
            over, under = (step * 10**power, 100) if power >= 0 else (step, 100 * 10**-power)
            micrometres.append(over / under)
            least.append(-(-over * unit // under))
    return micrometres, least


class Histogram:
    """Counts by classes of size: `unit` parts are a micrometre, or a square micrometre."""

    def __init__(self, unit):
        self.lower, self.least = edges(unit)
        self.counts = Counter()

    def add(self, sizes):
        least = self.least
        self.counts.update([bisect_right(least, size) for size in sizes])

    def classes(self, most):
        """Lower edge, upper edge and count of each class from the first to the last that isn't empty. Where
        there would be more than `most`, they are wider."""
        for width in (1, 2, len(STEPS)):
            counts = Counter()
            for number, count in self.counts.items():
                counts[(number - 1) // width] += count
            first, last = min(counts), max(counts)
            if last - first < most or width == len(STEPS):
                return [(self.edge(k * width), self.edge((k + 1) * width), counts[k])
                        for k in range(first, last + 1)]

    def edge(self, number):
        if number < 0:
            return 0.0
        return self.lower[number] if number < len(self.lower) else float("inf")


# ---- measures

class Measures:
    """What is counted of a file's shots. `least` is the least width, the number of the first shot that has it,
    and the shot; `thinnest` has twice the thickness in its place."""

    def __init__(self, shots):
        self.unit = unit = shots.unit
        self.shots = shots.count
        self.triangles = self.rectangles = self.three_corners = 0
        self.box = self.least = None
        self.thicknesses = Counter()
        self.thinnest = []
        self.histograms = {"thickness": Histogram(2 * unit), "width": Histogram(2 * unit),
                           "height": Histogram(unit), "area": Histogram(2 * unit * unit)}
        first = 0
        for piece in shots.pieces:
            self.take(piece, first)
            first += len(piece[0])
        self.judge_slivers()

    def take(self, piece, first):
        y0, y1, a, b, c, d = piece
        heights, bottoms, tops = list(map(sub, y1, y0)), list(map(sub, b, a)), list(map(sub, d, c))
        sums = list(map(add, bottoms, tops))
        areas = list(map(mul, sums, heights))
        thick = list(map(min, sums, [2 * height for height in heights]))
        self.triangles += sum(areas)
        self.rectangles += sum(map(mul, map(eq, a, c), map(eq, b, d)))
        self.three_corners += bottoms.count(0) + tops.count(0)
        self.thicknesses.update(thick)
        for name, sizes in (("thickness", thick), ("width", sums), ("height", heights), ("area", areas)):
            self.histograms[name].add(sizes)
        self.take_box((min(min(a), min(c)), min(y0), max(max(b), max(d)), max(y1)))
        self.take_least([min(h, p or q, q or p) for h, p, q in zip(heights, bottoms, tops)], piece, first)
        thin = nsmallest(MOST_THIN, zip(thick, range(first, first + len(thick)), zip(*piece)))
        self.thinnest = nsmallest(MOST_THIN, self.thinnest + thin)

    def take_box(self, box):
        old = self.box or box
        self.box = min(old[0], box[0]), min(old[1], box[1]), max(old[2], box[2]), max(old[3], box[3])

    def take_least(self, widths, piece, first):
        width = min(widths)
        if self.least is None or width < self.least[0]:
            k = widths.index(width)
            self.least = width, first + k, tuple(column[k] for column in piece)

    def judge_slivers(self):
        """The median is that of the middle shot, or halfway between the two in the middle: `median4` is four
        times this thickness."""
        below, middle = 0, []
        places = ((self.shots - 1) // 2, self.shots // 2) if self.shots else ()
        for size in sorted(self.thicknesses):
            below += self.thicknesses[size]
            middle += [size for place in places[len(middle):] if place < below]
        self.median4 = sum(middle)
        self.thin = {size: count for size, count in self.thicknesses.items() if self.is_thin(size)}
        self.slivers = sum(self.thin.values())

    def is_thin(self, size2):
        """Whether a shot of this thickness, given twice, is a sliver: it is below a tenth of the median."""
        return 20 * size2 < self.median4

    def slivers_within(self, lower, upper):
        """How many slivers have a thickness from this one up to below that one, in micrometres."""
        return sum(count for size, count in self.thin.items() if lower <= size / (2 * self.unit) < upper)


# ---- windows

def round_sizes(unit):
    """1, 2, 5, 10 .. micrometres and their parts, ascending, where they are whole half units and windows."""
    sizes = []
    for power in range(-6, 7):
        for step in (1, 2, 5):
            over, under = (step * 10**power * unit, 1) if power >= 0 else (step * unit, 10**-power)
            if over % under == 0 and LEAST_WINDOW <= over // under <= GREATEST_WINDOW:
                sizes.append(over // under)
    return sizes or [1 << power for power in range(6, 25)]


def longer_side(box):
    return max(box[2] - box[0], box[3] - box[1])


def map_size(box, unit, most):
    """The least round size of windows of which at most so many are side by side over the box."""
    fitting = [size for size in round_sizes(unit) if size * (most - 1) >= longer_side(box)]
    return fitting[0] if fitting else min(GREATEST_WINDOW, -(-longer_side(box) // (most - 1)))


def fine_size(size, box, most):
    """The least size of which a whole number are as long as a window of this size, and at most so many are side
    by side over the box."""
    for parts in (40, 32, 25, 20, 16, 10, 8, 5, 4, 2):
        part = size // parts
        if size % parts == 0 and part >= LEAST_WINDOW and part * (most - 1) >= longer_side(box):
            return part
    return size


def window_box(column, row, size):
    return column * size, row * size, (column + 1) * size, (row + 1) * size


def densest(counts):
    """Column and row of the window with most, the lowest and then the leftmost of such, and what it has."""
    (column, row), count = min(counts.items(), key=lambda item: (-item[1], item[0][1], item[0][0]))
    return column, row, count


def densest_window(shots, box, most):
    """The window with most shots: its size, column, row, and how many shots have their middle there. Its size is
    round, a quarter of the whole or less, and smaller where windows would have more than 200 shots on average, or
    one more than half of `most`."""
    sizes = [size for size in round_sizes(shots.unit) if 4 * size <= longer_side(box)] or [LEAST_WINDOW]
    wanted = SHOTS_A_WINDOW * (box[2] - box[0]) * (box[3] - box[1]) // shots.count
    number = max((k for k, size in enumerate(sizes) if size * size <= wanted), default=0)
    while True:
        column, row, count = densest(shots.windows(sizes[number]))
        if count <= most // 2 or number == 0:
            return sizes[number], column, row, count
        number -= 1
