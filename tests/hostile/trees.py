"""Cells in chains, cycles and piles, and numbers of shapes at the limit."""
from records import *

MOST = 1 << 40


def accepted(*pieces):
    gds(*pieces)
    deck()
    return ["fracture", "layout", "deck"], 0, SQUARE_LINE


def refused(line, *pieces):
    gds(*pieces)
    deck()
    return ["fracture", "layout", "deck"], 3, line


def chain(count):
    """Cells each of which places the next; the last has the square."""
    names = ["TOP"] + ["C%d" % k for k in range(1, count)]
    for name, below in zip(names, names[1:]):
        yield cell(name, place(below))
    yield cell(names[-1], polygon(SQUARE))


def chains(count, depth, deeper=0):
    """TOP places this number of chains; the last cell of each has a square. With TOP each is so deep, the last one deeper by
    some cells."""
    yield cell("TOP", *(place("C%d.1" % k) for k in range(count)))
    for k in range(count):
        below = depth - 1 + (deeper if k == count - 1 else 0)
        for level in range(1, below):
            yield cell("C%d.%d" % (k, level), place("C%d.%d" % (k, level + 1)))
        yield cell("C%d.%d" % (k, below), polygon(SQUARE))


def shared(count):
    """A cell that many others place, each of which TOP places, a step further."""
    yield cell("LEAF", polygon(SQUARE))
    for k in range(count):
        yield cell("C%d" % k, place("LEAF", 20 * (k % 1000), 20 * (k // 1000)))
    yield cell("TOP", *(place("C%d" % k) for k in range(count)))


def many_shared(count):
    gds(shared(count))
    deck()
    return ["fracture", "layout", "deck"], 0, f"output out.oas shots {count} triangles {800 * count}"


def pairs(count):
    """A cell with a square on each of so many layers, and as many cells that place it, each a step further, which TOP places."""
    names = ["C%d" % k for k in range(count)]
    gds(cell("LEAF", *(box(0, 0, 10, 10, layer) for layer in range(1, count + 1))),
        (cell(name, place("LEAF", 20 * k)) for k, name in enumerate(names)), cell("TOP", *map(place, names)))
    deck()
    return ["fracture", "layout", "deck"], 0, f"output out.oas shots {count} triangles {800 * count}"


def nested(more):
    """2^40 squares by two arrays, and some more."""
    yield cell("LEAF", polygon(SQUARE)) + cell("MIDDLE", array("LEAF", 1024, 1024, 1, 1))
    yield cell("TOP", array("MIDDLE", 1024, 1024, 1, 1), *[polygon(SQUARE)] * more, box(0, 0, 10, 10, 2))


def most_nested():
    """2^40 shapes on a layer that isn't written, and a square on another."""
    gds(nested(0))
    deck("layer A 1 0", "layer B 2 0", "write B out.oas 1 0")
    return ["fracture", "layout", "deck"], 3, f"layout refused: count TOP {MOST + 1}"


def most():
    """The same without the square on the other layer, which would be one more."""
    gds(cell("LEAF", polygon(SQUARE)), cell("MIDDLE", array("LEAF", 1024, 1024, 1, 1)), cell("TOP", array("MIDDLE", 1024, 1024, 1, 1)))
    deck("layer A 1 0", "layer B 2 0", "write B out.oas 1 0")
    return ["fracture", "layout", "deck"], 0, "output out.oas shots 0 triangles 0"


def doubled(levels, more=0):
    """Cells each of which places the next twice: 2^levels squares, and some more on another layer."""
    names = ["TOP"] + ["C%d" % k for k in range(1, levels)] + ["LEAF"]
    for name, below in zip(names, names[1:]):
        yield cell(name, place(below), place(below, 20), *[box(0, 0, 10, 10, 2)] * (more if name == "TOP" else 0))
    yield cell("LEAF", polygon(SQUARE))


def most_doubled(more):
    """2^40 shapes on a layer that isn't written, and some more on another that is: the limit counts both."""
    gds(doubled(40, more))
    deck("layer A 1 0", "layer B 2 0", "write B out.oas 1 0")
    words = ["fracture", "layout", "deck"]
    return (words, 3, f"layout refused: count TOP {MOST + more}") if more else (words, 0, "output out.oas shots 0 triangles 0")


def cycle(count):
    names = ["TOP"] + ["C%d" % k for k in range(1, count)]
    for name, below in zip(names, names[1:] + ["TOP"]):
        yield cell(name, place(below))


def nearly_alike(count):
    """Cells whose names differ in their last bytes alone, each placed once: of the last of them nothing is in the file."""
    names = ["N" * 1000 + "%06d" % k for k in range(count)]
    return cell("TOP", *map(place, names)), (cell(name) for name in names[:-1])


def unknown(count):
    """The last of many placements is of no cell."""
    yield cell("LEAF", polygon(SQUARE))
    yield cell("TOP", *(place("LEAF") for _ in range(count)), place("NONE"))


CASES = [
    ("a chain of 64 cells", True, lambda: accepted(chain(64))),
    ("a chain of 65 cells", True, lambda: refused("layout refused: deep TOP " + " ".join("C%d" % k for k in range(1, 65)), chain(65))),
    ("a chain of 100,000 cells", True, lambda: refused("layout refused: deep TOP C1 ..", chain(100000))),
    ("1,600 chains of 64 cells", True, lambda: accepted(chains(1600, 64))),
    ("1,600 chains, of which all but the last have 64 cells, and it 65", True,
     lambda: refused("layout refused: deep TOP " + " ".join("C1599.%d" % k for k in range(1, 65)), chains(1600, 64, 1))),
    ("1,600 chains of 65 cells", True, lambda: refused("layout refused: deep TOP C..", chains(1600, 65))),
    ("a cell placed by 100,000 others", False, lambda: many_shared(100000)),
    ("1,000 cells that place one with shapes on 1,000 layers", True, lambda: pairs(1000), SWIFT),
    ("2^40 shapes", True, most),
    ("2^40 shapes and one more, by arrays", True, most_nested),
    ("2^40 shapes, by placing each cell twice", True, lambda: most_doubled(0)),
    ("2^40 shapes and one more, by placing each cell twice", True, lambda: most_doubled(1)),
    ("2^60 shapes, by placing each cell twice", True, lambda: refused(f"layout refused: count C19 {MOST * 2}", doubled(60))),
    ("a cycle of two cells", True, lambda: refused("layout refused: cycle ..", cycle(2))),
    ("a cycle of 100,000 cells", False, lambda: refused("layout refused: cycle ..", cycle(100000))),
    ("50,000 placements of cells of 1,006 bytes, of which the last is of no cell", False,
     lambda: refused("layout refused: cell TOP places unknown N..", *nearly_alike(50000))),
    ("a million placements, of which the last is of no cell", False,
     lambda: refused("layout refused: cell TOP places unknown NONE", unknown(1000000))),
]
