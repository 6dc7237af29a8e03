"""Records of GDSII, OASIS and shot files, for the layouts of this folder. Lengths are grid steps, in shot files half units."""
import os
import sys

sys.path.insert(0, os.path.join(os.path.dirname(os.path.abspath(__file__)), "..", "..", "tools"))
from layout_bytes import (END, GDS_END, MAGIC, gds_boundary, gds_box, gds_cell, gds_head, gds_name, gds_placement, gds_record,
                          general, grid, oasis_cell, oasis_head, oasis_placement, oasis_polygon, oasis_rectangle, point_list,
                          shot_record, shots_head, signed, text, unsigned)  # noqa: E402,F401

# The fourth field of a case that should be answered within 5 seconds and 256 MB: bytes of address space and seconds of the
# processor that it may take. There is room for a machine that is four times as slow, and for twice the memory; with LEAN there
# is none for memory. A case without the field has the limits of run.py.
SWIFT = (512 << 20, 20)
LEAN = (256 << 20, 20)

SQUARE = [(0, 0), (0, 10), (10, 10), (10, 0)]
SQUARE_LINE = "output out.oas shots 1 triangles 800"

# The cases' short names: those of GDSII first, `oas_` before a name that both formats have.
record, padded, cell, polygon, box = gds_record, gds_name, gds_cell, gds_boundary, gds_box
oas_cell = oasis_cell
GDS_HEAD, OAS_HEAD, SHOTS_HEAD = gds_head(), oasis_head(), shots_head()


def place(name, x=0, y=0):
    return gds_placement(name, [(x, y)])


def array(name, columns, rows, dx, dy):
    return gds_placement(name, [(0, 0), (columns * dx, 0), (0, rows * dy)], size=(columns, rows))


def rectangle(x0, y0, x1, y1, layer=1, repetition=b""):
    """An OASIS rectangle; with a repetition, which is given as its bytes, the record has it."""
    return oasis_rectangle(x0, y0, x1, y1, layer, 0, repetition)


def shot(x, y, width, height):
    return shot_record(y, y + height, x, x + width, x, x + width)


def trapezoid(y0, y1, a, b, c, d):
    """A shot by its two Y, the two X of its lower side, and those of its upper one."""
    return shot_record(y0, y1, a, b, c, d)


# ---- files

DECK = "unit 1000\ntop TOP\nlayer A 1 0\nwrite A out.oas 1 0\n"


def write(name, *pieces):
    """Writes a file of these pieces of bytes, or of iterables of such."""
    with open(name, "wb") as file:
        for piece in pieces:
            if isinstance(piece, bytes):
                file.write(piece)
            else:
                file.writelines(piece)


def gds(*pieces):
    write("layout", GDS_HEAD, *pieces, GDS_END)


def oas(*pieces):
    write("layout", OAS_HEAD, *pieces, END)


def deck(*lines):
    """The deck with these lines in place of its last two."""
    with open("deck", "w") as file:
        file.write("\n".join(["unit 1000", "top TOP", *lines]) + "\n" if lines else DECK)
