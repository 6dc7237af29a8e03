"""A peer of the program: klayout -b -rd how=flat|deep -rd source=LAYOUT -rd out=OUT -r tests/peer/klayout.py

KLayout reads layer 1, datatype 0 of the cell TOP, unites it, flat or with its hierarchy kept, cuts the union into trapezoids
with level sides, and writes them to OUT as OASIS. Printed are the processor's seconds of reading, of the sweep and of
writing, the system's part included, and how many trapezoids there are; where the hierarchy is kept, those of each cell once.
"""
import time
import pya


def swept(layout, index):
    """The trapezoids of the layer, one thread."""
    shapes = layout.cell("TOP").begin_shapes_rec(index)
    if how == "flat":
        store, area = None, pya.Region(shapes)
    else:
        store = pya.DeepShapeStore()
        store.threads = 1
        area = pya.Region(shapes, store)
    return store, area.merged().decompose_trapezoids_to_region(pya.Polygon.TD_htrapezoids)


def main():
    start = time.process_time()
    layout = pya.Layout()
    layout.read(source)
    read = time.process_time()
    store, shots = swept(layout, layout.find_layer(1, 0))
    count = shots.hier_count()
    end = time.process_time()
    written = pya.Layout()
    written.dbu = layout.dbu
    top = written.create_cell("TOP")
    shots.insert_into(written, top.cell_index(), written.layer(1, 0))
    options = pya.SaveLayoutOptions()
    options.format = "OASIS"
    written.write(out, options)
    print("read %.3f sweep %.3f write %.3f trapezoids %d" % (read - start, end - read, time.process_time() - end, count))


main()
