"""Counts KLayout's trapezoids of the area of a shot file: klayout -b -rd shots=FILE -r measure/trapezoids.py

KLayout reads the shots, unites them, and cuts the union into trapezoids in its two ways: with level sides, and with upright
ones. Printed are how many there are of each, or that their area isn't that of the shots.
"""
import pya


def doubled_area(region):
    return sum(polygon.area2() for polygon in region.each())


layout = pya.Layout()
layout.read(shots)
given = pya.Region(layout.top_cell().begin_shapes_rec(layout.layer_indexes()[0]))
given.merged_semantics = False
united = given.merged()
counts = []
for way in (pya.Polygon.TD_htrapezoids, pya.Polygon.TD_vtrapezoids):
    cut = united.decompose_trapezoids_to_region(way)
    cut.merged_semantics = False
    counts.append(cut.count() if doubled_area(cut) == doubled_area(given) else None)
print("the areas differ" if None in counts else "level %d upright %d" % tuple(counts))
