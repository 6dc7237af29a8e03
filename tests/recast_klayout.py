"""Makes shots by KLayout, and saves shot files by it; tests/recast.sh runs it inside KLayout.

    klayout -b -rd list=FILE -r tests/recast_klayout.py

Each line of FILE names a folder, and a layout and a deck in it, whose outputs are there. For each output OUT
the area is cut into trapezoids by KLayout, with either of its ways to do that, as OUT.simple.oas and
OUT.level.gds; and OUT itself is read and saved with KLayout's own options, as OUT.saved.oas and
OUT.saved.gds.
"""
import os
import sys

import pya

sys.path.insert(0, os.path.dirname(os.path.abspath(__file__)))
from klayout import areas_of, read


def write(region, name, layer, datatype):
    layout = pya.Layout()
    layout.dbu = 0.0005
    layout.create_cell("SHOTS").shapes(layout.layer(layer, datatype)).insert(region)
    layout.write(name)


def make(folder, layout, deck):
    with open(os.path.join(folder, deck)) as lines:
        outputs = areas_of(read(os.path.join(folder, layout)), lines.readlines())
    for area, name, layer, datatype in outputs:
        path = os.path.join(folder, name)
        area = area.merged()
        write(area.decompose_trapezoids_to_region(pya.Polygon.TD_simple), path + ".simple.oas", layer, datatype)
        write(area.decompose_trapezoids_to_region(pya.Polygon.TD_htrapezoids), path + ".level.gds", layer, datatype)
        for ending in (".saved.oas", ".saved.gds"):
            read(path).write(path + ending)


with open(list) as lines:
    for folder, layout, deck in (line.split() for line in lines):
        make(folder, layout, deck)
