"""Writes a layout that Nettletide reads, by KLayout; tools/adapt runs it, and says what the words are."""
from fractions import Fraction

import pya


def is_octilinear(a, b):
    dx, dy = abs(b.x - a.x), abs(b.y - a.y)
    return dx == 0 or dy == 0 or dx == dy


def is_plain_path(path):
    """Whether a path is read as it is: level and upright pieces, and ends that aren't round."""
    points = [point for point in path.each_point()]
    return not path.is_round() and all(a.x == b.x or a.y == b.y for a, b in zip(points, points[1:]))


def between(a, b, most):
    """The points from a to b by level, upright and 45 degree pieces, less than `most` away from the straight line."""
    if is_octilinear(a, b):
        return [b]
    count = int(max(abs(b.x - a.x), abs(b.y - a.y)) // most) + 1
    points, at = [], a
    for k in range(1, count + 1):
        to = pya.Point(a.x + (b.x - a.x) * k // count, a.y + (b.y - a.y) * k // count)
        dx, dy = to.x - at.x, to.y - at.y
        both = min(abs(dx), abs(dy))
        points += [at + pya.Vector(both if dx > 0 else -both, both if dy > 0 else -both), to]
        at = to
    return points


def snapped(polygon, most):
    """The polygon with its other edges in steps; its holes are joined to its outline first."""
    corners = [point for point in polygon.resolved_holes().each_point_hull()]
    points = [point for a, b in zip(corners, corners[1:] + corners[:1]) for point in between(a, b, most)]
    return pya.Polygon(points, True)


def has_other_angles(polygon):
    return any(not is_octilinear(edge.p1, edge.p2) for edge in polygon.each_edge())


def adapt_shapes(cell, index, other, most, counts):
    """Paths that can't be read become polygons, and edges at other angles steps, or their polygons go to another layer."""
    for shape in [shape for shape in cell.shapes(index).each()]:
        if shape.is_path() and not is_plain_path(shape.path):
            shape = cell.shapes(index).replace(shape, shape.path.polygon())
            counts["paths made polygons"] += 1
        if shape.is_polygon() and has_other_angles(shape.polygon):
            if most > 0:
                cell.shapes(index).replace(shape, snapped(shape.polygon, most))
                counts["polygons given steps"] += 1
            else:
                cell.shapes(other).insert(shape.polygon)
                cell.shapes(index).erase(shape)
                counts["polygons put on another datatype"] += 1


def is_plain_reference(reference):
    """Whether a reference is read as it is: a quarter turn, and a magnification from 1 to 16."""
    move = reference.cplx_trans
    is_whole = 1 <= round(move.mag) <= 16 and abs(move.mag - round(move.mag)) < 1e-9
    return is_whole and abs(move.angle - round(move.angle / 90.0) * 90.0) < 1e-9


def moves_of(reference):
    """How each copy of an array, or the one of a single reference, is placed."""
    for column in range(max(1, reference.na)):
        for row in range(max(1, reference.nb)):
            yield pya.ICplxTrans(reference.a * column + reference.b * row) * reference.cplx_trans


def copy_shapes(layout, cell, child, moves):
    """Puts all that the child and the cells below it have into the cell."""
    for index in layout.layer_indexes():
        for move in moves:
            shapes = child.begin_shapes_rec(index)
            while not shapes.at_end():
                cell.shapes(index).insert(shapes.shape(), move * shapes.trans())
                shapes.next()


def adapt_references(layout, counts):
    """Other references are made shapes, with all that they place."""
    for index in [index for index in layout.each_cell_bottom_up()]:
        cell = layout.cell(index)
        others = [reference for reference in cell.each_inst() if not is_plain_reference(reference)]
        for reference in others:
            copy_shapes(layout, cell, reference.cell, list(moves_of(reference)))
        for reference in others:
            reference.delete()
        counts["references made shapes"] += len(others)


def scale(layout, micrometres):
    """Scales all cells to another grid, so that lengths in micrometres stay; says whether they are rounded."""
    factor = Fraction(str(round(layout.dbu, 12))) / micrometres
    above = layout.create_cell("ABOVE")
    for cell in layout.top_cells():
        if cell.cell_index() != above.cell_index():
            above.insert(pya.CellInstArray(cell.cell_index(), pya.Trans()))
    layout.scale_and_snap(above, 1, factor.numerator, factor.denominator)
    layout.delete_cell(above.cell_index())
    layout.dbu = float(micrometres)
    print(f"scaled by {factor}" + ("" if factor.denominator == 1 else ", and rounded"))


def main():
    layout, counts = pya.Layout(True), dict.fromkeys(
        ("references made shapes", "paths made polygons", "polygons given steps", "polygons put on another datatype"), 0)
    layout.read(source)
    if grid:
        scale(layout, Fraction(grid))
    adapt_references(layout, counts)
    for index in layout.layer_indexes():
        info = layout.get_info(index)
        other = layout.layer(info.layer, info.datatype + int(elsewhere)) if int(step) == 0 else index
        for cell in layout.each_cell():
            adapt_shapes(cell, index, other, int(step), counts)
    options = pya.SaveLayoutOptions()
    options.set_format_from_filename(out)
    options.gds2_max_vertex_count = 8000
    options.gds2_multi_xy_records = False
    options.oasis_write_cblocks = False
    layout.write(out, options)
    for what, count in counts.items():
        print(f"{count} {what}")


main()
