"""Judges shot files by KLayout's own operations; tests/klayout.sh runs it inside KLayout.

    klayout -b -rd cases=FILE -rd stripe=SIZE -r tests/klayout.py

Each line of FILE names a folder, a layout and a deck in it, whose outputs are in the folder. For each output KLayout
reads the layout and works out the area of the deck on doubled coordinates, and reads the shots. Asked is that both areas
are the same, that the shots' areas add up to it (so no two overlap), that `report`, what `fracture` printed, counts both
right, and that each file that packs the shots or splits them into stripes, OUT.packed and OUT.0, OUT.1, .., holds the same
area once, the stripes with rows of SIZE half units each.

A path is taken as its rectangles, half the width round each corner, since KLayout draws the outline of a path with short
pieces otherwise. Of KLayout's own are the reading, the flattening, the merging by the nonzero rule, all operations and areas.
"""
import os
import pya

DOUBLE = pya.ICplxTrans(2.0)


def path_boxes(path):
    """The rectangles of a path on doubled coordinates."""
    points = [point for point in path.each_point()]
    points = [point for k, point in enumerate(points) if k == 0 or point != points[k - 1]]
    half = path.width
    for k, (a, b) in enumerate(zip(points, points[1:])):
        first = 2 * path.bgn_ext if k == 0 else half
        last = 2 * path.end_ext if k + 2 == len(points) else half
        dx, dy = (b.x > a.x) - (b.x < a.x), (b.y > a.y) - (b.y < a.y)
        box = pya.Box(2 * a.x - first * dx, 2 * a.y - first * dy, 2 * b.x + last * dx, 2 * b.y + last * dy)
        yield pya.Polygon(box.enlarged(half * abs(dy), half * abs(dx)))


def polygons_of(shapes):
    """The polygons that a cell has on a layer, with all that it places, on doubled coordinates."""
    while not shapes.at_end():
        shape = shapes.shape()
        if shape.is_path():
            yield from path_boxes(shape.path.transformed(shapes.itrans()))
        elif shape.is_polygon() or shape.is_box():
            yield shape.polygon.transformed(shapes.itrans()).transformed(DOUBLE)
        shapes.next()


def layer_area(layout, top, layer, datatype):
    index = layout.find_layer(layer, datatype)
    area = pya.Region()
    if index is None:
        return area
    for polygon in polygons_of(layout.cell(top).begin_shapes_rec(index)):
        for part in pya.EdgeProcessor().simple_merge_p2p([polygon], False, True, -1):
            area.insert(part)
    return area.merged()


def grown(area, dx, dy):
    return area.minkowski_sum(pya.Box(-dx, -dy, dx, dy)).merged()


def shrunk(area, dx, dy):
    around = pya.Region(area.bbox().enlarged(2 * dx + 2, 2 * dy + 2))
    return area - grown(around - area, dx, dy)


def step_area(kind, words, areas, frame):
    """The area of a definition, by those of the definitions before it."""
    first = areas[words[0]]
    if kind in ("or", "and", "sub", "xor"):
        second = areas[words[1]]
        return {"or": first | second, "and": first & second, "sub": first - second, "xor": first ^ second}[kind].merged()
    if kind in ("grow", "shrink"):
        sides = [int(word) for word in words[1:]]
        return (grown if kind == "grow" else shrunk)(area=first, dx=sides[0], dy=sides[-1])
    if kind == "invert":
        return (pya.Region(frame) - first).merged()
    return first.transformed(pya.Trans(pya.Trans.M90, 2 * int(words[1]), 0))


def areas_of(layout, deck):
    """The area, the file, the layer and the datatype of each output."""
    areas, outputs, top, frame = {}, [], None, None
    for kind, *words in (line.split() for line in deck if line.split() and line.split()[0][0] != "#"):
        if kind == "top":
            top = words[0]
        elif kind == "frame":
            frame = pya.Box(*(int(word) for word in words))
        elif kind == "layer":
            areas[words[0]] = layer_area(layout, top, int(words[1]), int(words[2]))
        elif kind == "write":
            outputs.append((areas[words[0]], words[1], int(words[2]), int(words[3])))
        elif kind not in ("unit", "band", "limits"):
            areas[words[0]] = step_area(kind, words[1:], areas, frame)
    return outputs


def read(name):
    layout = pya.Layout()
    layout.read(name)
    return layout


def shots_of(name, layer, datatype):
    """The shots of a file, none merged with another."""
    layout = read(name)
    shots = pya.Region()
    shots.merged_semantics = False
    index = layout.find_layer(layer, datatype)
    if index is not None:
        shots.insert(layout.top_cell().begin_shapes_rec(index))
    return shots.flatten()


def triangles(region):
    return sum(polygon.area2() for polygon in region.each())


def fault(area, shots):
    """What is wrong with shots of an area, or nothing."""
    merged = shots.merged()
    if not (merged ^ area).is_empty():
        return f"they differ from the area at {(merged ^ area).bbox()}"
    if triangles(shots) != triangles(merged):
        return f"they have {triangles(shots)} triangles, and {triangles(merged)} where they are merged"
    return None


def stripe_fault(shots, number, size):
    """What is wrong with a stripe's shots: one that isn't in the stripe, or crosses a field's line."""
    for shot in shots.each():
        box = shot.bbox()
        if box.bottom < number * size or box.top > (number + 1) * size or box.left // size != (box.right - 1) // size:
            return f"stripe {number}: a shot with the box {box}"
    return None


def stripe_faults(folder, name, layer, datatype, size):
    """The shots of all stripes of a file, and what is wrong with one of them."""
    shots, faults = pya.Region(), []
    shots.merged_semantics = False
    for file in os.listdir(folder):
        number = file[len(name) + 1:]
        if file.startswith(name + ".") and number.lstrip("-").isdigit():
            some = shots_of(os.path.join(folder, file), layer, datatype)
            faults.append(stripe_fault(some, int(number), size))
            shots.insert(some)
    return shots, [it for it in faults if it]


def files_of(folder, name, layer, datatype, size):
    """The shots of an output's files by what they are, and what is wrong with some file."""
    path = os.path.join(folder, name)
    files, faults = {name: shots_of(path, layer, datatype)}, []
    if os.path.exists(path + ".packed"):
        files[name + ".packed"] = shots_of(path + ".packed", layer, datatype)
        if files[name + ".packed"].count() != files[name].count():
            faults.append(f"{name}.packed: {files[name + '.packed'].count()} shots in place of {files[name].count()}")
    if os.path.exists(path + ".split"):
        files[name + " in stripes"], found = stripe_faults(folder, name, layer, datatype, size)
        faults += [f"{name}: {it}" for it in found]
    return files, faults


def judge(folder, layout, deck, size):
    """What is wrong with the files of a folder, and how many files were looked at."""
    with open(os.path.join(folder, deck)) as lines:
        outputs = areas_of(read(os.path.join(folder, layout)), lines.readlines())
    with open(os.path.join(folder, "report")) as lines:
        report = [line.strip() for line in lines]
    faults, count = [], 0
    for area, name, layer, datatype in outputs:
        files, found = files_of(folder, name, layer, datatype, size)
        line = f"output {name} shots {files[name].count()} triangles {triangles(area)}"
        faults += found + ([] if line in report else [f"{name}: the report hasn't the line {line}"])
        faults += [f"{what}: {fault(area, shots)}" for what, shots in files.items() if fault(area, shots)]
        count += len(files)
    return faults, count


def main(names, size):
    failed = files = 0
    with open(names) as lines:
        folders = [line.split() for line in lines]
    for folder, layout, deck in folders:
        faults, count = judge(folder, layout, deck, size)
        files += count
        failed += bool(faults)
        for it in faults:
            print(f"FAILED: {folder}/{deck}: {it}")
    print(f"KLayout {pya.Application.instance().version().split()[-1]}: {len(folders)} decks, {files} files, {failed} failed")


# Where another script of this folder imports it, it only has the functions.
if "cases" in globals():
    main(cases, int(stripe))
