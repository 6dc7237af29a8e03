"""Shows a layout and shots side by side in KLayout; tools/view runs it, and says what the words are.

Each panel after the layout has shots in the layout's scale, and above it the numbers that the report of
`fracture` has, as KLayout counts them in the files: how many shots, and their area in triangles of the half
grid. Panels are in rows.
"""
import pya

# A panel of more files than this has one line, with their sums.
MOST_LINES = 4
# As wide as a picture is, in pixels, and about as wide as a letter above a panel.
PAGE, LETTER = 1600, 8
COLOURS = [0x1F77B4, 0xD62728, 0x2CA02C, 0x9467BD, 0xFF7F0E, 0x17BECF]


def deck_lines(name):
    with open(name) as lines:
        return [line.split() for line in lines if line.split() and line.split()[0][0] != "#"]


def panels_of(words, deck):
    """The files of each panel: those that were asked for, else each output of the deck."""
    if not words:
        return [[line[2]] for line in deck if line[0] == "write"]
    panels = [[]]
    for word in words:
        if word == "--":
            panels.append([])
        else:
            panels[-1].append(word)
    return panels


def numbers(layout):
    """How many shots a file has, and how many triangles of the half grid they have in all."""
    shots = triangles = 0
    for index in layout.layer_indexes():
        shapes = layout.top_cell().begin_shapes_rec(index)
        while not shapes.at_end():
            triangles += shapes.shape().polygon.area2()
            shots += 1
            shapes.next()
    return shots, triangles


def show(view, layers):
    """Shows these layers: source, colour, and the move of each in micrometres."""
    view.clear_layers()
    for source, colour, move in layers:
        layer = pya.LayerPropertiesNode()
        layer.source = source
        layer.trans = [pya.DCplxTrans(1.0, 0.0, False, move.x, move.y)]
        layer.fill_color = layer.frame_color = colour
        layer.dither_pattern = 3
        view.insert_layer(view.end_layers(), layer)
    view.update_content()


class Grid:
    """Where panels are: in rows, so that all together are about as wide as high; lines are said above each."""

    def __init__(self, box, count, lines):
        self.columns = next(k for k in range(1, count + 1) if k * box.width() >= -(-count // k) * box.height() or k == count)
        self.line = 0.05 * box.width()
        self.step = pya.DVector(1.15 * box.width(), -(box.height() + (lines + 1.5) * self.line))
        self.most = int(PAGE / self.columns / 1.15 / LETTER)

    def move(self, place):
        return pya.DVector(self.step.x * (place % self.columns), self.step.y * (place // self.columns))

    def fitted(self, text):
        """The text, with its middle left out where it is wider than a panel."""
        return text if len(text) <= self.most else text[:self.most // 3] + ".." + text[len(text) - 2 * self.most // 3 + 2:]


def label(view, x, y, text):
    note = pya.Annotation()
    note.p1 = note.p2 = pya.DPoint(x, y)
    note.style = pya.Annotation.StyleLine
    note.fmt, note.fmt_x, note.fmt_y = text, "", ""
    view.insert_annotation(note)


def load(view, name):
    """Opens a file beside those that are open; gives its number and its layout."""
    number = view.load_layout(name, True)
    return number, view.cellview(number).layout()


def load_layout(view, name, deck):
    """Opens the layout at the deck's top cell; gives the layers that the deck takes, and their box in micrometres."""
    number, layout = load(view, name)
    top = [line[1] for line in deck if line[0] == "top"][0]
    view.cellview(number).cell = layout.cell(top)
    layers, box = [], pya.DBox()
    for pair in dict.fromkeys((int(line[2]), int(line[3])) for line in deck if line[0] == "layer"):
        layers.append((f"{pair[0]}/{pair[1]}@{number + 1}", COLOURS[len(layers) % len(COLOURS)], pya.DVector()))
        index = layout.find_layer(*pair)
        if index is not None:
            box += layout.cell(top).dbbox_per_layer(index)
    return layers, box


def load_panel(view, names, move, first):
    """Opens shots of some files; gives their layers, their box, and what is said of them."""
    layers, box, said, sums = [], pya.DBox(), [], [0, 0]
    for k, name in enumerate(names):
        number, layout = load(view, name)
        box += layout.top_cell().dbbox()
        for info in layout.layer_infos():
            source = f"{info.layer}/{info.datatype}@{number + 1}"
            layers.append((source, COLOURS[(first + k) % len(COLOURS)], move))
        shots, triangles = numbers(layout)
        said.append(f"output {name} shots {shots} triangles {triangles}")
        sums = [sums[0] + shots, sums[1] + triangles]
    if len(names) > MOST_LINES:
        said = [f"{len(names)} files shots {sums[0]} triangles {sums[1]}"]
    return layers, box.moved(move), said


def fill(view, layout_name, deck_name, words):
    """Fills the view, and gives the box of all."""
    deck = deck_lines(deck_name)
    layers, box = load_layout(view, layout_name, deck)
    panels, first = panels_of(words, deck), 0
    grid = Grid(box, 1 + len(panels), max([1, *(len(names) for names in panels if len(names) <= MOST_LINES)]))
    whole = box + pya.DPoint(box.left, box.top + 2 * grid.line)
    label(view, box.left, box.top + grid.line, grid.fitted(layout_name))
    for place, names in enumerate(panels, 1):
        move = grid.move(place)
        some, shots, said = load_panel(view, names, move, first)
        layers += some
        first += len(names)
        for row, line in enumerate(reversed(said), 1):
            label(view, box.left + move.x, box.top + move.y + row * grid.line, grid.fitted(line))
        print("\n".join(said))
        whole += shots + pya.DPoint(box.left + move.x, box.top + move.y + (len(said) + 1) * grid.line) + box.moved(move)
    show(view, layers)
    return whole


def main():
    window = pya.Application.instance().main_window()
    window.create_view()
    view = window.current_view()
    for name, value in (("background-color", "#ffffff"), ("grid-visible", "false"), ("text-visible", "false")):
        view.set_config(name, value)
    whole = fill(view, layout, deck, [word for word in shots.split("\n") if word])
    view.max_hier()
    view.zoom_box(whole.enlarged(0.02 * whole.width(), 0.02 * whole.height()))
    if picture:
        view.save_image(picture, 1600, max(200, int(1600 * whole.height() / max(whole.width(), 1e-9))))


main()
