"""Pictures of shots and of windows, as SVG that stands in a page.

Y goes down in SVG, so a point (x, y) of the half grid is drawn at (x - left, top - y), left and top being those
of the view. Colours are classes of the page: shot, sliver, ink (of windows, by its opacity), mark, field, wrong.
"""
import base64
import struct
import zlib

from report_shots import densest, window_box
from report_text import counted, grouped, length, plain, share, shown

# How narrow and how wide a picture may be, as width over height.
NARROWEST, WIDEST = 0.9, 2.6
# The colour of a picture by points, in how many strengths it is drawn, and the weakest of them.
INK = (44, 103, 178)
STRENGTHS, WEAKEST = 64, 16
# The percentages that the full colour of a map of covered area stands for: the least that no window is above.
FULL_COLOURS = (1, 2, 5, 10, 20, 50, 100)


class View:
    """The part of the plane that a picture shows, in half units: the box, and a rim by its longer side."""

    def __init__(self, box, unit, rim=0.03):
        x0, y0, x1, y1 = box
        rim = max(1, int(rim * max(x1 - x0, y1 - y0)))
        wide, high = x1 - x0 + 2 * rim, y1 - y0 + 2 * rim
        more_wide, more_high = max(0, int(NARROWEST * high) - wide), max(0, int(wide / WIDEST) - high)
        self.left, self.top = x0 - rim - more_wide // 2, y1 + rim + more_high // 2
        self.wide, self.high, self.unit = wide + more_wide, high + more_high, unit

    def bar(self):
        """The greatest of 1, 2, 5, 10, .. micrometres and their parts that takes at most a third of the width: how
        much of the width it takes, and what it is in words."""
        steps = [step * 10.0**power for power in range(-6, 8) for step in (1, 2, 5)]
        fitting = [step for step in steps if 3 * step * self.unit <= self.wide] or steps[:1]
        return fitting[-1] * self.unit / self.wide, plain(f"{fitting[-1]:,.6f}") + " µm"

    def svg(self, parts, label):
        """The picture of these parts; the page's script reads what the data attributes say."""
        return (f'<svg xmlns="http://www.w3.org/2000/svg" role="img" aria-label="{label}" tabindex="0" '
                f'viewBox="0 0 {self.wide} {self.high}" data-left="{self.left}" data-top="{self.top}" '
                f'data-unit="{self.unit}">{"".join(parts)}</svg>')


# ---- shots

def outline(view, shot):
    """The corners of a shot, as moves from the lower left one."""
    y0, y1, a, b, c, d = shot
    right = f"v{y0 - y1}" if b == d else f"l{d - b} {y0 - y1}"
    return f"M{a - view.left} {view.top - y0}h{b - a}{right}h{c - d}z"


def outlines(view, output, shots):
    """The shots as one path, and the slivers among them as another over it."""
    thin = [shot for shot in shots if output.is_sliver(shot)]
    return [f'<path class="{name}" d="{"".join(outline(view, shot) for shot in some)}"/>'
            for name, some in (("shot", shots), ("sliver", thin)) if some]


def frame(view, box, name):
    x0, y0, x1, y1 = box
    corner = f'x="{x0 - view.left}" y="{view.top - y1}"'
    return f'<rect class="{name}" {corner} width="{x1 - x0}" height="{y1 - y0}"/>'


def cross(view, x, y):
    arm = max(1, view.wide // 40)
    x, y = x - view.left, view.top - y
    lines = f"M{x - arm} {y - arm}l{2 * arm} {2 * arm}M{x - arm} {y + arm}l{2 * arm} {-2 * arm}"
    return f'<path class="wrong" d="{lines}"/>'


# ---- windows

def squares(view, counts, size, full, words):
    """A square for each window, coloured fully where it has `full`; `words` says what a window has."""
    parts = []
    for (column, row), count in sorted(counts.items()):
        corner = f'x="{column * size - view.left}" y="{view.top - (row + 1) * size}"'
        opacity = plain(f"{max(min(count / full, 1), 0.03):.2f}")
        title = f"{place(column, row, size, view.unit)}: {words(count)}"
        parts.append(f'<rect {corner} width="{size}" height="{size}" fill-opacity="{opacity}">'
                     f"<title>{title}</title></rect>")
    return f'<g class="ink">{"".join(parts)}</g>'


def place(column, row, size, unit):
    x0, y0, x1, y1 = (length(edge, unit) for edge in window_box(column, row, size))
    return f"x {x0} to {x1} µm, y {y0} to {y1} µm"


def png(wide, high, strengths):
    """A picture in one colour with a strength for each point, row by row from the top."""
    def part(kind, content):
        said = kind + content
        return struct.pack(">I", len(content)) + said + struct.pack(">I", zlib.crc32(said))
    rows = b"".join(b"\0" + strengths[k * wide:(k + 1) * wide] for k in range(high))
    opacities = bytes(255 * k // STRENGTHS for k in range(STRENGTHS + 1))
    return (b"\x89PNG\r\n\x1a\n" + part(b"IHDR", struct.pack(">IIBBBBB", wide, high, 8, 3, 0, 0, 0))
            + part(b"PLTE", bytes(INK) * (STRENGTHS + 1)) + part(b"tRNS", opacities)
            + part(b"IDAT", zlib.compress(rows, 9)) + part(b"IEND", b""))


def points(view, counts, size):
    """A point for each window, for more windows than can be squares."""
    columns, rows = [column for column, _ in counts], [row for _, row in counts]
    left, low = min(columns), min(rows)
    wide, high = max(columns) - left + 1, max(rows) - low + 1
    most, strengths = max(counts.values()), bytearray(wide * high)
    for (column, row), count in counts.items():
        point = (high - 1 - row + low) * wide + column - left
        strengths[point] = WEAKEST + (STRENGTHS - WEAKEST) * count // most
    data = base64.b64encode(png(wide, high, bytes(strengths))).decode()
    corner = f'x="{left * size - view.left}" y="{view.top - (low + high) * size}"'
    return (f'<image {corner} width="{wide * size}" height="{high * size}" preserveAspectRatio="none" '
            f'href="data:image/png;base64,{data}"/>')


# ---- the pictures of a file

def swatches(words):
    """Squares in the colour of windows, with an opacity and a word each."""
    some = "".join(f'<span><i><b style="opacity:{part:.2f}"></b></i>{word}</span>' for part, word in words)
    return f'<p class="swatches">{some}</p>\n'


def figure(view, parts, title, label, legend, colours=""):
    """A picture with its bar, and in words what it shows."""
    part, words = view.bar()
    return f"""<figure>
<figcaption>{title}</figcaption>
{view.svg(parts, label)}
<p class="scale"><span class="bar" style="width:{100 * part:.3f}%"></span><span class="length">{words}</span>
<span class="place"></span></p>
{colours}<p class="legend">{legend}</p>
</figure>
"""


def wrong_tile(job, output):
    """Where `check` found the first wrong triangle of this file, if it did."""
    return job.refusal.tile if job.refusal and job.refusal.name == output.name else None


def shown_box(job, output):
    """The box of the shots, and of what is wrong."""
    tile = wrong_tile(job, output)
    x0, y0, x1, y1 = output.measures.box
    if tile:
        x, y = tile
        return min(x0, x), min(y0, y), max(x1, x + 1), max(y1, y + 1)
    return x0, y0, x1, y1


def whole(job, output):
    it, unit = output.measures, job.unit
    view = View(shown_box(job, output), unit)
    if output.all_shots is not None:
        parts = outlines(view, output, output.all_shots)
        legend = "Each outline is a shot; red ones are slivers." if it.slivers else "Each outline is a shot."
    else:
        parts = [points(view, output.fine_counts, job.fine_size)] if output.fine_counts else []
        legend = (f"{grouped(it.shots)} shots are more than a screen can show, so they are thinned: each point is "
                  f"a square of {length(job.fine_size, unit)} µm, coloured where it is covered, the stronger the "
                  "more of it is.")
    parts.append(frame(view, output.dense_box, "mark"))
    legend += " The frame is the window with most shots."
    tile = wrong_tile(job, output)
    if tile:
        parts.append(cross(view, *tile))
        legend += " The red cross is at the lowest triangle that is wrong."
    return figure(view, parts, "The whole", f"all shots of {shown(output.name)}", legend)


def dense(job, output):
    unit, size = job.unit, output.dense_size
    view = View(output.dense_box, unit, 0.05)
    parts = outlines(view, output, output.dense_shots) + [frame(view, output.dense_box, "field")]
    column, row = output.dense_box[0] // size, output.dense_box[1] // size
    count, drawn = output.dense_count, len(output.dense_shots)
    side = length(size, unit)
    legend = (f"{counted(count, 'shot has its middle', 'shots have their middle')} in this window of {side} by "
              f"{side} µm, the dashed square, and no window of this size has more: "
              f"{place(column, row, size, unit)}. ")
    if output.is_dense_cut:
        legend += f"It is thinned: shown are the first {grouped(drawn)} shots of the file that meet it."
    else:
        legend += f"Shown are the {counted(drawn, 'shot that meets', 'shots that meet')} it."
    label = f"the densest window of {shown(output.name)}"
    return figure(view, parts, "The densest window in shots", label, legend)


def map_legend(job, size, what, which, column, row):
    side = length(size, job.unit)
    return (f"Each square is a window of {side} by {side} µm ({grouped(size)} half units), coloured by {what}; "
            f"framed is {which}: {place(column, row, size, job.unit)}.")


def covered(job, output):
    """The map of covered area, empty where the deck asks for nothing."""
    size, full = job.size, 2 * job.size * job.size
    view = View(output.measures.box, job.unit)
    title, label = "Density: covered area", f"densities of {shown(output.name)}"
    if not output.counts:
        return figure(view, [], title, label, "No window has any of the area that the deck asks for.")
    column, row, most = densest(output.counts)
    percent = next(percent for percent in FULL_COLOURS if 100 * most <= percent * full)
    windows = squares(view, output.counts, size, full * percent / 100,
                      lambda count: f"{share(count, full)} covered")
    parts = [windows, frame(view, window_box(column, row, size), "mark")]
    which = f"the fullest, {share(most, full)}"
    legend = map_legend(job, size, "the share of it that is covered", which, column, row)
    colours = swatches([(fifth / 5, f"{percent * fifth / 5:g} %") for fifth in range(6)])
    return figure(view, parts, title, label, legend, colours)


def crowded(job, output):
    """The map of shots."""
    size, counts = output.map_size, output.map_counts
    view = View(output.measures.box, job.unit)
    column, row, most = densest(counts)
    parts = [squares(view, counts, size, most, lambda count: counted(count, "shot", "shots")),
             frame(view, window_box(column, row, size), "mark")]
    which = f"the one with most, {grouped(most)}"
    legend = map_legend(job, size, "the number of shots that have their middle in it", which, column, row)
    marks = range(most + 1) if most <= 6 else [most * fifth // 5 for fifth in range(6)]
    colours = swatches([(count / most, counted(count, "shot", "shots")) for count in marks])
    return figure(view, parts, "Density: shots", f"shots of {shown(output.name)} by windows", legend, colours)


def figures(job, output):
    """All pictures of a file that has shots."""
    return [make(job, output) for make in (whole, dense, covered, crowded)] if output.measures.shots else []
