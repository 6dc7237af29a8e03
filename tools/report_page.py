"""The page: what it says of a job and of each file, in HTML that needs nothing else."""
from report_style import SCRIPT, STYLE
from report_text import area, class_words, counted, grouped, length, seconds, share, shown
from tool_files import read_bytes

# Nothing is loaded from anywhere, whatever names a page has in it.
POLICY = "default-src 'none'; style-src 'unsafe-inline'; script-src 'unsafe-inline'; img-src data:"
MOST_CLASSES = 20
MOST_DECK_LINES = 400
# Tables of no more rows stay on one sheet of paper.
SHORT = 12

HINT = ('<p class="quiet screen">A picture is enlarged by its buttons, by a double click, by the wheel with Ctrl, '
        "and by + and − where it was clicked. Then it is moved by dragging it, or by the arrow keys.</p>")
COUNTERS = {"page": "*this page", "fracture": "*<code>fracture</code>",
            "check": "*<code>check</code>", "density": "*<code>density</code>"}
SIZES = {"thickness": ("Thickness", "µm"), "width": ("Width halfway up", "µm"), "height": ("Height", "µm"),
         "area": ("Area of a shot", "µm²")}
WORDS = [
    ("Half unit", "half a grid step of the layout: the unit of decks and of shot files."),
    ("Triangle", "half of a square half unit, cut from corner to corner: areas are counted in them."),
    ("Shot", "a trapezoid with a level side below and one above, of which one may be a point."),
    ("Least width", "of a shot, the smallest of its level sides that is above 0, and its height; of a file, the "
                    "smallest of its shots."),
    ("Thickness", "of a shot, the lesser of its height and its width halfway up, (bottom + top) / 2."),
    ("Sliver", "a shot whose thickness is below a tenth of the median thickness of its file."),
    ("Exact", "each triangle of the half grid is in exactly one shot where the deck asks for it, and in none "
              "elsewhere."),
    ("Window", "a square of the plane; windows of one size lie side by side from (0, 0) on. A shot is counted "
               "in the window in which its middle lies."),
]


# ---- parts of a page

def table(head, rows, name="", caption=""):
    """A table of rows of whole cells."""
    kind = f"{name} short".strip() if len(rows) <= SHORT else name
    top = f"<thead><tr>{''.join(head)}</tr></thead>" if head else ""
    said = f"<caption>{caption}</caption>" if caption else ""
    body = "\n".join(f"<tr>{''.join(row)}</tr>" for row in rows)
    return f'<div class="wide"><table class="{kind}">{said}{top}<tbody>\n{body}\n</tbody></table></div>'


def cell(text, name="", more=""):
    kind = f' class="{name}"' if name else ""
    return f"<td{kind}{more}>{text}</td>"


def number(text, more=""):
    return cell(text, "number", more)


def heads(*words):
    """Cells of a table's head: a word, or a word and its unit after |; one with * in front is of numbers."""
    out = []
    for word in words:
        name, _, unit = word.lstrip("*").partition("|")
        kind = ' class="number"' if word.startswith("*") else ""
        more = f' <span class="unit">{unit}</span>' if unit else ""
        out.append(f'<th scope="col"{kind}>{name}{more}</th>')
    return out


def facts(rows):
    """A table of names and what they are."""
    return table(None, [[f'<th scope="row">{name}</th>', cell(text)] for name, text in rows], "facts")


# ---- the head

def verdict(job):
    """What `check` said of the files."""
    if job.refusal:
        return (f'<p class="verdict">Not exact. <code>check</code> says of {shown(job.refusal.name)}: '
                f"{shown(job.refusal.line)}.</p>\n<p>{job.refusal.meaning()} <code>check</code> stops at the "
                "first file that isn't exact, and says nothing of the others.</p>\n")
    files = "The file is" if len(job.outputs) == 1 else f"Each of the {len(job.outputs)} files is"
    return (f'<p class="verdict">{files} exact.</p>\n<p><code>check</code> found that the shots cover the area '
            "that the deck asks for: every part of it once, and nothing else, within the deck's limits.</p>\n")


def warnings(job):
    if not job.warnings:
        return "<p>No warnings.</p>\n"
    items = "\n".join(f"<li>{warning}</li>" for warning in job.warnings)
    count = counted(len(job.warnings), "warning", "warnings")
    return f'<p class="is-warning">{count}</p>\n<ul>\n{items}\n</ul>\n'


def summary(job):
    measures = [output.measures for output in job.outputs]
    least = [it.least[0] for it in measures if it.least]
    shots, triangles = sum(it.shots for it in measures), sum(it.triangles for it in measures)
    words = [counted(len(measures), "file", "files"), counted(shots, "shot", "shots"),
             f"{area(triangles, job.unit)} µm² of area"]
    if least:
        slivers = sum(it.slivers for it in measures)
        words += [f"least width {length(min(least), job.unit)} µm", counted(slivers, "sliver", "slivers")]
    return f"<p>{', '.join(words)}.</p>"


def says(job):
    """The head: what is wrong first, then warnings, then that files are exact."""
    kind = "bad" if job.is_bad() else "warn" if job.warnings else "fine"
    parts = [verdict(job), warnings(job)] if kind != "warn" else [warnings(job), verdict(job)]
    text = "".join(parts) + summary(job)
    return f'<section class="says {kind}"><h2>What this page says</h2>\n{text}</section>'


# ---- the job

def outputs_section(job):
    rows = []
    for output in job.outputs:
        it, judged = output.measures, job.judged(output.name)
        rows.append([cell(f'<a href="#{output.anchor}">{shown(output.name)}</a>'),
                     cell(judged, {"exact": "good", "not exact": "bad"}.get(judged, "quiet")),
                     number(grouped(it.shots)), number(area(it.triangles, job.unit)),
                     number(grouped(it.triangles)), number(length(it.least[0], job.unit) if it.least else ""),
                     number(grouped(it.slivers)), number(output.pair)])
    head = heads("File", "<code>check</code>", "*Shots", "*Area|µm²", "*Area|triangles", "*Least width|µm",
                 "*Slivers", "*Layer")
    return "<h2>Outputs</h2>\n" + table(head, rows)


def job_section(job):
    high, wide = job.deck.limits
    made = "<code>fracture</code> wrote them for this page"
    rows = [("Layout", shown(job.layout.path)), ("Deck", shown(job.deck_file.path)),
            ("Top cell", shown(job.deck.top)),
            ("Unit", f"{grouped(job.unit // 2)} grid steps of the layout are 1 µm; "
                     f"a half unit is {length(1, job.unit)} µm"),
            ("Limits of a shot", f"{length(high, job.unit)} µm high, {length(wide, job.unit)} µm wide "
                                 f"({grouped(high)} and {grouped(wide)} half units)"),
            ("Shot files", made if job.is_made else "taken as they were; <code>fracture</code> wasn't run"),
            ("Program", f"{shown(job.version)}, {shown(job.program.path)}"),
            ("Run", f"{job.began}, on {shown(job.machine)}"),
            ("Times", ", ".join(f"{what} {seconds(time)}" for what, time in job.times))]
    counts = [f"{name} {grouped(int(value)) if value.isdigit() else shown(value)}"
              for name, value in job.counts]
    return f"<h2>Job</h2>\n{facts(rows + ([('Layout has', ', '.join(counts))] if counts else []))}"


def files_section(job):
    files = [("layout", job.layout), ("deck", job.deck_file)]
    files += [("shot file", output.file) for output in job.outputs] + [("program", job.program)]
    rows = [[cell(what), cell(shown(file.path)), number(grouped(file.size)), cell(file.sum, "sum")]
            for what, file in files]
    return ("<h2>Files and checksums</h2>\n"
            '<p class="quiet">None of them changed while this page was made.</p>\n'
            + table(heads("What", "File", "*Bytes", "SHA-256"), rows))


def compared(job, output, kind):
    """A row with the counts of shots or triangles by all that counted them."""
    cells = []
    for by in job.counters:
        count = output.numbers.get(by, {}).get(kind)
        more = f' data-file="{shown(output.name)}" data-kind="{kind}" data-by="{by}"'
        cells.append(number("" if count is None else grouped(count), more))
    words = cell("the same", "good") if output.is_same(kind) else cell("different", "bad")
    if len(output.counts_of(kind)) == 1:
        words = cell("not compared", "quiet")
    return [cell(shown(output.name)), cell(kind), words, *cells]


def numbers_section(job):
    rows = [compared(job, output, kind) for output in job.outputs for kind in ("shots", "triangles")]
    head = heads("File", "What", "Counts are", *(COUNTERS[by] for by in job.counters))
    return ('<h2 id="compared">Numbers compared</h2>\n<p class="quiet">This page reads the files and adds up their '
            "shots for itself, and so does <code>check</code>. <code>fracture</code> counts what it writes, and "
            "<code>density</code> the area of the layout, without any shot.</p>\n"
            + table(head, rows, "compared"))


# ---- a file

def measures_facts(job, output):
    it, unit = output.measures, job.unit
    slanted = it.shots - it.rectangles - it.three_corners
    rows = [("Layer and datatype", f"{output.pair}, area {shown(output.area)} of the deck"),
            ("Area", f"{area(it.triangles, unit)} µm², {grouped(it.triangles)} triangles"),
            ("Shots", f"{grouped(it.shots)}: {counted(it.rectangles, 'rectangle', 'rectangles')}, "
                      f"{grouped(slanted)} slanted with four corners, "
                      f"{grouped(it.three_corners)} with three")]
    if it.shots:
        left, low, right, top = (length(edge, unit) for edge in it.box)
        sides = length(it.box[2] - it.box[0], unit), length(it.box[3] - it.box[1], unit)
        width, first, (y, _, a, _, c, _) = it.least
        rows += [("Extent", f"x {left} to {right} µm, y {low} to {top} µm: {sides[0]} by {sides[1]} µm"),
                 ("Least width", f"{length(width, unit)} µm ({counted(width, 'half unit', 'half units')}), first "
                                 f"in shot {grouped(first)} at x {length(min(a, c), unit)} µm, "
                                 f"y {length(y, unit)} µm"),
                 ("Thickness", f"{length(it.median4, 4 * unit)} µm in the median; a sliver is thinner than "
                               f"{length(it.median4, 40 * unit)} µm"),
                 ("Slivers", f"{grouped(it.slivers)}, {share(it.slivers, it.shots)} of the shots")]
    return facts(rows)


def thinnest(job, output):
    """The thinnest slivers, with their places."""
    it, unit, rows = output.measures, job.unit, []
    for size, place, (y0, y1, a, b, c, d) in it.thinnest:
        if it.is_thin(size):
            sizes = length(size, 2 * unit), length(b - a + d - c, 2 * unit), length(y1 - y0, unit)
            corner = length(min(a, c), unit), length(y0, unit)
            rows.append([number(text) for text in (grouped(place), *sizes, *corner)])
    if not rows:
        return ""
    is_all = len(rows) == it.slivers
    which = "The slivers" if is_all else f"The {len(rows)} thinnest of {grouped(it.slivers)} slivers"
    head = heads("*Shot", "*Thickness|µm", "*Width halfway up|µm", "*Height|µm", "*Least x|µm",
                 "*Lowest y|µm")
    return table(head, rows, caption=f"{which}; shots are counted from 0 in the file's order")


def histogram(measures, name):
    classes = measures.histograms[name].classes(MOST_CLASSES)
    most, rows = max(count for _, _, count in classes), []
    for lower, upper, count in classes:
        thin = measures.slivers_within(lower, upper) if name == "thickness" else 0
        bars = "".join(f'<i class="{kind}" style="width:{95 * some / most:.2f}%"></i>'
                       for some, kind in ((thin, "thin"), (count - thin, "other")) if some)
        rows.append([number(class_words(lower, upper)), cell(bars, "bars"), number(grouped(count)),
                     number(share(count, measures.shots))])
    title, unit = SIZES[name]
    head = heads(f"*{title}|{unit}", "", "*Shots", "*Share")
    return f'<div class="histogram">{table(head, rows, "counts")}</div>'


def histograms(measures):
    red = " Red are slivers." if measures.slivers else ""
    some = "\n".join(histogram(measures, name) for name in SIZES)
    return ('<h3>Sizes of shots</h3>\n<p class="quiet">A class has the sizes from its first number up to below '
            f'its second.{red}</p>\n<div class="histograms">\n{some}\n</div>')


def output_section(job, output):
    parts = [f'<section class="output" id="{output.anchor}"><h2>{shown(output.name)}</h2>',
             measures_facts(job, output)]
    if output.measures.shots:
        parts += [thinnest(job, output), "<h3>Pictures</h3>", HINT, '<div class="pictures">', *output.figures,
                  "</div>", histograms(output.measures)]
    return "\n".join(parts) + "\n</section>"


# ---- the rest

def texts_section(job):
    lines = read_bytes(job.deck_file.path).decode("utf-8", "backslashreplace").rstrip("\n").split("\n")
    deck = [line.rstrip("\r").expandtabs(4) for line in lines[:MOST_DECK_LINES]]
    if len(lines) > MOST_DECK_LINES:
        deck.append(f".. {grouped(len(lines) - MOST_DECK_LINES)} more lines")
    told = "\n".join(f"<div><h3><code>{command}</code> printed</h3>\n<pre>{text_of(text.splitlines())}</pre>"
                     "</div>" for command, text in job.reports)
    return ("<h2>Deck and reports</h2>\n<details><summary>The deck, and what the program printed</summary>\n"
            f'<h3>Deck</h3>\n<pre>{text_of(deck)}</pre>\n<div class="told">\n{told}\n</div></details>')


def text_of(lines):
    return "\n".join(map(shown, lines))


def page(job):
    """The whole page."""
    sections = [says(job), outputs_section(job), job_section(job), files_section(job), numbers_section(job)]
    sections += [output_section(job, output) for output in job.outputs]
    sections += [f"<h2>What the words mean</h2>\n{facts(WORDS)}", texts_section(job)]
    title = f"Shots of {shown(job.layout.base)} by {shown(job.deck_file.base)}"
    body = "\n".join(sections)
    return f"""<!DOCTYPE html>
<html lang="en">
<head>
<meta charset="utf-8">
<meta name="viewport" content="width=device-width, initial-scale=1">
<meta http-equiv="Content-Security-Policy" content="{POLICY}">
<title>{title}</title>
<style>{STYLE}</style>
</head>
<body>
<main>
<h1>{title}</h1>
<p class="quiet">{shown(job.version)}, {job.began}</p>
{body}
</main>
<script>{SCRIPT}</script>
</body>
</html>
"""
