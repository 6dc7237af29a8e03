#!/usr/bin/env python3
"""Compares the pages of tools/report with the program, and loads them in a browser.

    usage: tests/report.py PROGRAM [BROWSER] [--large]

The pages are of the example, of a job with slivers and with names that HTML would take for something else, and of
files that aren't exact. Their numbers must be those of the program's report, and what they measure what is reckoned
here with fractions, shot by shot. What can't be reported is refused in one line. The browser is `chromium` where
none is given; where it isn't installed, this is said, and no page is loaded. With --large a page of a million shots
is made and loaded too, which takes a minute.
"""
import hashlib
import os
import re
import shutil
import statistics
import struct
import subprocess
import sys
import tempfile
from fractions import Fraction
from html.parser import HTMLParser

TOP = os.path.join(os.path.dirname(os.path.abspath(__file__)), "..")
TOOLS = os.path.join(TOP, "tools")
BROWSERS = ("chromium", "chromium-browser", "google-chrome")
LOADING = {"src", "href", "srcset", "data", "action", "poster"}
# Enlarges the first picture: by +, by + and -, by "all", by the wheel with Ctrl, by the key 0, by the wheel alone.
# Leaves after each, and before all, how wide it is and how long its bar is drawn, as a part of what the bar says; and
# how far the place that is shown of the picture's middle is from there, in half units.
CLICKS = """<script>
(function () {
  var figure = document.querySelector("figure"), svg = figure.querySelector("svg"), said = [];
  var bar = figure.querySelector(".bar"), buttons = figure.querySelectorAll("button"), data = svg.dataset;
  var box = svg.getBoundingClientRect();
  var middle = { clientX: box.left + box.width / 2, clientY: box.top + box.height / 2 };
  function look() {
    var wide = Number(svg.getAttribute("viewBox").split(" ")[2]), drawn = svg.getBoundingClientRect().width;
    var length = parseFloat(figure.querySelector(".length").textContent.replace(",", ""));
    said.push(wide, bar.getBoundingClientRect().width / drawn * wide / Number(svg.dataset.unit) / length);
  }
  function wheel(isHeld) {
    var more = { deltaY: -1, ctrlKey: isHeld, bubbles: true, cancelable: true };
    svg.dispatchEvent(new WheelEvent("wheel", Object.assign(more, middle)));
    look();
  }
  look();
  [[0], [0, 1], [2]].forEach(function (row) {
    row.forEach(function (number) { buttons[number].click(); });
    look();
  });
  wheel(true);
  svg.dispatchEvent(new KeyboardEvent("keydown", { key: "0" }));
  look();
  wheel(false);
  svg.dispatchEvent(new PointerEvent("pointermove", middle));
  var place = figure.querySelector(".place").textContent.replace(/,/g, "").match(/-?[0-9.]+/g).map(Number);
  var whole = svg.getAttribute("viewBox").split(" ").map(Number);
  said.push(Math.abs(place[0] * data.unit - Number(data.left) - whole[2] / 2),
    Math.abs(Number(data.top) - whole[3] / 2 - place[1] * data.unit));
  document.body.setAttribute("data-clicks", said.join(" "));
})();
</script>
</body>"""


class Tally:
    passed = failed = 0

    def check(self, what, is_right):
        if is_right:
            self.passed += 1
        else:
            self.failed += 1
            print(f"FAILED: {what}")

    def says(self, page, *texts):
        for text in texts:
            self.check(f"{page.name} says: {text}", text in page.text)


class Page(HTMLParser):
    """A page's text, its compared numbers, its tags, and all that it could load."""

    def __init__(self, name, text):
        super().__init__()
        self.name, self.words, self.numbers, self.loads, self.tags = name, [], {}, [], []
        self.number, self.is_text = None, True
        self.feed(text)
        self.text = re.sub(r"\s+", " ", "".join(self.words))

    def handle_starttag(self, tag, attributes):
        found = dict(attributes)
        self.tags.append(tag)
        self.is_text = tag not in ("style", "script")
        self.loads += [value for name, value in attributes if name in LOADING]
        if "data-file" in found:
            self.number = found["data-file"], found["data-kind"], found["data-by"]
        if tag in ("td", "th", "p", "h1", "h2", "h3", "li", "div"):
            self.words.append(" ")

    def handle_endtag(self, tag):
        self.number, self.is_text = None, True

    def handle_data(self, data):
        if self.is_text:
            self.words.append(data)
        if self.number:
            self.numbers[self.number] = int(data.replace(",", ""))


def read(path):
    with open(path, "rb") as file:
        return file.read()


def page_of(path):
    return Page(path, read(path).decode("utf-8"))


def write(path, text):
    with open(path, "w") as file:
        file.write(text)


def report(program, *words):
    """Runs the tool."""
    return subprocess.run([os.path.join(TOOLS, "report"), *words], stdout=subprocess.PIPE, stderr=subprocess.PIPE,
                          env={**os.environ, "NETTLETIDE": program}, universal_newlines=True)


def said_by(program, *words):
    return subprocess.run([program, *words], stdout=subprocess.PIPE, universal_newlines=True).stdout


# ---- what is expected

def program_numbers(program, layout, deck):
    """Of each output shots and triangles by `fracture` and by `check`, and triangles by `density`."""
    numbers, name = {}, None
    for by, word in (("fracture", "output"), ("check", "exact")):
        for words in map(str.split, said_by(program, by, layout, deck).splitlines()):
            if words[:1] == [word]:
                numbers[words[1], "shots", by] = int(words[3])
                numbers[words[1], "triangles", by] = int(words[5])
    for words in map(str.split, said_by(program, "density", "65536", layout, deck).splitlines()):
        name = words[1] if words[0] == "density" else name
        if words[0] == "triangles":
            numbers[name, "triangles", "density"] = int(words[1])
    return numbers


def micrometres(value):
    """A fraction as a decimal number with commas by thousands."""
    return f"{float(value):,.6f}".rstrip("0").rstrip(".")


def reckoned(program, name, unit):
    """Least width, median thickness and number of slivers by their definitions, in the page's words."""
    lines = [line.split() for line in said_by(program, "shots", name).splitlines()]
    shots = [tuple(map(int, words)) for words in lines if len(words) == 6]
    least = min(size for y0, y1, a, b, c, d in shots for size in (y1 - y0, b - a, d - c) if size > 0)
    thick = [min(Fraction(y1 - y0), Fraction(b - a + d - c, 2)) for y0, y1, a, b, c, d in shots]
    median = statistics.median(thick)
    slivers = sum(1 for size in thick if size < median / 10)
    return (f"Least width {micrometres(Fraction(least, unit))} µm ",
            f"Thickness {micrometres(median / unit)} µm in the median; ", f"Slivers {slivers:,}, ")


def judge_numbers(tally, program, layout, deck, path):
    """Compares the numbers of a page where all are right, and gives it."""
    page, expected = page_of(path), program_numbers(program, layout, deck)
    tally.check(f"{path}: the program counts", expected)
    for (name, kind, by), count in expected.items():
        tally.check(f"{path}: {kind} of {name} by {by}", page.numbers.get((name, kind, by)) == count)
        tally.check(f"{path}: {kind} of {name}", page.numbers.get((name, kind, "page")) == count)
    tally.check(f"{path}: nothing is different", "different" not in page.text)
    outside = [place for place in page.loads if not place.startswith(("#", "data:image/png;base64,"))]
    tally.check(f"{path} loads nothing: {outside}", not outside and not {"link", "iframe", "object"} & set(page.tags))
    return page


# ---- pages

def judge_example(tally, program):
    ended = report(program, "block.gds", "block.deck")
    tally.check("the example's status and line", (ended.returncode, ended.stdout, ended.stderr)
                == (0, "block.html: files 2 shots 338 warnings 0, exact\n", ""))
    page = judge_numbers(tally, program, "block.gds", "block.deck", "block.html")
    files = ("block.gds", "block.deck", "block_gates.oas", "block_open.oas", program)
    tally.says(page, *(hashlib.sha256(read(name)).hexdigest() for name in files))
    for name in ("block_gates.oas", "block_open.oas"):
        tally.says(page, *reckoned(program, name, 2000))
    tally.says(page, "Each of the 2 files is exact.", "No warnings.", "nettletide 1.", "159: 121 rectangles",
               "2 files, 338 shots, 9.372 µm² of area", "0.6 µm high, 2 µm wide (1,200 and 4,000 half units)",
               "write ALL block_gates.oas 10 0", "exact block_open.oas shots 179 triangles 46856000")
    tally.check("there are four pictures of each file", page.tags.count("svg") == 8)


def judge_slivers(tally, program):
    """A job with a sliver, an area of nothing, and names that HTML would take for something else."""
    bars = "".join(f"box 1 0 {40 * k},0 {40 * k + 20},{100 + k % 3}\n" for k in range(50))
    subprocess.run([os.path.join(TOOLS, "gds"), "a&<b>.gds"], input=f"cell TOP\n{bars}box 2 0 5,-50 9,-49\n",
                   universal_newlines=True, check=True)
    write("a&amp;.deck", "# <script>no()</script>\nunit 1000\ntop TOP\nlayer A 1 0\nlayer B 2 0\nlayer C 3 0\n"
          "or D A B\nwrite D <i>.oas 7 1\nwrite C none 8 0\n")
    ended = report(program, "--output", "thin.html", "a&<b>.gds", "a&amp;.deck")
    tally.check("the status with slivers", ended.returncode == 0)
    page = judge_numbers(tally, program, "a&<b>.gds", "a&amp;.deck", "thin.html")
    tally.says(page, *reckoned(program, "<i>.oas", 2000), "2 warnings", "none: no shots.", "Slivers 1, 1.96 %",
               "<i>.oas: 1 sliver, 1.96 % of its shots, thinner than 0.002 µm.", "# <script>no()</script>",
               "Shots of a&<b>.gds by a&amp;.deck")
    tally.check("names aren't taken for tags", page.tags.count("script") == 1 and "b" not in
                page.tags[:page.tags.index("figure")] and page.tags[:page.tags.index("figure")].count("i") == 0)


def judge_wrong(tally, program):
    """Files that another deck made."""
    write("other.deck", read("block.deck").decode().replace("WIDE GATES 20", "WIDE GATES 30"))
    said_by(program, "fracture", "block.gds", "other.deck")
    ended = report(program, "--files", "--output", "wrong.html", "block.gds", "block.deck")
    tally.check("the status of wrong files", ended.returncode == 1)
    page, line = page_of("wrong.html"), said_by(program, "check", "block.gds", "block.deck").strip()
    tally.check(f"check names a tile: {line}", line.startswith("check refused: block_open.oas: tile 310 200 left "))
    tally.says(page, line, f"Not exact. check says of {line[15:]}.", "taken as they were", "triangles different",
               "block_open.oas shots not compared 179", "block_gates.oas triangles the same 28,120,000",
               "at x 0.155 µm, y 0.1 µm: the deck asks for it, and no shot covers it.")
    tally.check("fracture wasn't run", not any(by == "fracture" for _, _, by in page.numbers))


def judge_refusals(tally, program):
    """Each is one line with the file's name and status 2, and leaves no file."""
    said_by(program, "fracture", "block.gds", "block.deck")
    write("bad.deck", "unit 1000\ntop TOP\nlayer A 1\n")
    write("unknown.deck", "unit 1000\ntop TOP\nwrite B b.oas 1 0\n")
    write("bad.gds", "no layout")
    write("lost.deck", "unit 1000\ntop TOP\nlayer A 1 0\nwrite A lost.oas 1 0\n")
    write("cut.deck", "unit 1000\ntop TOP\nlayer A 1 0\nwrite A cut.oas 11 0\n")
    with open("cut.oas", "wb") as file:
        file.write(read("block_open.oas")[:100])
    before, pair = sorted(os.listdir(".")), "block.gds block.deck"
    for words, line in (("missing.gds block.deck", "missing.gds: No such file"),
                        ("block.gds missing.deck", "missing.deck: No such file"),
                        ("block.gds bad.deck", "bad.deck: line 3"),
                        ("block.gds unknown.deck", "unknown.deck: line 3 unknown B"),
                        ("bad.gds block.deck", "bad.gds: gdsii "),
                        ("--files block.gds lost.deck", "lost.oas: No such file"),
                        ("--files block.gds cut.deck", "cut.oas: record at "),
                        (f"--output block_open.oas {pair}", "block_open.oas: "),
                        (f"--output ./block.gds {pair}", "block.gds: "),
                        (f"--output no/page {pair}", "no/page: "), (f"--output . {pair}", ".: "),
                        ("block.gds", "wrong words"), (f"--wrong {pair}", "wrong words")):
        ended = report(program, *words.split())
        tally.check(f"{words} is refused: {ended.stderr}", (ended.returncode, ended.stdout) == (2, "")
                    and ended.stderr.startswith("report: ") and line in ended.stderr and ended.stderr.count("\n") == 1)
    tally.check("no file is left", sorted(os.listdir(".")) == before)
    ended = report(program, "--help")
    tally.check("--help says what it does", ended.returncode == 0 and "LAYOUT DECK" in ended.stdout)


# ---- in a browser

class Browser:
    """Loads pages without a window, and gives what is printed and what the console says."""

    def __init__(self, path):
        self.words = [path, "--headless", "--no-sandbox", "--disable-gpu", "--hide-scrollbars",
                      "--enable-logging=stderr", f"--user-data-dir={os.path.abspath('profile')}"]

    def run(self, page, *words):
        ended = subprocess.run([*self.words, *words, "file://" + os.path.abspath(page)], stdout=subprocess.PIPE,
                               stderr=subprocess.PIPE, timeout=120)
        lines = ended.stderr.decode(errors="replace").splitlines()
        return ended.stdout.decode("utf-8", "replace"), [line for line in lines if "CONSOLE" in line]


def judge_console(tally, browser):
    """A page whose script fails must be noticed."""
    write("failing.html", "<!DOCTYPE html><script>missing();</script>")
    tally.check("the console tells of a fault", browser.run("failing.html", "--dump-dom")[1])


def judge_loaded(tally, browser, path, *texts):
    """Loads a page, clicks, and compares texts, the picture's width and its bar."""
    clicked = f"clicked-{path}"
    write(clicked, read(path).decode("utf-8").replace("</body>", CLICKS))
    shown, console = browser.run(clicked, "--dump-dom")
    page = Page(f"{path} in the browser", shown)
    tally.says(page, *texts)
    tally.check(f"{path}: the script came to its end", 'data-ready="yes"' in shown and "button" in page.tags)
    tally.check(f"{path}: the console says nothing: {console}", not console)
    found = re.search(r'data-clicks="([^"]*)"', shown)
    *numbers, x, y = list(map(float, found.group(1).split())) if found else [1.0] * 16
    widths, bars = [width / numbers[0] for width in numbers[0::2]], numbers[1::2]
    tally.check(f"{path}: it is enlarged and reduced: {widths}", widths == [1.0, 0.5, 0.5, 1.0, 0.8, 1.0, 1.0])
    tally.check(f"{path}: bars are as long as they say: {bars}", all(abs(bar - 1) < 0.03 for bar in bars))
    tally.check(f"{path}: the pointer's place is off by {x} and {y} half units", max(x, y) <= 1)


def judge_screens(tally, browser, path):
    """Pictures of the screen, and the print."""
    for wide, high in ((1200, 1600), (400, 900)):
        _, console = browser.run(path, f"--window-size={wide},{high}", "--screenshot=screen.png")
        content = read("screen.png")
        tally.check(f"{path}: a screen of {wide} by {high}", struct.unpack(">II", content[16:24]) == (wide, high)
                    and len(content) > 10000 and not console)
    browser.run(path, "--no-pdf-header-footer", "--print-to-pdf=print.pdf")
    tally.check(f"{path}: it is printed", read("print.pdf")[:5] == b"%PDF-")


def judge_large(tally, program, browser):
    """A million shots, of which pictures are thinned."""
    said_by(program, "generate", "250", "large.gds")
    write("large.deck", "unit 1000\ntop TOP\nlayer A 1 0\nwrite A large.oas 10 0\n")
    ended = report(program, "large.gds", "large.deck")
    tally.check("the status of a million shots", ended.returncode == 0)
    page = judge_numbers(tally, program, "large.gds", "large.deck", "large.html")
    shots = page.numbers["large.oas", "shots", "page"]
    tally.check("a million shots", shots >= 1000000)
    tally.check("the page is small", os.path.getsize("large.html") < 4000000)
    texts = "The file is exact.", f"{shots:,} shots are more than a screen can show, so they are thinned"
    tally.says(page, *texts)
    if browser:
        judge_loaded(tally, browser, "large.html", *texts)
        judge_screens(tally, browser, "large.html")


def judge_all(tally, program, browser, is_large):
    shutil.copy(os.path.join(TOP, "example", "block.deck"), ".")
    with open(os.path.join(TOP, "example", "block.txt")) as text:
        subprocess.run([os.path.join(TOOLS, "gds"), "block.gds"], stdin=text, check=True)
    for judge in (judge_example, judge_slivers, judge_wrong, judge_refusals):
        judge(tally, program)
    if browser:
        judge_console(tally, browser)
        judge_loaded(tally, browser, "block.html", "Each of the 2 files is exact.",
                     "The frame is the window with most shots.",
                     "56 shots have their middle in this window of 1 by 1 µm")
        judge_screens(tally, browser, "block.html")
        judge_loaded(tally, browser, "thin.html", "Shots of a&<b>.gds by a&amp;.deck", "Red are slivers.")
    if is_large:
        judge_large(tally, program, browser)


def main(words):
    is_large = "--large" in words
    program, *given = [word for word in words if word != "--large"]
    path = given[0] if given else next(filter(None, map(shutil.which, BROWSERS)), None)
    tally, home, program = Tally(), os.getcwd(), os.path.abspath(program)
    with tempfile.TemporaryDirectory() as room:
        os.chdir(room)
        judge_all(tally, program, Browser(path) if path else None, is_large)
        os.chdir(home)
    if not path:
        print("chromium is not installed: no page was loaded in a browser")
    print(f"pages: {tally.passed} passed, {tally.failed} failed")
    return 1 if tally.failed else 0


if len(sys.argv) < 2:
    sys.exit(__doc__)
sys.exit(main(sys.argv[1:]))
