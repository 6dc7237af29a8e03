"""A job for a page: what the program says of a layout and a deck, and what is measured of the shot files."""
import hashlib
import os
import platform
import re
import subprocess
import time
from collections import Counter

from deck import read_deck
from report_shots import (Measures, Shots, densest_window, fine_size, map_size, thickness2,
                          window_box)
from report_text import counted, length, share, shown
from tool_files import Refused

# The most and the fewest shots that are outlined in a picture, and the most in the pictures of all files.
MOST_OUTLINES, FEWEST_OUTLINES, ALL_OUTLINES = 8000, 500, 48000
# Of more files than these one is named in a warning.
MOST_WARNINGS = 8
# For so many files at most: how many windows of a map, and points of a picture, are side by side.
SIDES = ((2, 40, 1000), (8, 40, 500), (64, 24, 250))


# ---- files

class File:
    """A file with its size and its checksum."""

    def __init__(self, path):
        self.path, self.base = path, os.path.basename(path)
        self.size, self.sum = size_and_sum(path)

    def look_again(self):
        if size_and_sum(self.path) != (self.size, self.sum):
            raise Refused(f"{self.path}: changed while the page was made")


def size_and_sum(path):
    digest, size = hashlib.sha256(), 0
    with open(path, "rb") as file:
        for block in iter(lambda: file.read(1 << 20), b""):
            digest.update(block)
            size += len(block)
    return size, digest.hexdigest()


# ---- the program

class Program:
    """Runs commands; keeps the seconds of each, and the texts of the reports."""

    def __init__(self, path):
        self.path, self.reports, self.times = path, [], []

    def version(self):
        ended = subprocess.run([self.path, "--version"], stdout=subprocess.DEVNULL, stderr=subprocess.PIPE)
        said = re.search(r"^nettletide \d\S*", ended.stderr.decode(errors="replace"), re.MULTILINE)
        return said[0] if said else "a program that says no version"

    def run(self, *words):
        """Status and text of a command."""
        began = time.monotonic()
        ended = subprocess.run([self.path, *words], stdout=subprocess.PIPE, stderr=subprocess.DEVNULL)
        self.times.append((words[0], time.monotonic() - began))
        return ended.returncode, ended.stdout.decode(errors="backslashreplace")

    def report(self, *words):
        """The same of `fracture` or `check`, whose text the page has."""
        status, text = self.run(*words)
        self.reports.append((words[0], text))
        return status, text


def sums_of(text, word):
    """Shots and triangles of each file of a report."""
    lines = [line.split() for line in text.split("\n")]
    return {words[1]: {"shots": int(words[3]), "triangles": int(words[5])}
            for words in lines if words[:1] == [word] and len(words) == 6}


def densities(text):
    """For each file its windows with their triangles, and the sum as it is printed."""
    found = {}
    for part in ("\n" + text).split("\ndensity ")[1:]:
        head, _, rest = part.partition("\n")
        listed, _, total = rest.rpartition("triangles ")
        numbers = list(map(int, listed.partition("most")[0].split()))
        found[head.split()[0]] = dict(zip(zip(numbers[0::3], numbers[1::3]), numbers[2::3])), int(total)
    return found


def coarser(counts, parts):
    """The sums of windows in squares of so many by so many."""
    sums = Counter()
    for (column, row), count in counts.items():
        sums[column // parts, row // parts] += count
    return sums


class Refusal:
    """What `check` found wrong: of which file, in its words, and what they mean."""

    def __init__(self, text, unit):
        self.name, _, self.line = text.strip().partition("check refused: ")[2].partition(": ")
        words = self.line.split()
        self.tile, self.unit = None, unit
        if words[:1] == ["tile"]:
            self.tile, self.count, self.wanted = (int(words[1]), int(words[2])), int(words[5]), int(words[7])

    def meaning(self):
        if not self.tile:
            return "DECK.md has what this means and what to do."
        if self.count == 0:
            what = "the deck asks for it, and no shot covers it"
        elif self.wanted == 0:
            what = f"the deck doesn't ask for it, and {counted(self.count, 'shot covers', 'shots cover')} it"
        else:
            what = f"{self.count} shots cover it"
        x, y = (length(edge, self.unit) for edge in self.tile)
        return f"The lowest triangle that is wrong is at x {x} µm, y {y} µm: {what}."


# ---- the job

class Output:
    """A file of the deck: what is measured of it, and what its pictures need. `numbers` are its shots and
    triangles by who counted them."""

    def __init__(self, number, area, name, layer, datatype):
        self.file = File(name)
        self.area, self.name, self.anchor = area, name, f"output-{number}"
        self.pair, self.numbers, self.figures = f"{layer}/{datatype}", {}, []

    def measure(self, unit, most, windows):
        """Reads the shots, of which at most so many are kept for a picture."""
        shots = Shots(self.name)
        if shots.unit != unit:
            raise Refused(f"{self.name}: has {shots.unit} half units a micrometre, and the deck {unit}")
        it = self.measures = Measures(shots)
        self.numbers["page"] = {"shots": it.shots, "triangles": it.triangles}
        if it.shots:
            self.all_shots = shots.shots() if it.shots <= most else None
            size, column, row, self.dense_count = densest_window(shots, it.box, most)
            self.dense_size, self.dense_box = size, window_box(column, row, size)
            some = shots.shots(self.dense_box, most + 1)
            self.dense_shots, self.is_dense_cut = some[:most], len(some) > most
            self.map_size = map_size(it.box, unit, windows)
            self.map_counts = shots.windows(self.map_size)

    def is_sliver(self, shot):
        return self.measures.is_thin(thickness2(shot))

    def counts_of(self, kind):
        """The counts of shots or of triangles."""
        return [numbers[kind] for numbers in self.numbers.values() if kind in numbers]

    def is_same(self, kind):
        """Whether all that counted found as many."""
        return len(set(self.counts_of(kind))) == 1


class Job:
    """A layout and a deck, with all that a page says of them."""

    def __init__(self, layout, deck, program, is_made):
        self.began = time.strftime("%Y-%m-%d %H:%M:%S UTC", time.gmtime())
        self.layout, self.deck_file, self.program = File(layout), File(deck), File(program)
        self.deck = read_deck(deck)
        self.unit = 2 * self.deck.unit
        self.is_made, self.runs = is_made, Program(program)
        self.version, self.times, self.reports = self.runs.version(), self.runs.times, self.runs.reports
        processors = counted(os.cpu_count() or 1, "processor", "processors")
        self.machine = f"{platform.system()} {platform.machine()}, {processors}"
        self.refusal, self.counts, self.warnings = None, [], []
        self.counters = ["page", *(["fracture"] if is_made else []), "check", "density"]
        self.make_and_judge()
        self.measure()
        self.count_densities()
        self.warn()
        for file in [self.layout, self.deck_file, self.program] + [output.file for output in self.outputs]:
            file.look_again()

    def make_and_judge(self):
        """Runs `fracture`, if it is to be run, and `check`."""
        words, sums = (self.layout.path, self.deck_file.path), {}
        if self.is_made:
            status, text = self.runs.report("fracture", *words)
            if status != 0:
                raise self.refused(status, text)
            sums["fracture"] = sums_of(text, "output")
        self.outputs = [Output(number, *words) for number, words in enumerate(self.deck.outputs)]
        status, text = self.runs.report("check", *words)
        if status not in (0, 7):
            raise self.refused(status, text)
        sums["check"] = sums_of(text, "exact")
        if status == 7:
            self.refusal = Refusal(text, self.unit)
        if status == 0 or self.is_made:
            self.counts = [line.split(" ", 1) for line in self.reports[0][1].split("\n")[:8]]
        for output in self.outputs:
            output.numbers.update((by, some[output.name]) for by, some in sums.items() if output.name in some)

    def refused(self, status, text):
        """A status that isn't 0, with the file that it is about."""
        line = text.strip().split("\n")[-1] or f"the program ended with status {status}"
        kind, _, rest = line.partition(": ")
        if kind == "deck refused":
            return Refused(f"{self.deck_file.path}: {rest}")
        if kind == "layout refused":
            return Refused(f"{self.layout.path}: {rest}")
        return Refused(f"{self.layout.path}, {self.deck_file.path}: {line}")

    def measure(self):
        began, count = time.monotonic(), len(self.outputs)
        self.map_windows, self.points = next(sides for most, *sides in SIDES if count <= most)
        most = max(FEWEST_OUTLINES, min(MOST_OUTLINES, ALL_OUTLINES // count))
        for output in self.outputs:
            output.measure(self.unit, most, self.map_windows)
        self.times.append(("reading and measuring", time.monotonic() - began))

    def box(self):
        """The box of all shots."""
        boxes = [output.measures.box for output in self.outputs if output.measures.shots] or [(0, 0, 64, 64)]
        lefts, lows, rights, tops = zip(*boxes)
        return min(lefts), min(lows), max(rights), max(tops)

    def count_densities(self):
        """Runs `density` with the windows of the maps, or with parts of them for a picture by points."""
        box = self.box()
        self.size = self.fine_size = map_size(box, self.unit, self.map_windows)
        if any(output.measures.shots and output.all_shots is None for output in self.outputs):
            self.fine_size = fine_size(self.size, box, self.points)
        words = "density", str(self.fine_size), self.layout.path, self.deck_file.path
        status, text = self.runs.run(*words)
        if status != 0:
            raise self.refused(status, text)
        found = densities(text)
        for output in self.outputs:
            output.fine_counts, total = found[output.name]
            output.counts = coarser(output.fine_counts, self.size // self.fine_size)
            output.numbers["density"] = {"triangles": total}

    def warn(self):
        """What a reader should know first, beside what `check` refused."""
        if ["kept", "0"] in self.counts:
            self.warnings.append("The layout has nothing on the layers that the deck takes.")
        for kind in ("shots", "triangles"):
            self.warn_of([output for output in self.outputs if not output.is_same(kind)],
                         lambda _: f"not all counts of {kind} are the same; see Numbers compared")
        self.warn_of([output for output in self.outputs if not output.measures.shots], lambda _: "no shots")
        self.warn_of(sorted((output for output in self.outputs if output.measures.slivers),
                            key=lambda output: -output.measures.slivers), self.sliver_words)

    def warn_of(self, outputs, words):
        """A warning for each of these files; many are one warning, with the words of the first."""
        lines = [f'<a href="#{output.anchor}">{shown(output.name)}</a>: {words(output)}' for output in outputs]
        if len(lines) > MOST_WARNINGS:
            lines = [f"{lines[0]}; and {len(lines) - 1} more files likewise, see Outputs"]
        self.warnings += [f"{line}." for line in lines]

    def sliver_words(self, output):
        it = output.measures
        return (f"{counted(it.slivers, 'sliver', 'slivers')}, {share(it.slivers, it.shots)} of its shots, "
                f"thinner than {length(it.median4, 40 * self.unit)} µm")

    def is_bad(self):
        kinds = [(output, kind) for output in self.outputs for kind in ("shots", "triangles")]
        return self.refusal is not None or not all(output.is_same(kind) for output, kind in kinds)

    def judged(self, name):
        """What `check` said of a file, in a word."""
        if self.refusal is None:
            return "exact"
        return "not exact" if name == self.refusal.name else "not told"
