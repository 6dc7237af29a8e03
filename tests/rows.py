#!/usr/bin/env python3
"""Small layouts, decks and shot files with the shots, lines and statuses that were worked out for them: the cases of
tests/rows/, run on the built program over real files.

    tests/rows.py PROGRAM [TEXT]

With TEXT only the cases with this text in their names are run. A case begins with `== ` and its name, and has a folder of its
own, where its lines are done one after another. What they look at is one check, with the name of the case; after a line
`-- WHAT` it is another one, `NAME: WHAT`. A line that begins with blanks goes on with the one before it; `;` is between lines
as well. `let NAME TEXT` gives `{NAME}` in the rest of the file, `[TEXT]*N` is the text N times, with 0, 1, .. in the place of
`#`, and `#` begins a line that is a remark. DIGITS are hexadecimal ones.

    gds LINE; ..            the layout G.gds of these lines, in the words of tools/gds
    oasis DIGITS            the layout G.oas of the cell TOP with these records
    deck LINE; ..           the deck K of unit 1000, top TOP and these lines, by itself `layer A 1 0; write A out.oas 1 0`
    base                    the layout G.gds of a square, and that deck
    shots FILE DIGITS       the shot file of these records, for 1,000 grid steps a micrometre
    text FILE LINE; ..      a file of these lines
    bytes FILE DIGITS       puts these bytes after those of a file
    put FILE OFFSET DIGITS  puts them in the place of those at an offset
    length FILE BYTES, copy FILE TO, folder NAME
    limit KIB               how much address space the runs after it may take
    ! WORD ..               runs the program with these words
    ? STATUS LINE; ..       the run ended with this status, and these lines are all that it printed
    ends STATUS LINE        it ended with this status, and its last line is this
    adds-up COUNT           its lines of windows add up to this count, which the last line has

These run the program on the layout that was made last and on the deck K:

    fracture [KEY=N ..]; LINE; ..       `fracture` prints the report of the layout with these lines for its outputs. The
                            counts of the layout are those of COUNTS, below, where no key is given
    row TRIANGLES [KEY=N ..]; SHOT; ..  the same with one output out.oas, the check `NAME: report`, and what `shots` prints
                            of it, the check `NAME: shots`
    accepted                `fracture` ends with status 0 and makes out.oas
    refused STATUS LINE     `fracture` ends so, with this line alone, and makes no out.oas; ` | ` is between two lines of which
                            it may print either
    cuts; LENGTH LINE; ..   `fracture` of each beginning of the layout is refused by the last of these lines whose length
                            it has
    check [KEY=N ..]; LINE; ..          as `fracture`, for `check`, which leaves out.oas as it is
    judged STATUS LINE      `check` ends so, and leaves it as it is
    differs TEXT            judged 7 check refused: out.oas: TEXT
    agrees                  `check` prints what the run before it did, with `exact` in the place of `output`

These look at files. Shots are in half units, as the program lists them: the lower and the upper Y, the two X of the lower side,
and the two of the upper.

    listing FILE TRIANGLES; SHOT; ..    what `shots` prints of a file on layer 1 0
    packs TEXT; DIGITS      `pack` makes the shot file of these records of F and prints `packed TEXT`, and `unpack` makes F of it
    records FILE DIGITS     the file, or each of those of a pattern, is the shot file of these records
    size FILE BYTES, same FILE FILE, count PATTERN FILES
    none PATTERN            no such file is there
"""
import difflib
import glob
import hashlib
import os
import re
import resource
import shutil
import subprocess
import sys
import tempfile
import types
from importlib.machinery import SourceFileLoader

HERE = os.path.dirname(os.path.abspath(__file__))
TOOLS = os.path.join(HERE, "..", "tools")
sys.dont_write_bytecode = True
sys.path.insert(0, TOOLS)
import layout_bytes as lb  # noqa: E402
from layout_text import layout_of  # noqa: E402
from tool_files import Refused  # noqa: E402

GDS = types.ModuleType("gds")
SourceFileLoader("gds", os.path.join(TOOLS, "gds")).exec_module(GDS)
SQUARE = ["cell TOP", "boundary 1 0 0,0 0,10 10,10 10,0"]
USUAL = ["layer A 1 0", "write A out.oas 1 0"]
COUNTS = {"cells": 1, "kept": 1, "other": 0, "texts": 0, "nodes": 0, "boxes": 0, "properties": 0}


def joined(lines):
    return "".join(line + "\n" for line in lines)


def digits(lines):
    """The bytes of hexadecimal digits."""
    return bytes.fromhex(" ".join(lines))


def shot_file(lines):
    return lb.shots_head() + digits(lines) + lb.END


def content(name):
    with open(name, "rb") as file:
        return file.read()


def mark(name):
    """What tells whether a file has changed."""
    return hashlib.sha256(content(name)).digest() if os.path.exists(name) else None


def put(name, data):
    with open(name, "wb") as file:
        file.write(data)


class Case:
    """A case in the current folder: what its lines have made and run, and for each check the faults that were seen."""

    def __init__(self, program):
        self.program, self.layout, self.limit, self.label = program, "G.gds", None, ""
        self.words, self.status, self.printed = [], None, ""
        self.checks = {}

    def do(self, verb, lines):
        """Does a line, whose first word is split from it. A fault of the system is one of the check."""
        name = {"!": "run", "?": "answer", "--": "begin"}.get(verb, verb).replace("-", "_")
        if not hasattr(self, "do_" + name):
            raise ValueError(f"there is no line {verb}")
        try:
            getattr(self, "do_" + name)(*lines)
        except OSError as fault:
            self.look(False, f"{verb} {lines[0]}: {fault}")

    def look(self, is_so, fault):
        """The current check has looked at something."""
        faults = self.checks.setdefault(self.label, [])
        if not is_so:
            faults.append(fault)

    def do_begin(self, label):
        self.label = label

    # ---- files that are made

    def do_gds(self, *lines):
        self.layout = "G.gds"
        put(self.layout, layout_of(list(lines), "gds", GDS.Gds))

    def do_oasis(self, *lines):
        self.layout = "G.oas"
        put(self.layout, lb.oasis_head() + lb.oasis_cell("TOP", digits(lines)) + lb.END)

    def do_deck(self, *lines):
        put("K", joined(["unit 1000", "top TOP", *(lines if lines[0] else USUAL)]).encode())

    def do_base(self, _):
        self.do_gds(*SQUARE)
        self.do_deck("")

    def do_shots(self, first, *more):
        name, *words = first.split(" ", 1)
        put(name, shot_file([*words, *more]))

    def do_text(self, first, *more):
        name, line = first.split(" ", 1)
        put(name, joined([line, *more]).encode())

    def do_bytes(self, first, *more):
        name, *words = first.split(" ", 1)
        self.layout = name if name in ("G.gds", "G.oas") else self.layout
        with open(name, "ab") as file:
            file.write(digits([*words, *more]))

    def do_put(self, first):
        name, offset, data = first.split(" ", 2)
        with open(name, "r+b") as file:
            file.seek(int(offset))
            file.write(digits([data]))

    def do_length(self, first):
        name, length = first.split()
        os.truncate(name, int(length))

    def do_copy(self, first):
        shutil.copyfile(*first.split())

    def do_folder(self, name):
        os.mkdir(name)

    def do_limit(self, kib):
        self.limit = 1024 * int(kib)

    # ---- runs of the program

    def do_run(self, first):
        def limited():
            resource.setrlimit(resource.RLIMIT_AS, (self.limit, self.limit))

        self.words = first.split()
        ended = subprocess.run([self.program, *self.words], stdout=subprocess.PIPE, stderr=subprocess.DEVNULL, check=False,
                               preexec_fn=None if self.limit is None else limited)
        self.status, self.printed = ended.returncode, ended.stdout.decode(errors="replace")

    def do_answer(self, first, *more):
        """Status and lines."""
        status, *line = first.split(" ", 1)
        self.answered(int(status), joined([*line, *more]))

    def answered(self, status, *texts):
        """The run ended with this status, and printed one of these texts."""
        unlike = list(difflib.unified_diff(texts[0].splitlines(), self.printed.splitlines(), n=0, lineterm=""))[2:]
        self.look(self.status == status and self.printed in texts, joined(
            [f"{' '.join(self.words)}: status {self.status}, wanted {status}", *unlike[:20]]).rstrip())

    def do_ends(self, first):
        status, line = first.split(" ", 1)
        last = (self.printed.splitlines() or [""])[-1]
        self.look((self.status, last) == (int(status), line), f"status {self.status}, and the last line is {last}")

    def do_adds_up(self, count):
        lines = [line.split() for line in self.printed.splitlines()]
        total = sum(int(words[2]) for words in lines[1:-1] if words[0] != "most")
        self.look(lines[-1:] == [["triangles", count]] and total == int(count), f"the windows have {total}: {lines[-1:]}")

    # ---- runs on layout and deck

    def report(self, pairs, lines):
        """The report of the layout, with these lines."""
        given = dict(pair.split("=") for pair in pairs)
        if not given.keys() <= COUNTS.keys():
            raise ValueError("no such count")
        counts = [f"{key} {value}" for key, value in (COUNTS | given).items()]
        return joined([{"G.gds": "format gdsii", "G.oas": "format oasis"}[self.layout], *counts, *lines])

    def fracture(self):
        if os.path.exists("out.oas"):
            os.unlink("out.oas")
        self.do_run(f"fracture {self.layout} K")

    def do_fracture(self, first, *lines):
        self.fracture()
        self.answered(0, self.report(first.split(), lines))

    def do_row(self, first, *shots):
        triangles, *pairs = first.split()
        self.label = "report"
        self.do_fracture(" ".join(pairs), f"output out.oas shots {len(shots)} triangles {triangles}")
        self.label = "shots"
        self.do_listing(f"out.oas {triangles}", *shots)

    def do_accepted(self, _):
        self.fracture()
        self.look(self.status == 0 and os.path.exists("out.oas"), f"status {self.status}")

    def do_refused(self, first):
        status, lines = first.split(" ", 1)
        self.fracture()
        self.answered(int(status), *(line + "\n" for line in lines.split(" | ")))
        self.do_none("out.oas")

    def do_cuts(self, _, *lines):
        whole = content(self.layout)
        table = [(int(length), text) for length, text in (line.split(" ", 1) for line in lines)]
        for length in range(len(whole)):
            put(self.layout, whole[:length])
            self.do_refused("3 " + [text for least, text in table if least <= length][-1])

    def judge(self, status, text):
        before = mark("out.oas")
        self.do_run(f"check {self.layout} K")
        self.answered(status, text)
        self.look(mark("out.oas") == before, "out.oas has changed")

    def do_check(self, first, *lines):
        self.judge(0, self.report(first.split(), lines))

    def do_judged(self, first):
        status, line = first.split(" ", 1)
        self.judge(int(status), line + "\n")

    def do_differs(self, text):
        self.judge(7, f"check refused: out.oas: {text}\n")

    def do_agrees(self, _):
        self.judge(0, re.sub("^output ", "exact ", self.printed, flags=re.M))

    # ---- files that are looked at

    def do_listing(self, first, *shots):
        name, triangles = first.split()
        self.do_run(f"shots {name}")
        self.answered(0, joined(["unit 2000", *(["layer 1 0", *shots] if shots else []),
                                 f"shots {len(shots)} triangles {triangles}"]))

    def do_packs(self, text, *records):
        self.do_run("pack F packed")
        self.answered(0, f"packed {text}\n")
        self.do_records("packed", *records)
        self.do_run("unpack packed plain")
        self.answered(0, f"unpacked {text.split(' in ')[0]}\n")
        self.do_same("plain F")

    def do_records(self, first, *more):
        pattern, *words = first.split(" ", 1)
        wanted = shot_file([*words, *more])
        names = glob.glob(pattern)
        self.look(names, f"{pattern} isn't there")
        for name in names:
            data = content(name)
            self.look(data == wanted, f"{name} has the records {data[41:-256].hex(' ')}")

    def do_size(self, first):
        name, size = first.split()
        self.look(os.path.getsize(name) == int(size), f"{name} has {os.path.getsize(name)} bytes")

    def do_same(self, first):
        one, other = first.split()
        self.look(content(one) == content(other), f"{one} isn't {other}")

    def do_count(self, first):
        pattern, count = first.split()
        found = len(glob.glob(pattern))
        self.look(found == int(count), f"{found} files {pattern}")

    def do_none(self, pattern):
        self.look(not glob.glob(pattern), f"{pattern} is there")


def lines_of(path):
    """The lines of a file of cases, each with its number, and with those joined that go on."""
    found = []
    with open(path, encoding="utf-8") as file:
        for number, line in enumerate(file, 1):
            line = line.rstrip()
            if line.startswith("    "):
                found[-1][1] += "\n" + line.strip()
            elif line and not line.startswith("#"):
                found.append([number, line])
    return found


def cases_of(path):
    """The cases of a file: for each its name, its place, and verbs with their lines."""
    texts, cases = {}, []
    for number, line in lines_of(path):
        for name, text in texts.items():
            line = line.replace("{" + name + "}", text)
        line = re.sub(r"\[([^\]]*)\]\*(\d+)", lambda it: "".join(it[1].replace("#", str(k)) for k in range(int(it[2]))), line)
        verb, text = re.match(r"(\S+) *(.*)", line, re.S).groups()
        if verb == "let":
            name, text = text.split(" ", 1)
            texts[name] = text
        elif verb == "==":
            cases.append((text, f"{os.path.relpath(path)}:{number}", []))
        else:
            lines = [part.strip() for part in re.split(r"[;\n]", text)]
            cases[-1][2].append((verb, [lines[0], *filter(None, lines[1:])]))
    return cases


def outcomes(program, name, steps):
    """The checks of a case, run in a folder of its own: their names and faults."""
    case = Case(program)
    with tempfile.TemporaryDirectory() as folder:
        os.chdir(folder)
        for verb, lines in steps:
            case.do(verb, lines)
        os.chdir(HERE)
    if not case.checks:
        raise ValueError("it has no check")
    return [(f"{name}: {label}" if label else name, faults) for label, faults in case.checks.items()]


def main(program, wanted=""):
    program = os.path.realpath(program)
    cases = [case for path in sorted(glob.glob(os.path.join(HERE, "rows", "*"))) for case in cases_of(path)]
    passed = failed = 0
    for name, place, steps in cases:
        if wanted not in name:
            continue
        try:
            found = outcomes(program, name, steps)
        except (TypeError, ValueError, Refused) as wrong:
            sys.exit(f"{place}: the case '{name}' can't be read: {wrong}")
        for what, faults in found:
            passed, failed = passed + (not faults), failed + bool(faults)
            print("\n    ".join([f"FAILED: {what}, {place}", *"\n".join(faults[:3]).splitlines()]) if faults else f"ok {what}")
    print(f"{passed} passed, {failed} failed")
    return failed == 0 and passed > 0


if len(sys.argv) in (2, 3):
    sys.exit(not main(*sys.argv[1:]))
sys.exit(__doc__)
