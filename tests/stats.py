#!/usr/bin/env python3
"""Compares tools/stats with a plain count over lists of shots, with numpy and without, and tries a wrong file.

    usage: tests/stats.py
"""
from __future__ import annotations

import json
import os
import random
import subprocess
import sys
import tempfile
from fractions import Fraction
from statistics import median

HERE = os.path.dirname(os.path.realpath(__file__))
TOOLS = os.path.join(HERE, "..", "tools")
sys.path.insert(0, TOOLS)
from nettletide_shots import write_shots  # noqa: E402

UNIT = 2000


def shot(source):
    """A rectangle, or a shot with slanted sides, at most some thousand half units wide and high."""
    y0, height = 2 * source.randrange(-10**6, 10**6), source.choice((2, 30, 400)) * source.randint(1, 9)
    left, width = 2 * source.randrange(-10**6, 10**6), source.randint(1, 3000) * 2
    slants = [source.choice((0, 0, height, -height)) for _ in range(2)]
    upper_left, upper_right = left + slants[0], left + width + slants[1]
    if upper_right < upper_left:
        return y0, y0 + height, left, left + width, left, left + width
    return y0, y0 + height, left, left + width, upper_left, upper_right


def counted(path, shots):
    """What stats says of these shots, from the rules alone."""
    thick = [min(Fraction(y1 - y0), Fraction(b - a + d - c, 2)) for y0, y1, a, b, c, d in shots]
    widths = [side for _, _, a, b, c, d in shots for side in (b - a, d - c) if side]
    heights = [y1 - y0 for y0, y1, *_ in shots]
    triangles = sum((b - a + d - c) * (y1 - y0) for y0, y1, a, b, c, d in shots)
    return {
        "file": path, "unit": UNIT, "shots": len(shots), "triangles": triangles, "area_um2": triangles / (2 * UNIT * UNIT),
        "least_width": min(widths, default=None), "greatest_width": max(widths, default=None),
        "least_height": min(heights, default=None), "greatest_height": max(heights, default=None),
        "median_thickness": float(median(thick)) if shots else None,
        "thin": sum(10 * t < median(thick) for t in thick) if shots else 0,
    }


def said(words, without_numpy):
    before = "import sys; sys.modules['numpy'] = None; " if without_numpy else "import sys; "
    run = "import runpy; sys.argv = sys.argv[1:]; runpy.run_path(sys.argv[0], run_name='__main__')"
    return subprocess.run([sys.executable, "-c", before + run, os.path.join(TOOLS, "stats"), *words],
                          stdout=subprocess.PIPE, stderr=subprocess.PIPE, universal_newlines=True)


def main():
    source, failed = random.Random(1), 0
    with tempfile.TemporaryDirectory() as room:
        os.chdir(room)
        lists = [[shot(source) for _ in range(count)] for count in (0, 1, 2, 7, 1000, 1001)]
        names = [f"{len(shots)}.oas" for shots in lists]
        for name, shots in zip(names, lists):
            write_shots(name, UNIT, 1, 0, shots)
        wanted = [counted(name, shots) for name, shots in zip(names, lists)]
        for without_numpy in (False, True):
            found = said(["--json", *names], without_numpy)
            failed += found.returncode != 0 or json.loads(found.stdout) != wanted
        lines = said(names, True).stdout.splitlines()
        failed += lines[0] != "0.oas: 0 shots, 0.000 um2" or len(lines) != len(names)
        with open("wrong", "wb") as file:
            file.write(b"no shots")
        wrong = said([names[1], "wrong"], False)
        failed += wrong.returncode != 2 or wrong.stderr.count("\n") != 1 or "wrong: head at 0" not in wrong.stderr
    print(f"{5 - failed} passed, {failed} failed")
    return int(failed > 0)


sys.exit(main())
