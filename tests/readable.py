#!/usr/bin/env python3
"""Compares tools/readable with the program: tests/readable.py PROGRAM [COUNT [SEED]]

Makes COUNT random small layouts (100 where it is missing), many with something that isn't read, as GDSII and as OASIS files.
A layer must be called read exactly where `fracture` reads it, and where something stands in the way of the file, `fracture`
must refuse each layer.
"""
import os
import random
import subprocess
import sys
import tempfile

TOOLS = os.path.join(os.path.dirname(os.path.abspath(__file__)), "..", "tools")
OCTILINEAR = [(1, 0), (0, 1), (-1, 0), (0, -1), (1, 1), (-1, 1), (1, -1), (-1, -1)]


def said(points):
    return " ".join(f"{x},{y}" for x, y in points)


def polygon(chance):
    x = y = 0
    points = [(x, y)]
    for _ in range(chance.randrange(1, 5)):
        dx, dy = chance.choice(OCTILINEAR if chance.random() < 0.95 else [(1, 2), (3, -1)])
        far = chance.randrange(1, 9)
        x, y = x + far * dx, y + far * dy
        points.append((x, y))
    return points + ([(0, y)] if chance.random() < 0.9 else [])


def path(chance, kinds):
    x = y = 0
    points = [(x, y)]
    for _ in range(chance.randrange(1, 4)):
        dx, dy = chance.choice(OCTILINEAR[:2] if chance.random() < 0.9 else OCTILINEAR)
        far = chance.randrange(0, 5)
        x, y = x + far * dx, y + far * dy
        points.append((x, y))
    return f"type={chance.choice(kinds)} width={chance.choice([0, 2, 4, 8])} {said(points)}"


def layout(chance, name):
    """A layout's text: a cell and its leaf, with six layers, of which some can't be read."""
    kinds = [0, 2] if name == "oas" else [0, 0, 2, 2, 1, 4, 3]
    lines = ["cell LEAF", "box 1 0 0,0 5,5", "cell TOP"]
    for layer in range(2, 8):
        for _ in range(chance.randrange(1, 4)):
            if chance.random() < 0.5:
                lines.append(f"boundary {layer} 0 {said(polygon(chance))}")
            else:
                lines.append(f"path {layer} 0 {path(chance, kinds)}")
    angle, mag = chance.choice([0, 90, 270, 360, 0, 90, 45]), chance.choice([1, 2, 16, 1, 1, 1, 17])
    child = chance.choice(["LEAF"] * 9 + ["GONE"])
    lines.append(f"sref {child} mag={mag} angle={angle} 20,20")
    return "\n".join(lines) + "\n"


def fault(program, folder, name, chance):
    """What readable and the program say differently of a random layout, or nothing; and how many layers are read."""
    text = layout(chance, name)
    subprocess.run([os.path.join(TOOLS, name), "G." + name], cwd=folder, input=text.encode(), check=True)
    ended = subprocess.run([os.path.join(TOOLS, "readable"), "G." + name, program], cwd=folder, stdout=subprocess.PIPE)
    lines = [line.split() for line in ended.stdout.decode().splitlines()]
    layers = {words[1].rstrip(":") for words in lines if words[0] == "layer"}
    refused = {words[1].rstrip(":") for words in lines if words[2:6] == ["the", "program", "says", "of"]}
    is_read = {words[1].rstrip(":") for words in lines if words[0] == "layer" and words[2] == "read,"}
    wanted = layers if any(words[0] == "file:" for words in lines) else layers - is_read
    if wanted != refused or len(layers) < 6:
        return f"{text}{ended.stdout.decode()}", 0
    return None, len(layers - refused)


def main(program, count=100, seed=1):
    program = os.path.realpath(program)
    failed = read = 0
    with tempfile.TemporaryDirectory() as folder:
        for case in range(int(seed), int(seed) + int(count)):
            for name in ("gds", "oas"):
                what, layers = fault(program, folder, name, random.Random(case))
                read += layers
                if what:
                    failed += 1
                    print(f"seed {case}, {name}:\n{what}")
    print(f"{2 * int(count)} layouts, {read} layers read, {failed} failed")
    return 1 if failed else 0


if 2 <= len(sys.argv) <= 4:
    sys.exit(main(*sys.argv[1:]))
sys.exit(__doc__)
