"""Layouts written as plain text, a line for each thing: what the tools gds and oas have in common.

A format's writer has `begin(unit)` (with the word of the line `unit`, or None), `cell(name, elements)` and
`end`, and for each kind of line a method that gives its bytes.
"""
from __future__ import annotations

import struct
import sys
from typing import Dict, List, Sequence, Tuple

from layout_bytes import Point
from tool_files import Refused, read_lines, replacing, wrong_words

FORMS = {
    "unit": "unit N, before all else",
    "cell": "cell NAME",
    "boundary": "boundary L D X,Y ..",
    "box": "box L D X0,Y0 X1,Y1",
    "path": "path L D [type=T] [width=W] X,Y ..",
    "sref": "sref CELL [flip] [mag=M] [angle=A] X,Y",
    "aref": "aref CELL [flip] [mag=M] [angle=A] size=COLUMNSxROWS X,Y X,Y X,Y",
    "text": "text L X,Y STRING",
}
OPTIONS = {"path": {"type", "width"}, "sref": {"flip", "mag", "angle"}, "aref": {"flip", "mag", "angle", "size"}}


class Wrong(ValueError):
    """A line that doesn't have its form; the text says more where there is more to say."""


def numbers(words: Sequence[str], count: int) -> List[int]:
    """Whole numbers, exactly so many."""
    if len(words) != count:
        raise Wrong("")
    try:
        return [int(word) for word in words]
    except ValueError:
        raise Wrong("") from None


def points(words: Sequence[str], least: int, most: int = 1 << 30) -> List[Point]:
    if not least <= len(words) <= most:
        raise Wrong("")
    return [tuple(numbers(word.split(","), 2)) for word in words]


def split(kind: str, words: Sequence[str]) -> Tuple[Dict[str, str], List[str]]:
    """The options and flags of a line, and its points."""
    options = [word.split("=", 1) for word in words if "," not in word]
    if any(option[0] not in OPTIONS[kind] or len(option) != 2 - (option[0] == "flip") for option in options):
        raise Wrong("")
    return {option[0]: option[-1] for option in options}, [word for word in words if "," in word]


def element(writer, kind: str, words: List[str]) -> bytes:
    """The bytes of a line in a cell."""
    if kind in ("boundary", "box", "path"):
        layer, datatype = numbers(words[:2], 2)
        if kind == "boundary":
            return writer.boundary(points(words[2:], 1), layer, datatype)
        if kind == "box":
            (x0, y0), (x1, y1) = points(words[2:], 2, 2)
            return writer.box(x0, y0, x1, y1, layer, datatype)
        options, places = split(kind, words[2:])
        width, ends = (None if key not in options else numbers([options[key]], 1)[0] for key in ("width", "type"))
        return writer.path(points(places, 1), layer, datatype, width, ends)
    if kind == "text":
        if len(words) != 3:
            raise Wrong("")
        return writer.text(words[2], points(words[1:2], 1)[0], numbers(words[:1], 1)[0])
    options, places = split(kind, words[1:])
    size = None
    if kind == "aref":
        size = tuple(numbers(options.pop("size", "").split("x"), 2))
    count = 1 if size is None else 3
    return writer.reference(words[0], points(places, count, count), options, size)


def layout_of(lines: List[str], where: str, writer) -> bytes:
    """The whole layout's bytes; a wrong line is refused with its number."""
    cells: List[Tuple[str, List[bytes]]] = []
    head = None
    for number, line in enumerate(lines, 1):
        kind, *words = line.split("#")[0].split() or [""]
        if not kind:
            continue
        try:
            if kind == "unit" and head is None and len(words) == 1:
                head = writer.begin(words[0])
                continue
            head = head or writer.begin(None)
            if kind == "cell" and len(words) == 1:
                cells.append((words[0], []))
            elif kind in FORMS and kind not in ("unit", "cell") and words:
                if not cells:
                    raise Wrong(": no cell has begun")
                cells[-1][1].append(element(writer, kind, words))
            else:
                raise Wrong("" if kind in FORMS else f": no such line; they are {', '.join(FORMS)}")
        except (ValueError, struct.error) as wrong:
            reason = str(wrong) if isinstance(wrong, Wrong) else "; a number doesn't fit"
            form = f" isn't `{FORMS[kind]}`" if kind in FORMS and not reason.startswith(":") else ""
            raise Refused(f"{where}: line {number}: `{' '.join([kind, *words])[:80]}`{form}{reason}") from None
    if not cells:
        raise Refused(f"{where}: has no cell")
    return head + b"".join(writer.cell(name, elements) for name, elements in cells) + writer.end


def write(words: List[str], doc: str, writer) -> None:
    """What the tools do: FILE [DESCRIPTION]."""
    if not 1 <= len(words) <= 2 or words[0].startswith("--"):
        raise wrong_words(doc)
    source = words[1] if len(words) == 2 else "-"
    if source == "-" and sys.stdin.isatty():
        raise Refused("standard input: a description is wanted there, or the name of a file")
    data = layout_of(read_lines(source), "standard input" if source == "-" else source, writer)
    with replacing(words[0], [source] if source != "-" else []) as file:
        file.write(data)
