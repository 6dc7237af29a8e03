"""Panels of a picture in SVG: in a grid as wide as a page, with names that fit."""
from __future__ import annotations

import sys
from typing import Iterable, List, Sequence, Tuple
from xml.sax.saxutils import escape

from tool_files import replacing

MARGIN = 18
# As wide as a page, in pixels: two panels, or three where there are more than four.
PAGE = 830
LARGE, SMALL, MOST_LARGE = 360, 240, 4
# A letter of sans-serif is about so wide, in parts of its size.
LETTER = 0.58


def panel_size(count: int) -> int:
    """The greater side of a panel, of so many."""
    return LARGE if count <= MOST_LARGE else SMALL


def grid(count: int, width: float, height: float) -> Tuple[List[Tuple[float, float]], float, float]:
    """The upper left corners of panels in rows, and how wide and high all are."""
    columns = max(1, min(count, int(PAGE // width)))
    places = [(k % columns * width, k // columns * height) for k in range(count)]
    return places, columns * width, -(-count // columns) * height


def text_width(text: str, size: int) -> float:
    return LETTER * size * len(text)


def fitted(text: str, width: float, size: int) -> str:
    """The text, with its middle left out where it is wider."""
    most = max(3, int(width / (LETTER * size)))
    if len(text) <= most:
        return text
    return text[:(most - 1) // 2] + "…" + text[len(text) - most // 2:]


def said(x: float, y: float, text: str, size: int = 12, fill: str = "black", anchor: str = "start", width: float = 0) -> str:
    """A text, cut to a width where one is given: the whole is shown where the pointer rests then."""
    shown = fitted(text, width, size) if width else text
    title = f"<title>{escape(text)}</title>" if shown != text else ""
    return (f'<text x="{x:.2f}" y="{y:.2f}" font-family="sans-serif" font-size="{size}" fill="{fill}" text-anchor="{anchor}">'
            f"{title}{escape(shown)}</text>")


def legend(entries: Sequence[Tuple[str, str]], left: float, top: float, width: float, size: int = 11) -> Tuple[List[str], float]:
    """Colours with their names, wrapped at a width, and how high they are together."""
    out, x, y, line = [], left, top, size + 7
    for colour, name in entries:
        shown = fitted(name, width - 22, size)
        wide = 22 + text_width(shown, size) + 10
        if x > left and x + wide > left + width:
            x, y = left, y + line
        out.append(f'<rect x="{x:.2f}" y="{y + 3:.2f}" width="14" height="10" fill="{colour}" fill-opacity="0.35" stroke="{colour}"/>')
        out.append(said(x + 19, y + 12, name, size, width=width - 22))
        x += wide
    return out, (y - top + line if entries else 0)


def svg(width: float, height: float, parts: Iterable[str]) -> str:
    """The picture, on white."""
    return "\n".join([f'<svg xmlns="http://www.w3.org/2000/svg" width="{width:.0f}" height="{height:.0f}" '
                      f'viewBox="0 0 {width:.2f} {height:.2f}">', '<rect width="100%" height="100%" fill="white"/>', *parts,
                      "</svg>"]) + "\n"


def write_picture(path: str, text: str, inputs: Sequence[str]) -> None:
    """Writes the picture to a file, or to standard output where the path is empty."""
    if not path:
        sys.stdout.write(text)
        return
    with replacing(path, inputs, is_text=True) as file:
        file.write(text)
