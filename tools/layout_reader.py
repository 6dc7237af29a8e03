"""Reads layouts record by record: the elements of GDSII and OASIS files, compressed blocks too.

    gds_elements(data)      the elements and cells of a GDSII file
    OasisReader             goes through the records of an OASIS file with the fields that are left out, and calls a method of its
                            own for each thing it finds; a tool's class has those that it asks for

Points are grid steps of the file. LayoutFault names the byte.
"""
from __future__ import annotations

import zlib
from fractions import Fraction
from typing import Any, Callable, Dict, Iterator, List, NamedTuple, Optional, Tuple, Union

from layout_bytes import MAGIC, LayoutFault, OasisBytes, Point, Repetition, gds_points, gds_records, gds_string

Pair = Tuple[int, int]
CellName = Union[str, int]
ONCE = Repetition()
# A block that says that it has more bytes than this is refused.
LONGEST_BLOCK = 1 << 30


# ---- GDSII

CELL, UNITS, FORMAT = 0x0606, 0x0305, 0x3602
BOUNDARY, PATH, SREF, AREF, TEXT, NODE, BOX = 0x0800, 0x0900, 0x0A00, 0x0B00, 0x0C00, 0x1500, 0x2D00
ELEMENTS = {BOUNDARY, PATH, SREF, AREF, TEXT, NODE, BOX}


class Element(NamedTuple):
    """An element, or a record outside of elements: its place, its kind, and its records' contents by their type bytes."""
    at: int
    kind: int
    records: Dict[int, bytes]

    @property
    def pair(self) -> Pair:
        return tuple(int.from_bytes(self.records.get(head, b"\0"), "big") for head in (0x0D02, 0x0E02))

    @property
    def points(self) -> List[Point]:
        return gds_points(self.records.get(0x1003, b""))

    @property
    def name(self) -> str:
        """The name of a cell."""
        return gds_string(self.records.get(CELL, b""))


def gds_elements(data) -> Iterator[Element]:
    """The elements of all cells, and the names of cells (CELL), UNITS and FORMAT where they stand."""
    element = None
    for at, head, content in gds_records(data):
        if head in ELEMENTS:
            element = Element(at, head, {})
        elif head == 0x1100:
            if element:
                yield element
            element = None
        elif element:
            element.records[head] = content
        elif head in (CELL, UNITS, FORMAT):
            yield Element(at, head, {head: content})


# ---- OASIS: corners

def level_trapezoid(w: int, h: int, a: int, b: int) -> List[Point]:
    """The corners of a trapezoid with level sides, from its box's lower left corner."""
    return [(max(-a, 0), 0), (max(a, 0), h), (w + min(b, 0), h), (w - max(b, 0), 0)]


def upright_trapezoid(w: int, h: int, a: int, b: int) -> List[Point]:
    return [(0, max(a, 0)), (0, h + min(b, 0)), (w, h - max(b, 0)), (w, max(-a, 0))]


def short_trapezoid(kind: int, w: int, h: int) -> List[Point]:
    """The corners of a CTRAPEZOID."""
    corners = {
        0: [(0, 0), (0, h), (w - h, h), (w, 0)], 1: [(0, 0), (0, h), (w, h), (w - h, 0)],
        2: [(0, 0), (h, h), (w, h), (w, 0)], 3: [(h, 0), (0, h), (w, h), (w, 0)],
        4: [(0, 0), (h, h), (w - h, h), (w, 0)], 5: [(h, 0), (0, h), (w, h), (w - h, 0)],
        6: [(0, 0), (h, h), (w, h), (w - h, 0)], 7: [(h, 0), (0, h), (w - h, h), (w, 0)],
        8: [(0, 0), (0, h), (w, h - w), (w, 0)], 9: [(0, 0), (0, h - w), (w, h), (w, 0)],
        10: [(0, 0), (0, h), (w, h), (w, w)], 11: [(0, w), (0, h), (w, h), (w, 0)],
        12: [(0, 0), (0, h), (w, h - w), (w, w)], 13: [(0, w), (0, h - w), (w, h), (w, 0)],
        14: [(0, 0), (0, h - w), (w, h), (w, w)], 15: [(0, w), (0, h), (w, h - w), (w, 0)], 16: [(0, 0), (0, w), (w, 0)],
        17: [(0, 0), (0, w), (w, w)], 18: [(0, 0), (w, w), (w, 0)], 19: [(0, w), (w, w), (w, 0)],
        20: [(0, 0), (h, h), (2 * h, 0)], 21: [(0, h), (2 * h, h), (h, 0)], 22: [(0, 0), (0, 2 * w), (w, w)],
        23: [(0, w), (w, 2 * w), (w, 0)], 24: [(0, 0), (0, h), (w, h), (w, 0)], 25: [(0, 0), (0, w), (w, w), (w, 0)],
    }
    if kind not in corners:
        raise LayoutFault(f"no CTRAPEZOID has the type {kind}")
    return corners[kind]


# ---- OASIS: records

class OasisReader:
    """Goes through the records of an OASIS file. What is found is handed to the methods `on_..`, which do nothing here."""

    def __init__(self, data):
        self.data = data
        self.cell: Optional[CellName] = None
        self.modal: Dict[str, Any] = {}
        self.begin_cell(None)
        self.names: Dict[int, str] = {}
        self.is_ended = False
        self.block: Optional[int] = None  # where the compressed block is that is being read

    # what is found

    def on_start(self, version: bytes, unit: Optional[Fraction]) -> None:
        """START, with its unit where that is a number."""

    def on_end(self, at: int) -> None:
        """END."""

    def on_block(self, at: int) -> None:
        """A compressed block, whose records follow."""

    def on_cell(self, at: int, name: CellName) -> None:
        """A cell, by its name or its number."""

    def on_placement(self, at: int, name: CellName, magnification: Optional[Fraction], angle: Optional[Fraction]) -> None:
        """A reference to a cell."""

    def on_shape(self, at: int, kind: str, pair: Pair, points: List[Point], repetition: Repetition) -> None:
        """A rectangle, polygon, or trapezoid by its corners."""

    def on_path(self, at: int, pair: Pair, points: List[Point], half: int, begin: int, end: int) -> None:
        """A path with its half width and how far its ends go."""

    def on_other(self, at: int, kind: str, pair: Pair) -> None:
        """A circle, or an XGEOMETRY."""

    def on_missing(self, at: int, name: str) -> None:
        """A field that is left out, and was never written; what goes on takes it as nothing."""
        raise LayoutFault(f"a record that leaves out {name}, which nothing before it has written,", at)

    # fields

    def take(self, at: int, name: str, is_written: int, read: Optional[Callable[[], Any]], nothing: Any = 0) -> Any:
        """A field that is kept from record to record: read, or the one of the last record that wrote it."""
        if is_written:
            self.modal[name] = read()
        elif name not in self.modal:
            self.on_missing(at, name)
            self.modal[name] = nothing
        return self.modal[name]

    def pair(self, at: int, data: OasisBytes, info: int) -> Pair:
        return self.take(at, "the layer", info & 1, data.unsigned), self.take(at, "the datatype", info & 2, data.unsigned)

    def repetition(self, at: int, data: OasisBytes, is_written: int) -> Repetition:
        if not is_written:
            return ONCE
        found = data.repetition()
        if found is not None:
            self.modal["the repetition"] = found
        return self.take(at, "the repetition", 0, None, ONCE)

    def place(self, at: int, data: OasisBytes, info: int, of: str = "geometry", x: int = 16, y: int = 8,
              repeated: int = 4) -> Tuple[Point, Repetition]:
        """Where an element is, and its repetition; positions are kept for each kind of element."""
        old = self.modal[of]
        base = old if self.modal["is relative"] else (0, 0)
        across = base[0] + data.signed() if info & x else old[0]
        up = base[1] + data.signed() if info & y else old[1]
        self.modal[of] = across, up
        return (across, up), self.repetition(at, data, info & repeated)

    def shape(self, at: int, kind: str, pair: Pair, corners: List[Point], data: OasisBytes, info: int) -> None:
        (x, y), repetition = self.place(at, data, info)
        self.on_shape(at, kind, pair, [(x + dx, y + dy) for dx, dy in corners], repetition)

    # records

    def begin_cell(self, name: Optional[CellName]) -> None:
        self.cell = name
        self.modal = {"is relative": False, "geometry": (0, 0), "placements": (0, 0), "texts": (0, 0)}

    def read_start(self, at: int, data: OasisBytes) -> None:
        self.on_start(data.text(), data.real())
        if data.unsigned() == 0:
            for _ in range(12):
                data.unsigned()

    def read_cell(self, at: int, data: OasisBytes, kind: int) -> None:
        self.begin_cell(data.unsigned() if kind == 13 else data.text().decode("latin-1"))
        self.on_cell(at, self.cell)

    def read_text(self, at: int, data: OasisBytes) -> None:
        info = data.byte()
        if info & 64:
            data.unsigned() if info & 32 else data.text()
        for bit in (1, 2):
            if info & bit:
                data.unsigned()
        self.place(at, data, info, "texts")

    def read_placement(self, at: int, data: OasisBytes, has_numbers: bool) -> None:
        info = data.byte()
        if info & 128:
            self.modal["the cell"] = data.unsigned() if info & 64 else data.text().decode("latin-1")
        magnification = data.real() if has_numbers and info & 4 else Fraction(1)
        angle = data.real() if has_numbers and info & 2 else Fraction(0)
        self.place(at, data, info, "placements", 32, 16, 8)
        self.on_placement(at, self.take(at, "the cell", 0, None, ""), magnification, angle)

    def read_rectangle(self, at: int, data: OasisBytes) -> None:
        info = data.byte()
        pair = self.pair(at, data, info)
        w = self.take(at, "the width", info & 64, data.unsigned)
        if info & 128:
            self.modal["the height"] = h = w
        else:
            h = self.take(at, "the height", info & 32, data.unsigned)
        self.shape(at, "rectangle", pair, [(0, 0), (0, h), (w, h), (w, 0)], data, info)

    def read_polygon(self, at: int, data: OasisBytes) -> None:
        info = data.byte()
        pair = self.pair(at, data, info)
        moves = self.take(at, "the polygon's points", info & 32, lambda: data.point_list(True), [])
        self.shape(at, "polygon", pair, corners_of(moves)[:-1] if moves else [(0, 0)], data, info)

    def read_path(self, at: int, data: OasisBytes) -> None:
        info = data.byte()
        pair = self.pair(at, data, info)
        half = self.take(at, "the half width", info & 64, data.unsigned)
        if info & 128:
            scheme = data.byte()
            for name, bits in (("the path's start", scheme >> 2 & 3), ("the path's end", scheme & 3)):
                if bits:
                    self.modal[name] = (0, half, data.signed() if bits == 3 else 0)[bits - 1]
        begin, end = self.take(at, "the path's start", 0, None), self.take(at, "the path's end", 0, None)
        moves = self.take(at, "the path's points", info & 32, lambda: data.point_list(False), [])
        (x, y), _ = self.place(at, data, info)
        self.on_path(at, pair, [(x + dx, y + dy) for dx, dy in corners_of(moves)], half, begin, end)

    def read_trapezoid(self, at: int, data: OasisBytes, kind: int) -> None:
        info = data.byte()
        pair = self.pair(at, data, info)
        w = self.take(at, "the width", info & 64, data.unsigned)
        h = self.take(at, "the height", info & 32, data.unsigned)
        a = data.signed() if kind != 25 else 0
        b = data.signed() if kind != 24 else 0
        self.shape(at, "trapezoid", pair, (upright_trapezoid if info & 128 else level_trapezoid)(w, h, a, b), data, info)

    def read_short_trapezoid(self, at: int, data: OasisBytes) -> None:
        info = data.byte()
        pair = self.pair(at, data, info)
        kind = self.take(at, "the type", info & 128, data.unsigned)
        for name, bit in (("the width", 64), ("the height", 32)):
            if info & bit:
                self.modal[name] = data.unsigned()
        w = 0 if kind in (20, 21) else self.take(at, "the width", 0, None)
        h = 0 if kind in (16, 17, 18, 19, 22, 23, 25) else self.take(at, "the height", 0, None)
        self.shape(at, "trapezoid", pair, short_trapezoid(kind, w, h), data, info)

    def read_circle(self, at: int, data: OasisBytes) -> None:
        info = data.byte()
        pair = self.pair(at, data, info)
        self.take(at, "the radius", info & 32, data.unsigned)
        self.place(at, data, info)
        self.on_other(at, "circle", pair)

    def read_extension(self, at: int, data: OasisBytes) -> None:
        info = data.byte()
        data.unsigned()
        pair = self.pair(at, data, info)
        data.text()
        self.place(at, data, info)
        self.on_other(at, "XGEOMETRY", pair)

    def read_property(self, at: int, data: OasisBytes) -> None:
        info = data.byte()
        if info & 4:
            data.unsigned() if info & 2 else data.text()
        if info & 8:
            return
        for _ in range(info >> 4 if info >> 4 < 15 else data.unsigned()):
            kind = data.byte()
            if kind < 8:
                data.real(kind)
            elif kind in (10, 11, 12):
                data.text()
            else:
                data.unsigned()

    def read_name(self, data: OasisBytes, kind: int) -> None:
        """A record of a name: CELLNAME, and those that nothing is asked of."""
        if kind in (30, 31):
            data.unsigned()
        text = data.text()
        if kind in (11, 12):
            for _ in range(2):
                for _ in range((0, 1, 1, 1, 2)[min(data.byte(), 4)]):
                    data.unsigned()
        number = data.unsigned() if kind in (4, 6, 8, 10, 31) else len(self.names)
        if kind in (3, 4):
            self.names[number] = text.decode("latin-1")

    def read_block(self, at: int, data: OasisBytes) -> None:
        """A compressed block: its records are read where it stands."""
        self.on_block(at)
        method, size, length = data.unsigned(), data.unsigned(), data.unsigned()
        packed = data.bytes(length)
        if method != 0 or size > LONGEST_BLOCK:
            raise LayoutFault("a block of an unknown compression", at)
        try:
            block = zlib.decompressobj(-15).decompress(bytes(packed), size)
        except zlib.error:
            raise LayoutFault("a compressed block that is broken", at) from None
        outer, self.block = self.block, at
        self.records(OasisBytes(block))
        self.block = outer

    def read(self) -> None:
        """Reads the whole file."""
        if bytes(self.data[:len(MAGIC)]) != MAGIC:
            raise LayoutFault("no OASIS file: it doesn't begin with %SEMI-OASIS", 0)
        self.records(OasisBytes(self.data, len(MAGIC)))

    def records(self, data: OasisBytes) -> None:
        readers = {1: self.read_start, 19: self.read_text, 20: self.read_rectangle, 21: self.read_polygon, 22: self.read_path,
                   26: self.read_short_trapezoid, 27: self.read_circle, 28: self.read_property, 33: self.read_extension,
                   34: self.read_block}
        while data.at < len(data.data) and not self.is_ended:
            at = data.at if self.block is None else self.block
            kind = data.byte()
            if kind in readers:
                readers[kind](at, data)
            elif 23 <= kind <= 25:
                self.read_trapezoid(at, data, kind)
            elif kind in (17, 18):
                self.read_placement(at, data, kind == 18)
            elif kind in (13, 14):
                self.read_cell(at, data, kind)
            elif 3 <= kind <= 12 or kind in (30, 31):
                self.read_name(data, kind)
            elif kind == 2:
                self.is_ended = True
                self.on_end(at)
            elif kind in (15, 16):
                self.modal["is relative"] = kind == 16
            elif kind == 32:
                data.unsigned()
                data.text()
            elif kind not in (0, 29):
                raise LayoutFault("no OASIS record", at)


def corners_of(moves: List[Point]) -> List[Point]:
    """The points that moves lead to, from (0, 0) on."""
    points = [(0, 0)]
    for dx, dy in moves:
        points.append((points[-1][0] + dx, points[-1][1] + dy))
    return points
