"""The bytes of GDSII and OASIS files: what writes them, and what reads them.

Lengths are grid steps of the file. What writes gives `bytes`; what reads raises LayoutFault, which has the
place.

    writing GDSII   gds_record, gds_name, gds_int16, gds_int32, gds_real_bytes, gds_head, GDS_END, gds_cell,
                    gds_boundary, gds_box, gds_path, gds_placement, gds_text
    reading GDSII   gds_records, gds_real, gds_numbers, gds_points, gds_string
    writing OASIS   unsigned, signed, text, general, point_list, oasis_head, END, oasis_cell, oasis_rectangle,
                    oasis_polygon, oasis_path, oasis_placement, oasis_text, grid
    reading OASIS   OasisBytes, Repetition
    shot files      shots_head, shot_record (nettletide_shots reads and writes whole files)
"""
from __future__ import annotations

import struct
from fractions import Fraction
from typing import Iterable, Iterator, List, Optional, Sequence, Tuple, Union

Point = Tuple[int, int]
Name = Union[str, bytes]


class LayoutFault(ValueError):
    """The bytes are no layout: what is wrong, and at which byte."""

    def __init__(self, what: str, at: Optional[int] = None):
        super().__init__(what if at is None else f"{what} at byte {at}")
        self.at = at


# ---- GDSII, written

NO_DATES = bytes(24)
# A thousandth and a billionth, as eight-byte reals: the grid is a nanometre, and a thousandth of the user's
# unit.
THOUSANDTH = bytes.fromhex("3E4189374BC6A7F0")
NANOMETRE = bytes.fromhex("3944B82FA09B5A54")


def gds_record(head: int, content: bytes = b"") -> bytes:
    """A record: its length, its two type bytes and its content."""
    return struct.pack(">HH", len(content) + 4, head) + content


def gds_name(name: Name) -> bytes:
    """A name, padded to an even length."""
    data = name if isinstance(name, bytes) else name.encode()
    return data + bytes(len(data) % 2)


def gds_int16(*numbers: int) -> bytes:
    """Numbers of two bytes, which are taken without a sign."""
    return struct.pack(f">{len(numbers)}H", *numbers)


def gds_int32(*numbers: int) -> bytes:
    """Numbers of four bytes with their signs."""
    return struct.pack(f">{len(numbers)}i", *numbers)


def gds_real_bytes(number: int) -> bytes:
    """A whole number as an eight-byte real."""
    exponent = 64
    while abs(number) >= 16 ** (exponent - 64):
        exponent += 1
    fraction = abs(number) * 2**56 // 16 ** (exponent - 64)
    return bytes([exponent | (0x80 if number < 0 else 0)]) + fraction.to_bytes(7, "big")


def gds_head(unit: bytes = NANOMETRE, name: Name = "L") -> bytes:
    """The records before the first cell; the unit is the grid in metres, as an eight-byte real."""
    return (gds_record(0x0002, gds_int16(600)) + gds_record(0x0102, NO_DATES) + gds_record(0x0206, gds_name(name))
            + gds_record(0x0305, THOUSANDTH + unit))


GDS_END = gds_record(0x0400)


def gds_cell(name: Name, *elements: bytes) -> bytes:
    """A cell of these elements."""
    return gds_record(0x0502, NO_DATES) + gds_record(0x0606, gds_name(name)) + b"".join(elements) + gds_record(0x0700)


def gds_xy(points: Iterable[Point]) -> bytes:
    return gds_record(0x1003, gds_int32(*(number for point in points for number in point)))


def gds_element(head: int, layer: int, datatype: int, *records: bytes) -> bytes:
    return (gds_record(head) + gds_record(0x0D02, gds_int16(layer)) + gds_record(0x0E02, gds_int16(datatype))
            + b"".join(records) + gds_record(0x1100))


def gds_boundary(points: Sequence[Point], layer: int = 1, datatype: int = 0) -> bytes:
    """A polygon, which is closed here."""
    return gds_element(0x0800, layer, datatype, gds_xy([*points, points[0]]))


def gds_box(x0: int, y0: int, x1: int, y1: int, layer: int = 1, datatype: int = 0) -> bytes:
    """A rectangle, as a polygon."""
    return gds_boundary([(x0, y0), (x0, y1), (x1, y1), (x1, y0)], layer, datatype)


def gds_path(points: Sequence[Point], layer: int = 1, datatype: int = 0, width: Optional[int] = None,
             kind: Optional[int] = None) -> bytes:
    """A path; without a width or a kind (PATHTYPE) it has no such record."""
    records = [] if kind is None else [gds_record(0x2102, gds_int16(kind))]
    records += [] if width is None else [gds_record(0x0F03, gds_int32(width))]
    return gds_element(0x0900, layer, datatype, *records, gds_xy(points))


def gds_placement(name: Name, points: Sequence[Point], flip: bool = False, magnification: Optional[bytes] = None,
                  angle: Optional[bytes] = None, size: Optional[Tuple[int, int]] = None) -> bytes:
    """A reference; with a size (columns, rows) an array, whose points are its origin, that moved by all columns, and by all
    rows. Magnification and angle are the bytes of reals."""
    out = gds_record(0x0A00 if size is None else 0x0B00) + gds_record(0x1206, gds_name(name))
    if flip or magnification is not None or angle is not None:
        out += gds_record(0x1A01, gds_int16(0x8000 if flip else 0))
    out += b"" if magnification is None else gds_record(0x1B05, magnification)
    out += b"" if angle is None else gds_record(0x1C05, angle)
    out += b"" if size is None else gds_record(0x1302, gds_int16(*size))
    return out + gds_xy(points) + gds_record(0x1100)


def gds_text(string: Name, at: Point, layer: int = 1) -> bytes:
    """A text, of which no geometry comes."""
    return (gds_record(0x0C00) + gds_record(0x0D02, gds_int16(layer)) + gds_record(0x1602, gds_int16(0)) + gds_xy([at])
            + gds_record(0x1906, gds_name(string)) + gds_record(0x1100))


# ---- GDSII, read

def gds_records(data) -> Iterator[Tuple[int, int, bytes]]:
    """The place, the type bytes and the content of each record up to ENDLIB, after which only zeros may stand."""
    at, size = 0, len(data)
    while True:
        if at + 4 > size:
            raise LayoutFault("the file is cut", at)
        length, head = struct.unpack_from(">HH", data, at)
        if length < 4 or length % 2 or at + length > size:
            raise LayoutFault("no GDSII record", at)
        yield at, head, bytes(data[at + 4:at + length])
        at += length
        if head == 0x0400:
            if bytes(data[at:]).strip(b"\0"):
                raise LayoutFault("bytes after the end of the library", at)
            return


def gds_real(content: bytes) -> Fraction:
    """The value of an eight-byte real."""
    bits = int.from_bytes(content, "big")
    value = Fraction(bits & (1 << 56) - 1, 1 << 56) * Fraction(16) ** ((bits >> 56 & 127) - 64)
    return -value if bits >> 63 else value


def gds_numbers(content: bytes, size: int) -> Tuple[int, ...]:
    """Numbers of two or four bytes with their signs."""
    count, form = len(content) // size, {2: "h", 4: "i"}[size]
    return struct.unpack_from(f">{count}{form}", content)


def gds_points(content: bytes) -> List[Point]:
    """The points of an XY record."""
    flat = gds_numbers(content, 4)
    return list(zip(flat[::2], flat[1::2]))


def gds_string(content: bytes) -> str:
    """A name without the zeros that pad it."""
    return content.rstrip(b"\0").decode("latin-1")


# ---- OASIS, written

MAGIC = b"%SEMI-OASIS\r\n"
# The last record, without a checksum. It has 256 bytes.
END = b"\x02\xFC\x01" + bytes(253)


def unsigned(*numbers: int) -> bytes:
    """Numbers without a sign: seven bits a byte, lowest first, the top bit set but in the last."""
    out = bytearray()
    for number in numbers:
        while number >= 128:
            out.append(number & 127 | 128)
            number >>= 7
        out.append(number)
    return bytes(out)


def signed(*numbers: int) -> bytes:
    """Numbers with their signs in bit 0."""
    return unsigned(*(2 * number if number >= 0 else 1 - 2 * number for number in numbers))


def text(name: Name) -> bytes:
    """A string: its length and its bytes."""
    data = name if isinstance(name, bytes) else name.encode()
    return unsigned(len(data)) + data


def general(dx: int, dy: int) -> bytes:
    """A move, as a g-delta of the second form."""
    return unsigned(4 * abs(dx) + 2 * (dx < 0) + 1) + signed(dy)


def point_list(points: Sequence[Point]) -> bytes:
    """The points after the first, as moves."""
    moves = (general(b[0] - a[0], b[1] - a[1]) for a, b in zip(points, points[1:]))
    return unsigned(4, len(points) - 1) + b"".join(moves)


def oasis_head(unit: int = 1000) -> bytes:
    """Magic and START, for a unit of grid steps in a micrometre."""
    return MAGIC + b"\x01" + text("1.0") + unsigned(0, unit, 0) + bytes(12)


def oasis_cell(name: Name, *records: bytes) -> bytes:
    """A cell of these records, which is named by a string."""
    return b"\x0E" + text(name) + b"".join(records)


def oasis_rectangle(x0: int, y0: int, x1: int, y1: int, layer: int = 1, datatype: int = 0, repetition: bytes = b"") -> bytes:
    """A rectangle; with the bytes of a repetition, the record has it."""
    info = 0x7F if repetition else 0x7B
    return bytes([20, info]) + unsigned(layer, datatype, x1 - x0, y1 - y0) + signed(x0, y0) + repetition


def oasis_polygon(points: Sequence[Point], layer: int = 1, datatype: int = 0) -> bytes:
    """A polygon, which closes by itself."""
    return b"\x15\x3B" + unsigned(layer, datatype) + point_list(points) + signed(*points[0])


def oasis_path(points: Sequence[Point], layer: int = 1, datatype: int = 0, half: int = 0, is_extended: bool = False) -> bytes:
    """A path of this half width, whose ends are flush or go half a width further."""
    return (b"\x16\xFB" + unsigned(layer, datatype, half, 0x0A if is_extended else 0x05) + point_list(points)
            + signed(*points[0]))


def oasis_placement(name: Name, at: Point, flip: bool = False, magnification: int = 1, angle: int = 0,
                    repetition: bytes = b"") -> bytes:
    """A reference; with the bytes of a repetition, an array."""
    info = (0xBE if repetition else 0xB6) + flip
    return bytes([18, info]) + text(name) + unsigned(0, magnification, 0, angle) + signed(*at) + repetition


def oasis_text(string: Name, at: Point, layer: int = 1) -> bytes:
    """A text, of which no geometry comes."""
    return b"\x13\x5B" + text(string) + unsigned(layer, 0) + signed(*at)


def grid(columns: int, rows: int, column: Point, row: Point) -> bytes:
    """A repetition of columns and rows, more than one in all, by the moves from one to the next."""
    if columns > 1 and rows > 1:
        return unsigned(8, columns - 2, rows - 2) + general(*column) + general(*row)
    count, step = (columns, column) if columns > 1 else (rows, row)
    return unsigned(9, count - 2) + general(*step)


# ---- OASIS, read

class Repetition:
    """The moves of a repetition: a grid of two moves, or a list."""

    def __init__(self, columns: int = 1, column: Point = (0, 0), rows: int = 1, row: Point = (0, 0),
                 moves: Optional[List[Point]] = None):
        self.columns, self.column, self.rows, self.row, self.moves = columns, column, rows, row, moves

    def __len__(self) -> int:
        return self.columns * self.rows if self.moves is None else len(self.moves)

    def __iter__(self) -> Iterator[Point]:
        if self.moves is not None:
            yield from self.moves
            return
        (ux, uy), (vx, vy) = self.column, self.row
        for b in range(self.rows):
            for a in range(self.columns):
                yield a * ux + b * vx, a * uy + b * vy


WAYS = ((1, 0), (0, 1), (-1, 0), (0, -1), (1, 1), (-1, 1), (-1, -1), (1, -1))


def along(direction: int, length: int) -> Point:
    dx, dy = WAYS[direction]
    return dx * length, dy * length


class OasisBytes:
    """Numbers and strings of OASIS, one after another, from a place in the bytes on."""

    def __init__(self, data, at: int = 0):
        self.data, self.at = data, at

    def byte(self) -> int:
        if self.at >= len(self.data):
            raise LayoutFault("the file is cut", self.at)
        self.at += 1
        return self.data[self.at - 1]

    def unsigned(self) -> int:
        value = shift = 0
        while True:
            byte = self.byte()
            value |= (byte & 127) << shift
            shift += 7
            if byte < 128:
                return value

    def signed(self) -> int:
        value = self.unsigned()
        return -(value >> 1) if value & 1 else value >> 1

    def bytes(self, length: int):
        """That many bytes."""
        if length > len(self.data) - self.at:
            raise LayoutFault("the file is cut", len(self.data))
        self.at += length
        return self.data[self.at - length:self.at]

    def text(self) -> bytes:
        return bytes(self.bytes(self.unsigned()))

    def real(self, kind: Optional[int] = None) -> Optional[Fraction]:
        """A real's value, or none where it isn't a number; the kind, where it was read before."""
        kind = self.byte() if kind is None else kind
        if kind < 6:
            top = 1 if kind in (2, 3) else self.unsigned()
            bottom = 1 if kind < 2 else self.unsigned()
            return Fraction(-top if kind % 2 else top, bottom) if bottom else None
        if kind > 7:
            raise LayoutFault("no real number", self.at - 1)
        number = struct.unpack("<f" if kind == 6 else "<d", self.bytes(4 if kind == 6 else 8))[0]
        return Fraction(number) if abs(number) < 2**24 else None

    def way(self, bits: int) -> Point:
        """A delta in one of four or eight directions, of which the lowest bits tell."""
        value = self.unsigned()
        return along(value & (1 << bits) - 1, value >> bits)

    def general(self) -> Point:
        """A g-delta."""
        value = self.unsigned()
        if value & 1 == 0:
            return along(value >> 1 & 7, value >> 4)
        x = value >> 2
        return (-x if value & 2 else x), self.signed()

    def point_list(self, is_polygon: bool) -> List[Point]:
        """The moves of a point list; those of a polygon lead back to its start."""
        kind, count = self.byte(), self.unsigned()
        if kind > 5:
            raise LayoutFault("no point list", self.at)
        moves, last = [], (0, 0)
        for k in range(count):
            if kind < 2:
                length = self.signed()
                moves.append((length, 0) if (k + kind) % 2 == 0 else (0, length))
            elif kind < 4:
                moves.append(self.way(kind))
            else:
                step = self.general()
                last = step if kind == 4 else (last[0] + step[0], last[1] + step[1])
                moves.append(last)
        if is_polygon:
            rest = (-sum(move[0] for move in moves), -sum(move[1] for move in moves))
            moves += [(rest[0], 0), (0, rest[1])] if kind == 0 else [(0, rest[1]), (rest[0], 0)] if kind == 1 else [rest]
        return moves

    def repetition(self) -> Optional[Repetition]:
        """A repetition, or none where it is the last one again."""
        kind = self.byte()
        if kind > 11:
            raise LayoutFault("no repetition", self.at - 1)
        if kind == 0:
            return None
        count = self.unsigned() + 2
        if kind == 1:
            rows, across, up = self.unsigned() + 2, self.unsigned(), self.unsigned()
            return Repetition(count, (across, 0), rows, (0, up))
        if kind in (2, 3):
            space = self.unsigned()
            return Repetition(count, (space, 0) if kind == 2 else (0, space))
        if kind == 8:
            rows = self.unsigned() + 2
            return Repetition(count, self.general(), rows, self.general())
        if kind == 9:
            return Repetition(count, self.general())
        return Repetition(moves=self.moves(kind, count))

    def moves(self, kind: int, count: int) -> List[Point]:
        """The moves of a repetition that lists its spaces."""
        factor = self.unsigned() if kind in (5, 7, 11) else 1
        x = y = 0
        out = [(0, 0)]
        for _ in range(count - 1):
            if kind >= 10:
                dx, dy = self.general()
            else:
                space = self.unsigned()
                dx, dy = (space, 0) if kind < 6 else (0, space)
            x, y = x + factor * dx, y + factor * dy
            out.append((x, y))
        return out


# ---- shot files

def shots_head(unit: int = 2000) -> bytes:
    """The head of a shot file; the unit is in half units a micrometre, twice that of the deck."""
    return oasis_head(unit) + oasis_cell("SHOTS")


def shot_record(y0: int, y1: int, a: int, b: int, c: int, d: int, layer: int = 1, datatype: int = 0) -> bytes:
    """A shot by its two Y, the two X of its lower side, and those of its upper one. Lengths are half units."""
    left = a if a < c else c
    slants = [slant for slant in (c - a, d - b) if slant]
    kind = (0x18 if c != a else 0x19) if len(slants) == 1 else 0x17 if slants else 0x14
    return (bytes([kind, 0x7B]) + unsigned(layer, datatype, (b if b > d else d) - left, y1 - y0)
            + signed(*slants, left, y0))
