"""Reads and writes shot files.

    from nettletide_shots import read_shots

    for y0, y1, a, b, c, d in read_shots("block.oas"):
        ...

A shot is a tuple of six numbers, as in a line of `nettletide shots`: its lower and its upper Y, the X of its
lower side's left and right end, and the X of its upper side's left and right end. Lengths are half units of
the deck.

    read_shots(path)      the shots one after another, as tuples
    read_columns(path)    the same in pieces of six columns, which are numpy arrays where numpy is there, else lists
    read_array(path)      all as one numpy array of n rows and six columns; it needs numpy
    ShotFile(path)        the file: `unit`, `layer` and `datatype` (None where there are no shots); iterate over it for tuples,
                          over its `columns()` for pieces
    write_shots(path, unit, layer, datatype, shots)       writes such tuples as a file, and gives how many there were
    triangles(shot), box_width(shot), is_legal(shot)      its area in triangles of the half grid, the width of its box, and whether
                          six numbers are a shot

A file is taken exactly where `nettletide shots` takes it, but for its length, which may be any. Every other
file raises ShotFault with the file, the fault and the byte in the program's words, once the shots before it
were given. Only a piece of the file is in memory. With numpy all records of a piece are decoded at once:
info byte, layer and datatype tell where records may begin, then one number of each after another is taken
from eight bytes, and each record must end where the next begins. Without numpy some hundred records are
decoded at once in one whole number (shot_lanes.py). What that leaves is found by a regular expression, with
numbers looked up among those that were seen before.
"""
from __future__ import annotations

import os
import re
import sys
from itertools import chain, islice
from typing import Dict, Iterable, Iterator, List, Optional, Sequence, Tuple

sys.path.insert(0, os.path.dirname(os.path.abspath(__file__)))
from layout_bytes import END, MAGIC, shots_head, signed, unsigned  # noqa: E402
from shot_lanes import LaneDecoder, Unusual  # noqa: E402
from tool_files import replacing  # noqa: E402

try:
    import numpy
except ImportError:
    numpy = None

Shot = Tuple[int, int, int, int, int, int]
Columns = Tuple[Sequence[int], Sequence[int], Sequence[int], Sequence[int], Sequence[int], Sequence[int]]

REACH = 1 << 44
# A record has an id, an info byte, and at most eight numbers of at most nine bytes.
LONGEST_RECORD = 2 + 8 * 9
# How many numbers follow the info byte, by the id: layer, datatype, width, height, slants, x, y.
FIELDS = {0x14: 6, 0x18: 7, 0x19: 7, 0x17: 8}
BEFORE_UNIT = MAGIC + b"\x01\x031.0\x00"
AFTER_UNIT = bytes(13) + b"\x0E\x05SHOTS"
# Numbers and sizes that are kept for being looked up.
MOST_KEPT = 1 << 18


class ShotFault(ValueError):
    """What is wrong in a shot file: `kind` is head, record, spelling, illegal or end, and `at` the byte."""

    def __init__(self, path: str, kind: str, at: int):
        super().__init__(f"{path}: {kind} at {at}")
        self.path, self.kind, self.at = path, kind, at


def triangles(shot: Shot) -> int:
    """The area in triangles of the half grid."""
    y0, y1, a, b, c, d = shot
    return (y1 - y0) * (b - a + d - c)


def box_width(shot: Shot) -> int:
    """The greatest X less the least."""
    return max(shot[3], shot[5]) - min(shot[2], shot[4])


def is_legal(shot: Shot) -> bool:
    """Whether six numbers are a shot: it has height, no side is negative, its slants are at 45 degrees through points of the
    layout's grid (X + Y is even there), and all is within reach."""
    y0, y1, a, b, c, d = shot
    height, left = y1 - y0, min(a, c)
    return (height > 0 and b >= a and d >= c and b + d > a + c and {abs(c - a), abs(d - b)} <= {0, height}
            and parity(a, b, c, d) in (None, y0 & 1) and max(map(abs, (y0, y1, left, max(b, d)))) <= REACH)


# ---- one record at a time, which finds what is wrong

class Wrong(Exception):
    """The fault of a record, by its name."""


def number_at(data: bytes, at: int) -> Tuple[int, int]:
    """The number that begins here and where it ends; a number that is cut is the fault `record`."""
    value = shift = 0
    while at < len(data):
        byte = data[at]
        value |= (byte & 127) << shift
        shift += 7
        at += 1
        if byte < 128:
            return value, at
    raise Wrong("record")


def is_shortest(data: bytes, begin: int, end: int) -> bool:
    return end - begin <= 9 and (end - begin == 1 or data[end - 1] != 0)


def signed_value(number: int) -> int:
    """A number with its sign in bit 0; a zero with a sign isn't spelled in the shortest way."""
    if number == 1:
        raise Wrong("spelling")
    return -(number >> 1) if number & 1 else number >> 1


def shape(kind: int, width: int, height: int, slants: Sequence[int]) -> Tuple[int, int, int, int, int]:
    """The height, and the four X of a shot whose least X is 0. At a slanted side X + Y is even; `parity` looks at that."""
    a = slants[0] if kind in (0x17, 0x18) else 0
    b = slants[-1] if kind in (0x17, 0x19) else 0
    if 0 in slants:
        raise Wrong("spelling")
    lower, upper = (max(-a, 0), width - max(b, 0)), (max(a, 0), width + min(b, 0))
    lengths = lower[1] - lower[0], upper[1] - upper[0]
    if height == 0 or {abs(a), abs(b)} - {0, height} or min(lengths) < 0 or lengths == (0, 0):
        raise Wrong("illegal")
    return height, lower[0], lower[1], upper[0], upper[1]


def parity(a: int, b: int, c: int, d: int) -> Optional[int]:
    """What X + Y is modulo 2 at the place of a shot with these corners: None where it may be either, 2 where it is neither."""
    wanted = {corner & 1 for corner, other in ((a, c), (b, d)) if corner != other}
    return None if not wanted else 2 if len(wanted) > 1 else wanted.pop()


def record_at(data: bytes, at: int, pair: Optional[Tuple[int, int]]) -> Tuple[Shot, Tuple[int, int], int]:
    """The shot of a record, its layer and datatype, and where it ends."""
    kind = data[at] if at < len(data) else 0
    if kind not in FIELDS or data[at + 1:at + 2] != b"\x7B":
        raise Wrong("record")
    ends, numbers = [at + 2], []
    for _ in range(FIELDS[kind]):
        number, end = number_at(data, ends[-1])
        numbers.append(number)
        ends.append(end)
    found = numbers[0], numbers[1]
    if not all(is_shortest(data, begin, end) for begin, end in zip(ends, ends[1:])) or pair not in (None, found):
        raise Wrong("spelling")
    *slants, x, y = map(signed_value, numbers[4:])
    height, a, b, c, d = shape(kind, numbers[2], numbers[3], slants)
    if parity(a, b, c, d) not in (None, x + y & 1) or max(abs(x), x + numbers[2], abs(y), y + height) > REACH:
        raise Wrong("illegal")
    return (y, y + height, x + a, x + b, x + c, x + d), found, ends[-1]


def head_fault(data: bytes) -> int:
    """How much of the bytes begins some head."""
    def common(a: bytes, b: bytes) -> int:
        return next((k for k, (left, right) in enumerate(zip(a, b)) if left != right), min(len(a), len(b)))
    at = common(data, BEFORE_UNIT)
    value = 0
    if at < len(BEFORE_UNIT):
        return at
    for k, byte in enumerate(data[at:at + 3]):
        value |= (byte & 127) << 7 * k
        least = value if byte < 128 else value + (1 << 7 * (k + 1))
        if value % 2 or not 2 <= least <= 2000000 or (byte == 0 and k):
            return at + k
        if byte < 128:
            return at + k + 1 + common(data[at + k + 1:], AFTER_UNIT)
    return min(len(data), at + 3)


# ---- a piece at a time, without numpy

NUMBER = rb"[\x80-\xFF]*[\x00-\x7F]"


class Numbers(dict):
    """Numbers with their signs, by the bytes that spell them."""

    def __missing__(self, spelled: bytes) -> int:
        if not is_shortest(spelled, 0, len(spelled)):
            raise Wrong("spelling")
        value = signed_value(number_at(spelled, 0)[0])
        if abs(value) > REACH // 2:
            raise Wrong("illegal, or nearly")
        self[spelled] = value
        return value


class Shapes(dict):
    """Heights and the X of the four corners, by the bytes of a record before its place."""

    def __init__(self, pair_length: int):
        super().__init__()
        self.skipped = 2 + pair_length
        self.parities: Dict[bytes, int] = {}

    def clear(self) -> None:
        super().clear()
        self.parities.clear()

    def __missing__(self, begin: bytes) -> Tuple[int, int, int, int, int]:
        numbers = []
        for spelled in re.findall(NUMBER, begin[self.skipped:]):
            if not is_shortest(spelled, 0, len(spelled)):
                raise Wrong("spelling")
            numbers.append(number_at(spelled, 0)[0])
        width, height, *slants = numbers
        if max(width, height) > REACH // 2:
            raise Wrong("illegal, or nearly")
        self[begin] = found = shape(begin[0], width, height, [signed_value(slant) for slant in slants])
        if slants:
            self.parities[begin] = parity(*found[1:])
        return found


class PlainDecoder:
    """Decodes whole records of a layer and datatype; with numbers that go far or are wrong it gives up."""

    # Bytes that are decoded at a time: so few that what is made of them stays in the processor's cache.
    piece = 1 << 13

    def __init__(self, pair: Tuple[int, int]):
        spelled = unsigned(*pair)
        self.lanes = LaneDecoder(spelled)
        forms = [b"\x14\x7B%b" + 2 * NUMBER, b"[\x18\x19]\x7B%b" + 3 * NUMBER, b"\x17\x7B%b" + 4 * NUMBER]
        some = b"|".join(form % re.escape(spelled) for form in forms)
        self.records = re.compile(b"(%b)(%b)(%b)|(.+)" % (some, NUMBER, NUMBER), re.DOTALL)
        self.numbers, self.shapes = Numbers(), Shapes(len(spelled))

    def shots(self, data: bytes) -> Tuple[Iterable[Shot], int]:
        """The shots of whole records, and how many bytes these have. The last record may be left for the next piece."""
        try:
            return self.lanes.shots(data)
        except Unusual:
            return self.found(data)

    def columns(self, data: bytes) -> Tuple[Columns, int]:
        try:
            return self.lanes.columns(data)
        except Unusual:
            shots, end = self.found(data)
            return tuple(map(list, zip(*shots))) if shots else ([],) * 6, end

    def found(self, data: bytes) -> Tuple[List[Shot], int]:
        """The same of all whole records, each found by a regular expression, and with numbers that are looked up."""
        found = self.records.findall(data)
        end = len(data)
        if found and found[-1][3]:
            end -= len(found.pop()[3])
        if not found:
            return [], 0
        begins, xs, ys, _ = zip(*found)
        for kept in (self.numbers, self.shapes):
            if len(kept) > MOST_KEPT:
                kept.clear()
        shapes = list(map(self.shapes.__getitem__, begins))
        xs, ys = list(map(self.numbers.__getitem__, xs)), list(map(self.numbers.__getitem__, ys))
        parities = self.shapes.parities
        if parities and any(begin in parities and x + y & 1 != parities[begin] for begin, x, y in zip(begins, xs, ys)):
            raise Wrong("illegal")
        return [(y, y + high, x + a, x + b, x + c, x + d) for (high, a, b, c, d), x, y in zip(shapes, xs, ys)], end


# ---- a piece at a time, with numpy

class ArrayDecoder:
    """The same, for all records of a piece at once: one number of each after another, which is taken from eight bytes."""

    # Bytes that are decoded at a time: enough that the calls of numpy cost little, and few enough for the cache.
    piece = 1 << 17
    # Shots whose numbers become Python's at a time: so few that their memory is in the cache when the next take it.
    at_once = 500

    def __init__(self, pair: Tuple[int, int]):
        self.head = b"\x7B" + unsigned(*pair)
        # By the id all ones where a record has the slant: of its left side, of its right one; and whether it is a record.
        self.left, self.right = numpy.zeros(256, numpy.uint64), numpy.zeros(256, numpy.uint64)
        self.left[[0x17, 0x18]] = self.right[[0x17, 0x19]] = (1 << 64) - 1
        self.is_known = numpy.zeros(256, bool)
        self.is_known[list(FIELDS)] = True

    def columns(self, data: bytes) -> Tuple[Columns, int]:
        """The shots of the whole records in six columns, and how many bytes these have."""
        (y0, y1, a, b, *upper), end = self.sides(data)
        return (y0, y1, a, b, *(upper or (a.copy(), b.copy()))), end

    def shots(self, data: bytes) -> Tuple[Iterable[Shot], int]:
        columns, end = self.sides(data)

        def some(begin: int) -> Iterable[Shot]:
            y0, y1, *sides = (column[begin:begin + self.at_once].tolist() for column in columns)
            return zip(y0, y1, *sides, *(sides if len(sides) == 2 else ()))
        return chain.from_iterable(map(some, range(0, len(columns[0]), self.at_once))), end

    def sides(self, data: bytes):
        """The columns, but without those of the upper sides where all shots are rectangles, and how many bytes they have."""
        octets = numpy.frombuffer(data + bytes(LONGEST_RECORD + 8), numpy.uint8)
        begins = self.starts(octets, len(data))
        kinds, fields, ends = self.fields(octets, begins)
        # What looks like a record within another, or what is wrong.
        if len(begins) and (begins[0] or (ends[:-1] != begins[1:]).any()):
            begins = begins[chained(begins.tolist(), ends.tolist())]
            kinds, fields, ends = self.fields(octets, begins)
        count = len(ends)
        if count and ends[-1] > len(data):  # the piece cuts the last record
            count -= 1
        if not count:
            return (numpy.empty(0, numpy.int64),) * 4, 0
        wide, high, *slants, x, y = (self.number(spelled[:count], ones[:count]) for spelled, ones in fields)
        x, y, end = self.signed(x), self.signed(y), int(ends[count - 1])
        if not (wide.all() and high.all()):
            raise Wrong("illegal")
        if not slants:
            return (y, y + high, x, x + wide), end
        if not self.is_known[kinds].all():
            raise Wrong("record")
        is_slanted = [slanted[kinds[:count]].view(numpy.int64) for slanted in (self.left, self.right)]
        return self.corners(x, y, wide, high, *map(self.signed, slants), *is_slanted), end

    def starts(self, octets, count: int):
        """Where records may begin: an info byte, the layer and the datatype follow."""
        is_start = octets[1:count + 1] == self.head[0]
        for k, byte in enumerate(self.head[1:], 2):
            is_start &= octets[k:count + k] == byte
        return numpy.flatnonzero(is_start)

    def fields(self, octets, begins):
        """The ids of records; for each number that follows the datatype its bytes without their top bits, and ones in all bits
        of these bytes; and where the records end. A slant that isn't there is a byte of zero."""
        kinds = octets[begins]
        slants = () if (kinds == 0x14).all() else (self.left[kinds], self.right[kinds])
        words = numpy.ndarray(len(octets) - 7, "<u8", octets, strides=(1,))
        ends = begins + (1 + len(self.head))
        fields = []
        for is_there in (None, None, *slants, None, None):
            word = words[ends]
            if is_there is not None:
                word &= is_there
            ones = word | 0x7F7F7F7F7F7F7F7F
            ones ^= ones + 1
            word &= ones
            word &= 0x7F7F7F7F7F7F7F7F
            length = ones & 0x0101010101010101
            length *= 0x0101010101010101
            length >>= 56
            if is_there is not None:
                length &= is_there
            ends += length.view(numpy.int64)
            fields.append((word, ones))
        return kinds, fields, ends

    @staticmethod
    def number(spelled, ones):
        """Numbers of at most six bytes, by their bytes without top bits and ones in all bits of these bytes."""
        most = int(ones.max())
        if most >> 48:
            raise Wrong("illegal, or nearly")
        if most >> 8:
            if (spelled < ones >> 8).any():  # the last of several bytes is zero
                raise Wrong("spelling")
            spelled = spelled - (spelled >> 1 & 0x7F807F807F807F80)
        if most >> 16:
            spelled = spelled & 0x3FFF00003FFF | spelled >> 2 & 0x0FFFC0000FFFC000
        if most >> 32:
            spelled = spelled & 0x0FFFFFFF | spelled >> 4 & 0xFFFFFFF0000000
        return spelled.view(numpy.int64)

    @staticmethod
    def signed(values):
        """Numbers with their signs in bit 0."""
        signs = values & 1
        if not signs.any():
            return values >> 1
        if (values == 1).any():
            raise Wrong("spelling")
        return (values >> 1) * (1 - 2 * signs)

    @staticmethod
    def corners(x, y, wide, high, a, b, is_left, is_right) -> Columns:
        """The columns of shots with these slants, and all ones where a side has one."""
        left, right = x - numpy.minimum(a, 0), x + wide + numpy.minimum(b, 0)
        lower, upper = (left, right - b), (left + a, right)
        if (lower[1] - lower[0] | upper[1] - upper[0]).min() <= 0:
            raise Wrong("illegal")
        for slant, corner, is_slanted in ((a, lower[0], is_left), (b, lower[1], is_right)):
            if ((numpy.abs(slant) ^ high | corner + y & 1) & is_slanted).any():
                raise Wrong("illegal")
        return (y, y + high, *lower, *upper)


def chained(begins: List[int], ends: List[int]) -> List[int]:
    """Of what looks like records those, by their numbers, that begin at 0 or where the one before ends."""
    kept, wanted = [], 0
    for k, (begin, end) in enumerate(zip(begins, ends)):
        if begin == wanted:
            kept.append(k)
            wanted = end
    return kept


# ---- files

class ShotFile:
    """A shot file: `path`, `unit` (half units a micrometre), `layer` and `datatype`, which are None where there are no shots."""

    def __init__(self, path: str):
        self.path = path
        self.size = os.path.getsize(path)
        with open(path, "rb") as file:
            begin = file.read(len(BEFORE_UNIT) + 3 + len(AFTER_UNIT) + LONGEST_RECORD)
        match = re.match(re.escape(BEFORE_UNIT) + b"(" + NUMBER + b")" + re.escape(AFTER_UNIT), begin, re.DOTALL)
        whole = match.end() if match else 0
        if not match or head_fault(begin[:whole]) < whole:
            raise ShotFault(path, "head", head_fault(begin))
        self.unit = number_at(match.group(1), 0)[0]
        self.begin = whole
        self.layer = self.datatype = None
        try:
            self.layer, self.datatype = record_at(begin, whole, None)[1]
        except Wrong:
            pass  # no shot: what stands there is found when the records are read

    def __iter__(self) -> Iterator[Shot]:
        return chain.from_iterable(self._pieces("shots"))

    def columns(self) -> Iterator[Columns]:
        """The shots in pieces: for each six columns, as long as one another."""
        return self._pieces("columns")

    def _pieces(self, what: str):
        decoder = None
        if self.layer is not None:
            decoder = (ArrayDecoder if numpy else PlainDecoder)((self.layer, self.datatype))
        with open(self.path, "rb") as file:
            file.seek(self.begin)
            at, left = self.begin, self.size - self.begin - len(END)
            rest = b""
            while decoder and left > 0:
                piece = file.read(min(decoder.piece, left))
                left -= len(piece)
                if not piece:
                    break
                rest += piece
                try:
                    some, used = getattr(decoder, what)(rest)
                except Wrong:
                    break
                if used:
                    yield some
                    at += used
                    rest = rest[used:]
                if len(rest) > 2 * LONGEST_RECORD:
                    break
            file.seek(at)
            yield from self._singly(file.read(), at, what)

    def _singly(self, data: bytes, begin: int, what: str):
        """The same of the bytes from a place on, a record at a time, which finds the first fault."""
        pair = None if self.layer is None else (self.layer, self.datatype)
        at, shots, fault = 0, [], None
        while fault is None and data[at:] != END:
            try:
                if data[at:at + 1] == b"\x02":
                    raise Wrong("end")
                shot, pair, at = record_at(data, at, pair)
                shots.append(shot)
            except Wrong as wrong:
                fault = ShotFault(self.path, str(wrong), begin + at)
        if shots:
            yield shots if what == "shots" else in_columns(shots)
        if fault:
            raise fault


def in_columns(shots: List[Shot]) -> Columns:
    columns = map(list, zip(*shots))
    return tuple(numpy.array(column, numpy.int64) for column in columns) if numpy else tuple(columns)


def read_shots(path: str) -> Iterator[Shot]:
    """The shots of a file one after another."""
    return iter(ShotFile(path))


def read_columns(path: str) -> Iterator[Columns]:
    """The shots of a file in pieces of six columns: numpy arrays where numpy is there, else lists."""
    return ShotFile(path).columns()


def read_array(path: str):
    """All shots of a file as a numpy array of n rows and six columns."""
    pieces = [numpy.stack(columns, axis=1) for columns in read_columns(path)]
    return numpy.concatenate(pieces) if pieces else numpy.empty((0, 6), numpy.int64)


class Spelled(dict):
    """Numbers with their signs as they are spelled."""

    def __missing__(self, number: int) -> bytes:
        self[number] = found = signed(number)
        return found


class Begins(dict):
    """The bytes of a record before its place, by its width, height and slants."""

    def __init__(self, layer: int, datatype: int):
        super().__init__()
        self.pair = unsigned(layer, datatype)

    def __missing__(self, key: Tuple[int, int, int, int]) -> bytes:
        width, height, a, b = key
        slants = [slant for slant in (a, b) if slant]
        kind = 0x14 if not slants else 0x17 if len(slants) == 2 else 0x18 if a else 0x19
        try:
            shape(kind, width, height, slants)
        except Wrong:
            width = REACH
        if max(width, height) > REACH // 2:
            raise ValueError(f"no legal shot has the width {key[0]}, height {height} and slants {a} and {b}")
        self[key] = found = bytes([kind, 0x7B]) + self.pair + unsigned(width, height) + signed(*slants)
        return found


class Records:
    """Spells shots of a layer and datatype as records."""

    def __init__(self, layer: int, datatype: int):
        self.begins, self.numbers = Begins(layer, datatype), Spelled()

    def spell(self, shots: Iterable[Shot]) -> Iterator[bytes]:
        """The record of each shot; a shot that isn't legal raises ValueError, and so does one of more than 2^43 half units."""
        begins, numbers, near = self.begins, self.numbers, REACH // 2
        for y0, y1, a, b, c, d in shots:
            left = a if a < c else c
            if (a != c or b != d or abs(left) > near or abs(y0) > near) and not is_legal((y0, y1, a, b, c, d)):
                raise ValueError(f"no legal shot: {y0} {y1} {a} {b} {c} {d}")
            yield begins[(b if b > d else d) - left, y1 - y0, c - a, d - b] + numbers[left] + numbers[y0]
            if len(numbers) > MOST_KEPT:
                numbers.clear()


def write_shots(path: str, unit: int, layer: int, datatype: int, shots: Iterable[Shot], inputs: Sequence[str] = ()) -> int:
    """Writes a shot file of a unit in half units a micrometre, and gives how many shots it has.

    The file takes its place once it is whole. A path that is one of the inputs is refused.
    """
    if unit % 2 or not 2 <= unit <= 2000000:
        raise ValueError(f"no unit of half units a micrometre: {unit}")
    count = 0
    records = Records(layer, datatype).spell(shots)
    with replacing(path, inputs) as file:
        file.write(shots_head(unit))
        while True:
            some = list(islice(records, 4096))
            if not some:
                break
            file.write(b"".join(some))
            count += len(some)
        file.write(END)
    return count
