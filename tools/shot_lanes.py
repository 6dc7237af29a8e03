"""Decodes many records of a shot file at once without numpy, for nettletide_shots.

The records of a piece stand side by side in one whole number, each in a lane of as many bytes. Python's
operations on whole numbers are loops in C, so some hundred records are decoded by each. At the end a lane
has slots of 4 bytes, or of 8 where numbers are large: those of a rectangle are y0, y1 and the X of its left
and right side, those of any shot the six numbers of its tuple.

Records that aren't decoded here raise Unusual: they may be wrong, or only rare. No wrong one is decoded.
"""
from __future__ import annotations

import struct
import sys
from array import array
from functools import lru_cache
from operator import itemgetter
from typing import Iterable, List, Tuple

Shot = Tuple[int, int, int, int, int, int]

# Counts of lanes are multiples of this, so that there are few. Lanes to spare have a square with an id after it.
STEP = 64
SPARE = b"\1\1\0\0\x14"
RECTANGLE, IDS = b"\x14", b"\x14\x17\x18\x19"
HAS_A = bytes(k in (0x17, 0x18) for k in range(256))
HAS_B = bytes(k in (0x17, 0x19) for k in range(256))
# The type of `array` and `struct`, and how many bytes a number may have, by the bytes of a slot. No sum then leaves its slot.
TYPES = {4: "i", 8: "q"}
MOST_BYTES = {4: 4, 8: 6}


class Unusual(Exception):
    """These records are to be decoded in another way."""


def ones(number: int) -> int:
    """How many bits are set. `bit_count` is there from Python 3.10 on."""
    return number.bit_count() if hasattr(number, "bit_count") else bin(number).count("1")


class Lanes:
    """What is the same in each lane, as whole numbers, and what is done to all lanes."""

    def __init__(self, count: int, slot: int, slots: int):
        self.count, self.slot, self.slots = count, slot, slots
        self.bits, self.lane = 8 * slot, slot * slots
        self.pack = struct.Struct(count * f"{self.lane}s").pack
        self.lowest = self.at([0], 1)
        self.ends = self.repeated(0x80, 1)
        self.groups = self.repeated(0x7F, 1)
        self.too_long = self.lowest << 8 * MOST_BYTES[slot]
        self.packing = [self.packing_step(k) for k in range(slot.bit_length() - 1)]
        most = (1 << self.bits - 1) - 1
        self.signs, self.distances, self.middle = self.at([0, 2], 1), self.at([0, 2], 2 * most), self.at([0, 2], most + 1)
        self.sizes, self.sizes_top = self.at([1, 3], 2 * most + 1), self.at([1, 3], most + 1)
        self.most, self.top = self.at(range(4), most), self.at(range(slots), most + 1)

    def repeated(self, value: int, size: int) -> int:
        """A value of some bytes, from end to end."""
        return int.from_bytes(value.to_bytes(size, "little") * (self.count * self.lane // size), "little")

    def at(self, slots: Iterable[int], value: int) -> int:
        """A value at some slots of each lane."""
        return self.repeated(sum(value << self.bits * slot for slot in slots), self.lane)

    def packing_step(self, k: int) -> Tuple[int, int, int]:
        """Masks of each lower and each upper of two neighbours of 7 bits, doubled k times, and how many bits are between them."""
        lower = self.repeated((1 << (7 << k)) - 1, 2 << k)
        return lower, lower << (8 << k), 1 << k

    def packed(self, spelled: int) -> int:
        """Slots of numbers as they are spelled, put together of their groups of seven bits."""
        for lower, upper, between in self.packing:
            spelled = spelled & lower | (spelled & upper) >> between
        return spelled

    def first_number(self, rest: int) -> int:
        """A mask of the number that begins each lane. A lane without an end would take from the next one; its last byte is 0."""
        ends = rest & self.ends ^ self.ends
        return ends ^ (ends - self.lowest)

    def taken(self, rest: int) -> Tuple[int, int]:
        """The number that begins each lane, and what is after it, which begins the lane now."""
        mask = self.first_number(rest)
        number = rest & mask
        return number, self.moved((rest ^ number) >> 8, mask)

    def taken_where(self, rest: int, flags: int) -> Tuple[int, int]:
        """The same where a flag is set in the lane's lowest bit; other lanes stay."""
        lanes = (flags << 8 * self.lane) - flags
        mask = self.first_number(rest) & lanes
        number = rest & mask
        rest ^= number
        some = rest & lanes
        return number, self.moved(rest ^ some ^ some >> 8, mask)

    def moved(self, rest: int, mask: int) -> int:
        """Lanes moved down by a byte for each byte that the mask has after its first."""
        for _ in range(MOST_BYTES[self.slot]):
            mask >>= 8
            flags = mask & self.lowest
            if not flags:
                return rest
            some = rest & (flags << 8 * self.lane) - flags
            rest ^= some ^ some >> 8
        raise Unusual

    def last_number(self, rest: int) -> Tuple[int, int, int]:
        """The number that begins each lane, what is after it, and a bit at the byte after it."""
        mask = self.first_number(rest)
        if mask & self.too_long:
            raise Unusual
        number = rest & mask
        return number, rest ^ number, mask + self.lowest

    def side_by_side(self, parts: List[bytes], more: int) -> int:
        """Each part in a lane, with a byte 0 after it; so many of their bytes don't end a number, and all numbers are shortest.

        A part that is too long for a lane is cut, and a byte 0 may end a part. In both cases what is decoded is shorter than the
        part, so the caller counts the bytes that don't end a number: all bytes, less the numbers.
        """
        joined = self.pack(*parts, *[SPARE] * (self.count - len(parts)))
        if joined[self.lane - 1::self.lane].count(0) != self.count:
            raise Unusual
        spelled = int.from_bytes(joined, "little")
        open_bytes = spelled & self.ends
        if ones(open_bytes) != more:
            raise Unusual
        after = open_bytes << 8
        some = (spelled & self.groups) + self.groups | spelled
        if some & after != after:
            raise Unusual
        return spelled

    def boxes(self, packed: int) -> int:
        """Of y, height, x and width the y0, y1, and X of both sides, all with half of what a slot holds added to them."""
        signs, sizes, away = packed & self.signs, packed & self.sizes, (packed & self.distances) >> 1
        needed = self.sizes_top | signs << self.bits - 1
        if (away | sizes) + self.most & needed != needed:
            raise Unusual  # a size of 0, or a 0 with a sign
        below = away & (signs << self.bits) - signs
        least = (self.middle | away ^ below) - below
        return least | (least << self.bits) + sizes


class SlantedLanes(Lanes):
    """Lanes with two more slots, for slants."""

    def __init__(self, count: int, slot: int):
        super().__init__(count, slot, 6)
        every = (1 << self.bits) - 1
        self.heights, self.sides, self.slants = self.at([1], every), self.at([2, 3], every), self.at([4, 5], every)
        self.sign_a, self.sign_b = self.at([4], 1), self.at([5], 1)
        self.left, self.lower_left = self.at([2, 4], every), self.at([2], every)
        self.room, self.lower_most, self.lower_top = self.at([2, 4], every // 4 + 1), self.at([2], every // 2), self.at([2], every // 2 + 1)

    def flags(self, ids: bytes) -> int:
        """Bits at the slots of a and b, where records with these ids have them."""
        found = bytearray(self.count * self.lane)
        found[4 * self.slot::self.lane] = ids.translate(HAS_A)
        found[5 * self.slot::self.lane] = ids.translate(HAS_B)
        return int.from_bytes(found, "little")

    def corners(self, packed: int, boxes: int, flags: int) -> int:
        """The six numbers of each shot, of its box and its slants."""
        bits = self.bits
        heights = (packed & self.heights) << bits
        heights |= heights << bits
        heights |= heights << 2 * bits
        signs = packed & (self.sign_a | self.sign_b)
        if packed & self.slants ^ signs != (heights & (flags << bits) - flags) << 1:
            raise Unusual  # a slant is as high as its shot
        plus = flags ^ signs
        # The corner that a slant moves in: for a below 0 the lower left one, above 0 the upper left, and so on.
        inward = (signs & self.sign_a | plus & self.sign_b) >> 2 * bits | plus & self.sign_a | signs & self.sign_b
        inward = heights & (inward << bits) - inward
        rightward = inward & self.left
        found = (boxes | (boxes & self.sides) << 2 * bits) + rightward - (inward ^ rightward)
        self.check_corners(found, flags >> 2 * bits)
        return found

    def check_corners(self, found: int, flags: int) -> None:
        """Both lengths are at least 0, one is more, and X + Y is even at the lower end of each slanted side."""
        lengths = (found >> self.bits & self.left) + self.room - (found & self.left)
        if lengths & self.room != self.room:
            raise Unusual
        lengths ^= self.room
        some = (lengths | lengths >> 2 * self.bits) & self.lower_left
        if some + self.lower_most & self.lower_top != self.lower_top:
            raise Unusual
        y = (found & self.lowest) << 2 * self.bits
        if (found ^ y ^ y << self.bits) & flags:
            raise Unusual


@lru_cache(maxsize=16)
def lanes_of(count: int, slot: int, has_slants: bool) -> Lanes:
    """Lanes of so many records. Those of the last counts are kept, since they take as long to make as a piece to decode."""
    return SlantedLanes(count, slot) if has_slants else Lanes(count, slot, 4)


class LaneDecoder:
    """Decodes whole records of a layer and datatype, whose bytes are given."""

    def __init__(self, pair: bytes):
        self.between = b"\x7B" + pair
        self.slot = 4

    def numbers(self, data: bytes) -> Tuple[array, int, int]:
        """The slots of the records that another one follows, how many slots each has, and the bytes of these records.

        What is between the bytes that all records share is the fields of one record and the id of the next. So if the first id is
        one, and each part has just the numbers that its id asks for and then an id, these are the records.
        """
        first, *parts = data.split(self.between)
        if len(first) != 1 or len(parts) < 2:
            raise Unusual
        used = len(data) - len(parts.pop()) - len(self.between) - 1
        size = used - len(parts) * len(self.between)
        decode = rectangles if data.count(RECTANGLE + self.between) == len(parts) + 1 else trapezoids
        try:
            found, lanes = decode(first, parts, size, self.slot)
        except Unusual:
            found, lanes = decode(first, parts, size, 8)
            self.slot = 8
        numbers = array(TYPES[self.slot], (found ^ lanes.top).to_bytes(lanes.count * lanes.lane, "little"))
        if sys.byteorder == "big":
            numbers.byteswap()
        del numbers[len(parts) * lanes.slots:]
        return numbers, lanes.slots, used

    def shots(self, data: bytes) -> Tuple[Iterable[Shot], int]:
        """The shots of these records, and how many bytes they have."""
        numbers, slots, used = self.numbers(data)
        if slots == 6:
            return struct.iter_unpack("6" + TYPES[self.slot], numbers), used
        y0, y1, left, right = (numbers[k::4].tolist() for k in range(4))
        return zip(y0, y1, left, right, left, right), used

    def columns(self, data: bytes) -> Tuple[Tuple[List[int], ...], int]:
        """The same as six lists."""
        numbers, slots, used = self.numbers(data)
        return tuple(numbers[k::slots].tolist() for k in ((0, 1, 2, 3, 4, 5) if slots == 6 else (0, 1, 2, 3, 2, 3))), used


def rectangles(first: bytes, parts: List[bytes], size: int, slot: int) -> Tuple[int, Lanes]:
    """The lanes of parts of so many bytes together, which are rectangles' and are each followed by one."""
    lanes = lanes_of(-(-len(parts) // STEP) * STEP, slot, False)
    rest = lanes.side_by_side(parts, size - 5 * len(parts))
    width, rest = lanes.taken(rest)
    height, rest = lanes.taken(rest)
    x, rest = lanes.taken(rest)
    y, rest, after = lanes.last_number(rest)
    if first != RECTANGLE or rest != after * RECTANGLE[0]:
        raise Unusual
    return lanes.boxes(lanes.packed(y | (height | (x | width << lanes.bits) << lanes.bits) << lanes.bits)), lanes


def ids_of(first: bytes, parts: List[bytes]) -> bytes:
    """The id of each part's record, and of the one after them."""
    try:
        ids = first + bytes(map(itemgetter(-1), parts))
    except IndexError:
        raise Unusual from None
    if ids.translate(None, IDS):
        raise Unusual
    return ids


def trapezoids(first: bytes, parts: List[bytes], size: int, slot: int) -> Tuple[int, Lanes]:
    """The lanes of parts of so many bytes together, which are those of any of the four records."""
    lanes = lanes_of(-(-len(parts) // STEP) * STEP, slot, True)
    ids = ids_of(first, parts)[:-1]
    flags = lanes.flags(ids.ljust(lanes.count, RECTANGLE))
    rest = lanes.side_by_side(parts, size - 5 * len(parts) - sum(map(ids.count, b"\x17\x17\x18\x19")))
    width, rest = lanes.taken(rest)
    height, rest = lanes.taken(rest)
    a, rest = lanes.taken_where(rest, (flags & lanes.sign_a) >> 4 * lanes.bits)
    b, rest = lanes.taken_where(rest, (flags & lanes.sign_b) >> 5 * lanes.bits)
    x, rest = lanes.taken(rest)
    y, rest, after = lanes.last_number(rest)
    # All ids have the bit 16 and none above, so the byte after y is an id, and no byte after it is set.
    if rest & after << 4 != after << 4 or rest & (after << 5) - after != rest:
        raise Unusual
    spelled = a | b << lanes.bits
    for number in (width, x, height, y):
        spelled = spelled << lanes.bits | number
    packed = lanes.packed(spelled)
    return lanes.corners(packed, lanes.boxes(packed), flags), lanes
