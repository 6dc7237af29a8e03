"""Puts trapezoids that don't overlap together into areas with their outlines.

    areas(shots)     the connected areas of shots, lowest first, each an Area: its size, its box, and its polygons

Two trapezoids belong to one area where they share a part of a side. Nothing is intersected here: what sides
have in common is dropped, and the rest is walked along.
"""
from __future__ import annotations

from collections import defaultdict
from typing import Dict, Iterable, List, NamedTuple, Sequence, Tuple

Point = Tuple[int, int]
Shot = Tuple[int, int, int, int, int, int]
Span = Tuple[int, int, int]  # from, to, number of the trapezoid
Loop = List[Point]


class Area(NamedTuple):
    """A connected area: twice its size, its box (x0, y0, x1, y1), and polygons, each an outer loop and its holes."""
    double: int
    box: Tuple[int, int, int, int]
    polygons: List[List[Loop]]


class Groups:
    """Numbers that are put together, by the least number of each group."""

    def __init__(self, count: int):
        self.first = list(range(count))

    def find(self, number: int) -> int:
        while self.first[number] != number:
            self.first[number] = self.first[self.first[number]]
            number = self.first[number]
        return number

    def join(self, a: int, b: int) -> None:
        a, b = self.find(a), self.find(b)
        self.first[max(a, b)] = min(a, b)


def without(spans: List[Span], others: List[Span]) -> Iterable[Span]:
    """What is left of spans; spans of one list don't overlap, and both are in order."""
    at = 0
    for low, high, number in spans:
        while at and others[at - 1][1] > low:
            at -= 1
        while at < len(others) and others[at][1] <= low:
            at += 1
        while at < len(others) and others[at][0] < high:
            if others[at][0] > low:
                yield low, others[at][0], number
            low = max(low, others[at][1])
            at += 1
        if low < high:
            yield low, high, number


def touching(spans: List[Span], others: List[Span]) -> Iterable[Tuple[int, int]]:
    """The numbers of spans of both lists that have a part in common."""
    a = b = 0
    while a < len(spans) and b < len(others):
        if max(spans[a][0], others[b][0]) < min(spans[a][1], others[b][1]):
            yield spans[a][2], others[b][2]
        if spans[a][1] < others[b][1]:
            a += 1
        else:
            b += 1


def sides(shots: Sequence[Shot]) -> Dict[Tuple[str, int], Tuple[List[Span], List[Span]]]:
    """By the line on which they are, the spans of sides with the area on their left as one walks, forward and backward.

    Level sides are spans of X, forward to the right; others are spans of Y, forward upward.
    """
    found = defaultdict(lambda: ([], []))
    for number, (y0, y1, a, b, c, d) in enumerate(shots):
        if a < b:
            found["level", y0][0].append((a, b, number))
        if c < d:
            found["level", y1][1].append((c, d, number))
        for way, (low, high) in enumerate(((b, d), (a, c))):
            kind, at = ("upright", low) if low == high else ("rising", low - y0) if low < high else ("falling", low + y0)
            found[kind, at][way].append((y0, y1, number))
    return found


def point_of(kind: str, at: int, along: int) -> Point:
    if kind == "level":
        return along, at
    return {"upright": at, "rising": at + along, "falling": at - along}[kind], along


# Directions in eighths of a turn, by the line's kind, forward.
EIGHTHS = {"level": 0, "rising": 1, "upright": 2, "falling": 3}


def turn(way: int, after: int) -> int:
    """The less, the sharper the turn to the left."""
    return (way + 3 - after) % 8


def loops_of(steps: Dict[Point, List[Tuple[int, Point]]]) -> List[Loop]:
    """The closed walks of steps, of which each point has those that leave it; at a point of several, the sharpest turn left."""
    loops = []
    for start in sorted(steps):
        while steps[start]:
            way, at = steps[start].pop()
            loop, ways = [start], [way]
            while at != start or any(turn(ways[-1], other) < turn(ways[-1], ways[0]) for other, _ in steps[at]):
                choice = min(steps[at], key=lambda step: turn(ways[-1], step[0]))
                steps[at].remove(choice)
                loop.append(at)
                ways.append(choice[0])
                at = choice[1]
            loops.append([point for point, before, after in zip(loop, ways[-1:] + ways[:-1], ways) if before != after])
    return loops


def double_area(loop: Loop) -> int:
    return sum(x0 * y1 - x1 * y0 for (x0, y0), (x1, y1) in zip(loop, loop[1:] + loop[:1]))


def polygons_of(loops: List[Loop]) -> List[List[Loop]]:
    """Outer loops, each with the holes in its box."""
    outer = [[loop] for loop in loops if double_area(loop) > 0]
    for hole in (loop for loop in loops if double_area(loop) < 0):
        x, y = hole[0]
        around = [polygon for polygon in outer if min(px for px, _ in polygon[0]) <= x <= max(px for px, _ in polygon[0])
                  and min(py for _, py in polygon[0]) <= y <= max(py for _, py in polygon[0])]
        min(around or outer, key=lambda polygon: double_area(polygon[0])).append(hole)
    return outer


def areas(shots: Sequence[Shot]) -> List[Area]:
    """The connected areas, lowest first, and of these the leftmost."""
    groups = Groups(len(shots))
    rests = []
    for (kind, at), both in sides(shots).items():
        forward, backward = (sorted(spans) for spans in both)
        for a, b in touching(forward, backward):
            groups.join(a, b)
        rests += [(kind, at, low, high, number, True) for low, high, number in without(forward, backward)]
        rests += [(kind, at, low, high, number, False) for low, high, number in without(backward, forward)]
    steps: Dict[int, Dict[Point, List[Tuple[int, Point]]]] = defaultdict(lambda: defaultdict(list))
    for kind, at, low, high, number, is_forward in rests:
        begin, end = point_of(kind, at, low), point_of(kind, at, high)
        way = EIGHTHS[kind]
        if not is_forward:
            begin, end, way = end, begin, way + 4
        steps[groups.find(number)][begin].append((way, end))
    sizes, boxes = defaultdict(int), {}
    for number, (y0, y1, a, b, c, d) in enumerate(shots):
        group = groups.find(number)
        sizes[group] += (y1 - y0) * (b - a + d - c)
        box = boxes.get(group, (a, y0, b, y1))
        boxes[group] = min(box[0], a, c), min(box[1], y0), max(box[2], b, d), max(box[3], y1)
    found = [Area(sizes[group], boxes[group], polygons_of(loops_of(some))) for group, some in steps.items()]
    return sorted(found, key=lambda area: (area.box[1], area.box[0]))
