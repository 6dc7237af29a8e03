#!/usr/bin/env python3
"""Tests the modules that read and write layouts and shot files: tests/layout_bytes.py [PROGRAM [FILES]]

What tools/layout_bytes.py writes must be the bytes that docs/FORMATS.md shows, and what it reads must be
what was written. Shot files that are changed at random are read by tools/nettletide_shots.py with numpy,
where it is there, and without, in lanes, by a regular expression and a record at a time: all must give the
same shots and the same fault, and with PROGRAM those that `nettletide shots` prints. FILES is their number,
300 where it isn't given.
"""
import os
import random
import subprocess
import sys
import tempfile
from fractions import Fraction

HERE = os.path.dirname(os.path.abspath(__file__))
sys.path.insert(0, os.path.join(HERE, "..", "tools"))
import layout_bytes as lb  # noqa: E402
import nettletide_shots as ns  # noqa: E402
import shot_lanes  # noqa: E402
from tool_files import Refused  # noqa: E402

SQUARE = [(0, 0), (0, 10), (10, 10), (10, 0)]


def test_square():
    """The two files of the example, which docs/FORMATS.md shows byte for byte."""
    layout = lb.gds_head() + lb.gds_cell("TOP", lb.gds_boundary(SQUARE)) + lb.GDS_END
    with open(os.path.join(HERE, "..", "example", "square.gds"), "rb") as file:
        assert layout == file.read() and len(layout) == 168
    shots = lb.shots_head() + lb.shot_record(0, 20, 0, 20, 0, 20) + lb.END
    assert shots[13:22].hex() == "0103312e3000d00f00" and shots[41:49].hex() == "147b010014140000" and len(shots) == 305


def test_numbers():
    """Numbers come back, in the shortest form."""
    values = [0, 1, 63, 64, 127, 128, 16383, 16384, 2**31, 2**62 - 1]
    data = lb.OasisBytes(lb.unsigned(*values) + lb.signed(*values, *(-value for value in values)))
    assert [data.unsigned() for _ in values] == values
    assert [data.signed() for _ in range(2 * len(values))] == values + [-value for value in values]
    assert lb.unsigned(127, 128) == b"\x7F\x80\x01" and lb.signed(0, -1, 64) == b"\x00\x03\x80\x01"
    moves = [(0, 0), (5, -3), (-7, 0), (0, 9), (-1, -1)]
    data = lb.OasisBytes(b"".join(lb.general(*move) for move in moves))
    assert [data.general() for _ in moves] == moves


def test_reals():
    """Reals of both formats."""
    for value in (0, 1, 90, -270, 16):
        assert lb.gds_real(lb.gds_real_bytes(value)) == value
    assert lb.gds_real(lb.NANOMETRE) * 10**9 - 1 < Fraction(1, 2**40)
    for spelled, value in (("0005", 5), ("0103", -3), ("0204", Fraction(1, 4)), ("040103", Fraction(1, 3)), ("06000080bf", -1),
                           ("070000000000805640", 90)):
        assert lb.OasisBytes(bytes.fromhex(spelled)).real() == value, spelled


def test_repetitions():
    """Each kind gives its moves."""
    cases = {"01000001 02".replace(" ", ""): [(0, 0), (1, 0), (0, 2), (1, 2)], "020107": [(0, 0), (7, 0), (14, 0)],
             "030007": [(0, 0), (0, 7)], "0401050a": [(0, 0), (5, 0), (15, 0)], "050103050a": [(0, 0), (15, 0), (45, 0)],
             "0601050a": [(0, 0), (0, 5), (0, 15)], "07000305": [(0, 0), (0, 15)], "0800000d020504": [(0, 0), (3, 1), (1, 2), (4, 3)],
             "09010d02": [(0, 0), (3, 1), (6, 2)], "0a010d020504": [(0, 0), (3, 1), (4, 3)], "0b00040d02": [(0, 0), (12, 4)]}
    for spelled, moves in cases.items():
        found = lb.OasisBytes(bytes.fromhex(spelled)).repetition()
        assert list(found) == moves and len(found) == len(moves), (spelled, list(found))
    assert lb.OasisBytes(b"\0").repetition() is None
    assert list(lb.OasisBytes(lb.grid(3, 1, (5, 0), (0, 0))).repetition()) == [(0, 0), (5, 0), (10, 0)]
    assert len(list(lb.OasisBytes(lb.grid(3, 2, (5, 0), (0, 4))).repetition())) == 6


def test_point_lists():
    """The moves of a polygon lead back, by each kind of list."""
    for spelled, moves in (("00021428", [(10, 0), (0, 20), (-10, 0), (0, -20)]), ("01021428", [(0, 10), (20, 0), (0, -10), (-20, 0)]),
                           ("02022829", [(10, 0), (0, 10), (-10, -10)]), ("03015c", [(11, 11), (-11, -11)])):
        assert lb.OasisBytes(bytes.fromhex(spelled)).point_list(True) == moves, spelled
    data = lb.OasisBytes(lb.point_list(SQUARE))
    assert data.point_list(True) == [(0, 10), (10, 0), (0, -10), (-10, 0)]


def test_records():
    """GDSII records come back with their places, and what is no record is refused at its place."""
    layout = lb.gds_head() + lb.gds_cell("TOP", lb.gds_path([(0, 0), (9, 0)], width=4, kind=2)) + lb.GDS_END
    found = list(lb.gds_records(layout + bytes(5)))
    assert [head for _, head, _ in found][4:7] == [0x0502, 0x0606, 0x0900] and found[-1][:2] == (len(layout) - 4, 0x0400)
    assert lb.gds_points([content for _, head, content in found if head == 0x1003][0]) == [(0, 0), (9, 0)]
    for data, at in ((layout[:-1], len(layout) - 4), (layout + b"\1", len(layout)), (layout[:60] + bytes(4), 60)):
        try:
            list(lb.gds_records(data))
        except lb.LayoutFault as fault:
            assert fault.at == at
        else:
            raise AssertionError("not refused")


def random_shot(some):
    """A legal shot, of any of the four records."""
    height = some.choice((1, 2, 10, 64, 200, 5000))
    a, b = (some.choice((0, 0, height, -height)) for _ in range(2))
    width = max(abs(a), abs(b), max(-a, 0) + max(b, 0), max(a, 0) - min(b, 0)) + some.choice((1, 30, 128, 20000))
    far = some.choice((10, 1000, 10**6, 2**33))
    x, y = some.randint(-far, far), some.randint(-far, far)
    a, b = (0 if (corner + x + y) % 2 else slant for slant, corner in ((a, max(-a, 0)), (b, width - max(b, 0))))
    return y, y + height, x - min(a, 0), x + width - max(b, 0), x + max(a, 0), x + width + min(b, 0)


def changed(some, data, at):
    """Changes the byte at a place, or takes it away, or puts one before it."""
    change = some.randrange(4)
    if change == 0:
        data[at] ^= 1 << some.randrange(8)
    elif change == 1:
        data[at] = some.choice((0, 1, 2, 0x14, 0x7B, 0x80, 0xFF))
    elif change == 2:
        del data[at]
    else:
        data[at:at] = bytes([some.choice((0, 0x14, 0x7B, 0x80))])


def singly(data, pair):
    """The shots of records one at a time, and where the first one that is no legal shot begins."""
    at, shots = 0, []
    try:
        while at < len(data):
            shot, _, at = ns.record_at(data, at, pair)
            shots.append(shot)
    except ns.Wrong:
        pass
    return shots, at


def test_lanes():
    """Lanes give just what a record at a time gives, up to the last record; right ones of fewer than 42 bits are never left to
    another way, but for bytes that look like the start of a record."""
    some, kinds = random.Random(11), set()
    for number in range(2000):
        pair = some.choice(((1, 0), (300, 7), (0x14, 0x7B), (0x7B, 0x14), (0, 0x14)))
        shots = [random_shot(some) for _ in range(some.choice((3, 20, 90)))]
        if number % 3 == 0:
            shots = [shot for shot in shots if shot[2:4] == shot[4:]]
        if number % 5 == 0:
            shots = [shot for shot in shots if max(map(abs, shot)) < 2**26] + [(4, 5, 0, 123, 0, 123)] * (number % 2)
        data = bytearray(b"".join(ns.Records(*pair).spell(shots)))
        is_right = number % 4 == 0
        for _ in range(0 if is_right or not data else some.choice((1, 1, 2))):
            changed(some, data, some.randrange(len(data)))
        decoder = shot_lanes.LaneDecoder(lb.unsigned(*pair))
        try:
            found, used = decoder.shots(bytes(data))
        except shot_lanes.Unusual:
            assert not is_right or len(shots) < 2 or pair != (300, 7), number
            continue
        found = list(found)
        wanted, end = singly(bytes(data[:used]), pair)
        assert found == wanted and end == used and found, number
        assert list(zip(*decoder.columns(bytes(data))[0])) == found
        assert not is_right or len(found) == len(shots) - 1, number
        kinds.add((decoder.slot, decoder.numbers(bytes(data))[1], is_right))
    assert len(kinds) == 8, kinds


def random_file(some, path):
    """A shot file of up to 400 shots, which is changed in up to two places."""
    layer, datatype = some.choice(((1, 0), (10, 0), (300, 7)))
    shots = [random_shot(some) for _ in range(some.randint(0, 400))]
    ns.write_shots(path, some.choice((2, 2000, 500000)), layer, datatype, shots)
    with open(path, "rb") as file:
        data = bytearray(file.read())
    for _ in range(some.choice((0, 1, 1, 2))):
        changed(some, data, some.choice((some.randrange(len(data)), some.randrange(60), some.randrange(41, len(data) - 254))))
    if some.randrange(8) == 0:
        del data[some.randrange(len(data)):]
    with open(path, "wb") as file:
        file.write(data)


def test_what_is_written():
    """A file has just the shots that were written, and what is no shot isn't written, nor is an input replaced."""
    some = random.Random(3)
    shots = [random_shot(some) for _ in range(10000)]
    assert all(map(ns.is_legal, shots))
    with tempfile.TemporaryDirectory() as folder:
        path = os.path.join(folder, "shots.oas")
        assert ns.write_shots(path, 2000, 5, 6, shots) == 10000
        file = ns.ShotFile(path)
        assert (file.unit, file.layer, file.datatype) == (2000, 5, 6)
        assert all(read(path, way) == (shots, "") for way in each_way())
        size = os.path.getsize(path)
        flat, other_angle, off_the_grid, right = (0, 0, 0, 1, 0, 1), (0, 2, 0, 5, 1, 5), (0, 2, 1, 5, 3, 5), (0, 1, 0, 1, 0, 1)
        for shot, inputs in ((flat, ()), (other_angle, ()), (off_the_grid, ()), (right, [path])):
            try:
                ns.write_shots(path, 2000, 5, 6, [shot], inputs)
            except (ValueError, Refused):
                assert os.path.getsize(path) == size and os.listdir(folder) == ["shots.oas"]
            else:
                raise AssertionError(f"{shot} was written")


class NoLanes:
    """Leaves all to the regular expression."""

    def __init__(self, pair):
        pass

    def shots(self, data):
        raise shot_lanes.Unusual

    columns = shots


def each_way():
    """Tuples and columns, with numpy, where it is there, without it in lanes and by a regular expression; and a record at a time."""
    numpy, lanes = ns.numpy, ns.LaneDecoder
    for ns.numpy, ns.LaneDecoder in {(numpy, lanes), (None, lanes), (None, NoLanes)}:
        yield from ("tuples", "columns")
    ns.numpy, ns.LaneDecoder = numpy, lanes
    yield "singly"


def read(path, way):
    """The shots of a file and the fault that ended it, by tuples or by columns."""
    shots = []
    try:
        if way == "singly":
            begin = ns.ShotFile(path).begin
            with open(path, "rb") as file:
                data = file.read()[begin:]
            for some in ns.ShotFile(path)._singly(data, begin, "shots"):
                shots += some
        elif way == "tuples":
            for shot in ns.read_shots(path):
                shots.append(shot)
        else:
            for columns in ns.read_columns(path):
                shots += zip(*(list(map(int, column)) for column in columns))
    except ns.ShotFault as fault:
        return shots, f"{fault.kind} at {fault.at}"
    return shots, ""


def printed(program, path):
    """What the program lists, and the fault that it prints."""
    ended = subprocess.run([program, "shots", path], stdout=subprocess.PIPE, stderr=subprocess.DEVNULL)
    lines = ended.stdout.decode().splitlines()
    if ended.returncode == 7:
        return None, lines[-1].rsplit(": ", 1)[1]
    return [tuple(map(int, line.split())) for line in lines if line[0] in "-0123456789"], ""


def test_shot_files(program, count):
    """Every way to read a file gives the same."""
    numpy, some = ns.numpy, random.Random(7)
    pieces = ns.PlainDecoder.piece, ns.ArrayDecoder.piece
    with tempfile.TemporaryDirectory() as folder:
        path = os.path.join(folder, "shots.oas")
        faults = set()
        for number in range(count):
            random_file(some, path)
            ns.PlainDecoder.piece = ns.ArrayDecoder.piece = some.choice((100, 1000, 8192))
            answers = [read(path, way) for way in each_way()]
            assert all(answer == answers[0] for answer in answers), (number, [answer[1] for answer in answers])
            shots, fault = answers[0]
            faults.add(fault.split(" ")[0])
            if program:
                listed, said = printed(program, path)
                assert said == fault and (fault or listed == shots), (number, said, fault)
    ns.PlainDecoder.piece, ns.ArrayDecoder.piece = pieces
    assert faults == {"", "head", "record", "spelling", "illegal", "end"} or count < 300, faults
    return "numpy and without" if numpy else "no numpy here"


def main(program=None, count="300"):
    for name, test in sorted(globals().items()):
        if name.startswith("test_") and name != "test_shot_files":
            test()
    ways = test_shot_files(program and os.path.abspath(program), int(count))
    print(f"layouts and shot files are read and written as they should be, {count} changed shot files ({ways})")


if __name__ == "__main__":
    main(*sys.argv[1:])
