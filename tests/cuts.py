#!/usr/bin/env python3
"""Cuts small files at each of their bytes, and makes some too long, and asks the program for the one right answer.

    usage: tests/cuts.py PROGRAM

A GDSII layout and an OASIS layout, for `fracture`, a shot file, for `shots` and `pack`, and a packed one, for `unpack`: each
beginning of it must be refused at the record that it cuts, with status and line as they were worked out, and without a file.
A layout and shot files of 268,435,456 bytes are read, and one byte more is told as too long; those files are sparse.
"""
import os
import subprocess
import sys
import tempfile

LONGEST = 268435456
MAGIC = b"%SEMI-OASIS\r\n"
DECK = "unit 1000\ntop TOP\nlayer A 1 0\nwrite A out.oas 1 0\n"

# A square of 10 grid steps, by its records.
GDS = [bytes.fromhex(text) for text in (
    "000600020258", "001C0102" + 24 * "00", "000602064C00", "001403053E4189374BC6A7F03944B82FA09B5A54", "001C0502" + 24 * "00",
    "00080606544F5000", "00040800", "00060D020001", "00060E020000",
    "002C1003" + "".join("%08X" % number for number in (0, 0, 0, 10, 10, 10, 10, 0, 0, 0)), "00041100", "00040700", "00040400")]
# The same square, with a property, padding and the cell's name after it, and the offsets of tables in END.
OASIS = [MAGIC] + [bytes.fromhex(text) for text in (
    "0103312E3000E80701", "1C1404544553540805", "0D00", "147B01000A0A0000", "00", "0303544F50", "02" + 12 * "00" + "F001" + 241 * "00")]
# Its one shot.
SHOTS = [MAGIC + bytes.fromhex("0103312E3000D00F00" + 12 * "00" + "0E0553484F5453"), bytes.fromhex("147B010014140000"),
         bytes.fromhex("02FC01" + 253 * "00")]

# Three such squares in one record.
PACKED = [SHOTS[0], bytes.fromhex("1467010014140901A10100"), SHOTS[2]]


def starts(records):
    """Where each record begins."""
    at = [0]
    for record in records:
        at.append(at[-1] + len(record))
    return at[:-1]


def cut_record(records, length):
    """Where the record begins that is cut, or would begin after the last byte."""
    return max(at for at in starts(records) if at <= length)


def gds_answer(length):
    return 3, f"layout refused: gdsii short at {cut_record(GDS, length)}"


def oasis_answer(length):
    if length == 0:
        return gds_answer(0)
    if length < len(MAGIC):
        return 3, "layout refused: oasis magic"
    return 3, f"layout refused: oasis record at {cut_record(OASIS, length)} short"


def cut_shots(records, length):
    """What is said of a shot file of one record that is cut."""
    _, record, end = starts(records)
    if length < record:
        return f"head at {length}"
    return f"end at {end}" if length > end else f"record at {record if length < end else end}"


def shots_answer(length):
    return 7, f"check refused: F: {cut_shots(SHOTS, length)}"


def packed_answer(length):
    return 7, f"check refused: F: packed {cut_shots(PACKED, length)}"


class Program:
    """The program in a folder with the deck K, and what it was asked."""

    def __init__(self, path, folder):
        self.path, self.folder = path, folder
        self.asked = self.failed = 0
        with open(os.path.join(folder, "K"), "w") as file:
            file.write(DECK)

    def write(self, data, length=None):
        with open(os.path.join(self.folder, "F"), "wb") as file:
            file.write(data)
            file.truncate(len(data) if length is None else length)

    def expect(self, what, words, status, line):
        """The program says this line alone with this status; it makes a file exactly with status 0."""
        self.asked += 1
        ended = subprocess.run([self.path, *words], cwd=self.folder, stdout=subprocess.PIPE)
        said = ended.stdout.decode(errors="replace").splitlines()
        out = os.path.join(self.folder, "out.oas")
        made = os.path.exists(out)
        if made:
            os.remove(out)
        if ended.returncode != status or (said[-1:] if status == 0 else said) != [line] or made != (status == 0):
            self.failed += 1
            print(f"FAILED: {what}: status {ended.returncode}, a file {'was' if made else 'was not'} made, and it said {said[-3:]}")


def main(path):
    with tempfile.TemporaryDirectory() as folder:
        program = Program(os.path.realpath(path), folder)
        fracture, shots = ["fracture", "F", "K"], ["shots", "F"]
        pack, unpack = ["pack", "F", "out.oas"], ["unpack", "F", "out.oas"]
        for what, records, words, answer in (("GDSII", GDS, fracture, gds_answer), ("OASIS", OASIS, fracture, oasis_answer),
                                             ("shot", SHOTS, shots, shots_answer), ("shot", SHOTS, pack, shots_answer),
                                             ("packed", PACKED, unpack, packed_answer)):
            data = b"".join(records)
            for length in range(len(data)):
                program.write(data[:length])
                program.expect(f"{length} bytes of the {what} file", words, *answer(length))
        square = "output out.oas shots 1 triangles 800"
        program.write(b"".join(OASIS))
        program.expect("the whole OASIS file", fracture, 0, square)
        program.write(b"".join(GDS), LONGEST)
        program.expect("the longest layout", fracture, 0, square)
        program.write(b"".join(GDS), LONGEST + 1)
        program.expect("a layout of a byte more", fracture, 3, f"layout refused: longer than {LONGEST} bytes")
        program.write(b"".join(SHOTS), LONGEST)
        program.expect("the longest shot file", shots, 7, "check refused: F: end at 49")
        program.expect("the longest shot file to be packed", pack, 7, "check refused: F: end at 49")
        program.write(b"".join(SHOTS), LONGEST + 1)
        for words in (shots, pack, unpack):
            program.expect("a shot file of a byte more", words, 7, f"check refused: F: longer than {LONGEST} bytes")
        program.write(b"".join(PACKED), LONGEST)
        program.expect("the longest packed file", unpack, 7, "check refused: F: packed end at 52")
        print(f"{program.asked} cut and long files, {program.failed} failed")
        return 1 if program.failed else 0


if len(sys.argv) == 2:
    sys.exit(main(sys.argv[1]))
sys.exit(__doc__)
