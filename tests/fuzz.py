#!/usr/bin/env python3
"""Runs the program on small files that are changed at random: tests/fuzz.py PROGRAM SECONDS [SEED]

Layouts of both formats, decks, shot files and packed ones are cut, spliced, and changed in some bytes, numbers or lines.
Whatever they are then, the program must end with a status from 0 to 7 within 10 seconds of the processor and 1 GB. With
another status than 0 it must print one line, that of the status, and with 1 to 3 it must leave no file. After status 0 of
`fracture`, `check` must find each file exact and print the same sums, `shots` must list it, another band and `density` must
give as many triangles, and so must the stripes of `split`. After status 0 of `unpack`, `shots` must list what it made, which
must be the same once it was packed and unpacked.

A run that was accepted may take long by right, since a few bytes can ask for very many shots: where its output is begun, or
its file has reached 64 MB, it is counted as long and isn't a fault. The seed is printed, and what fails is kept in the
folder fuzz-SEED of the working folder, a folder a case: F for `shots` and `unpack`, L and K for `fracture` and `check`.
"""
import os
import random
import resource
import shutil
import subprocess
import sys
import tempfile
import time

TOOLS = os.path.join(os.path.dirname(os.path.abspath(__file__)), "..", "tools")
SECONDS, MEMORY, FILE = 10, 1 << 30, 64 << 20
LINES = {1: "words refused", 2: "deck refused: ", 3: "layout refused: ", 4: "read fault", 5: "write fault", 6: "want of memory",
         7: "check refused: "}

SHAPES = ["cell TOP\nboundary 1 0 0,0 0,10 10,10 10,0",
          "cell TOP\nboundary 1 0 0,0 10,10 10,0 0,10\nboundary 2 0 0,0 11,0 0,11\ntext 1 0,0 A",
          "cell TOP\npath 1 0 type=2 width=4 0,0 20,0 20,30\npath 2 0 width=20 0,0 100,0 100,50",
          "cell C\nboundary 1 0 0,0 4,0 4,4\nbox 2 0 1,1 5,9\ncell TOP\naref C flip angle=270 size=3x2 100,200 190,200 100,320\n"
          "sref C mag=2 angle=90 -50,-60\nbox 1 0 0,0 10,10",
          "cell A\nsref B 0,0\ncell B\nbox 1 0 0,0 5,5\nsref C 9,9\ncell C\nbox 2 0 0,-700 5,700\ncell TOP\nsref A 3,3\nsref B -9,0"]
# OASIS records that tools/oas doesn't write, each after the cell TOP: all with modal values, repetitions and shapes
OASIS = ["147B01000A0A0000 14181400", "147F01000A0A0000010100141E", "1ADB010010050000 1A901828 1ADF0100030A0A00000200 14",
         "153B0100 0404 05 00 0D 02 2D 06 00 00", "16FB0100020A020228511414", "177B0100140A0402 00 00 187B0100140A0500 00",
         "197B0100140A0400 00 147F01000A0A0000 0B0202A10100A10202 1404 00", "10 147B01000A0A0505 14180A 0F 14180A",
         "0D00 147B01000A0A0000 030141 1C1404544553540805 00 11B0 0141 05 05"]
DECKS = ["layer A 1 0\nwrite A out.oas 1 0",
         "band 1024\nlayer A 1 0\nlayer B 2 0\nor C A B\nsub D A B\nwrite C out.oas 1 0\nwrite D two.oas 7 3",
         "limits 10 30\nlayer A 1 0\nlayer B 2 0\ngrow C A 3 1\nshrink D B 2\nxor E C D\nwrite E out.oas 1 0",
         "frame -50 -40 60 70\nlayer A 1 0\nlayer B 2 0\ninvert C A\nmirror D C 5\nand E D B\nwrite E out.oas 1 0\nwrite C two.oas 1 0"]
NUMBERS = [0, 1, -1, 2, 127, 128, 255, 256, 1023, 1024, 32767, 32768, 65535, 65536, 65537, 1 << 20, 1 << 24, (1 << 24) + 1, 1 << 25,
           (1 << 30) - 1, 1 << 30, (1 << 30) + 1, (1 << 31) - 1, 1 << 31, 1 << 32, 1 << 40, 1 << 44, (1 << 62) - 1, (1 << 63) - 1, 10**18]


def tool(name, description, folder):
    subprocess.run([os.path.join(TOOLS, name), "made"], cwd=folder, input=description.encode(), check=True)
    with open(os.path.join(folder, "made"), "rb") as file:
        return file.read()


def seeds(program, folder):
    """Layouts, decks, shot files and packed ones to begin with."""
    layouts = [tool(name, shapes, folder) for name in ("gds", "oas") for shapes in SHAPES]
    head, end = tool("oas", "cell TOP", folder)[:-256], b"\x02\xFC\x01" + bytes(253)
    layouts += [head + bytes.fromhex(records) + end for records in OASIS]
    decks = [f"unit 1000\ntop TOP\n{lines}\n".encode() for lines in DECKS]
    shots, packed = [], []
    for layout in layouts[:len(SHAPES)]:
        write(folder, "L", layout)
        write(folder, "K", decks[1])
        subprocess.run([program, "fracture", "L", "K"], cwd=folder, stdout=subprocess.DEVNULL, check=True)
        for name in ("out.oas", "two.oas"):
            subprocess.run([program, "pack", name, "packed"], cwd=folder, stdout=subprocess.DEVNULL, check=True)
            shots.append(read(folder, name))
            packed.append(read(folder, "packed"))
    return layouts, decks, shots, packed


def write(folder, name, data):
    with open(os.path.join(folder, name), "wb") as file:
        file.write(data)


def read(folder, name):
    with open(os.path.join(folder, name), "rb") as file:
        return file.read()


# ---- changes

def spelled(chance):
    """A number in one of the ways of the formats."""
    number = chance.choice(NUMBERS)
    way = chance.randrange(3)
    if way == 0:
        return (number % (1 << 16)).to_bytes(2, "big")
    if way == 1:
        return (number % (1 << 32)).to_bytes(4, "big")
    out, number = bytearray(), abs(number)
    while number >= 128:
        out.append(number % 128 + 128)
        number //= 128
    return bytes(out) + bytes([number])


def changed_bytes(chance, data, others):
    at = chance.randrange(len(data) + 1)
    until = min(len(data), at + chance.randrange(1, 12))
    way = chance.randrange(8)
    if way == 0:
        return data[:at]
    if way == 1:
        return data[:at] + data[until:]
    if way == 2:
        return data[:until] + data[at:]
    if way == 3:
        other = chance.choice(others)
        start = chance.randrange(len(other))
        return data[:at] + other[start:start + chance.randrange(1, 80)] + data[chance.choice([at, until]):]
    if way == 4:
        new = spelled(chance)
        return data[:at] + new + data[chance.choice([at, at + len(new)]):]
    if way == 5:
        return data[:at] + bytes([chance.choice([0, 1, 127, 128, 255, chance.randrange(256)])]) + data[at + 1:]
    flipped = bytearray(data)
    if at < len(data):
        flipped[at] ^= 1 << chance.randrange(8)
    return bytes(flipped)


def changed_lines(chance, data, others):
    lines = data.split(b"\n")
    at = chance.randrange(len(lines))
    words = lines[at].split(b" ")
    way = chance.randrange(5)
    if way == 0:
        lines.insert(chance.randrange(len(lines)), lines[at])
    elif way == 1:
        del lines[at]
    elif way == 2:
        lines.insert(at, chance.choice(chance.choice(others).split(b"\n")))
    else:
        new = str(chance.choice(NUMBERS)).encode() if way == 3 else chance.choice([b"A", b"B", b"C", b"grow", b"sub", b"invert", b"#", b""])
        words[chance.randrange(len(words))] = new
        lines[at] = b" ".join(words)
    return b"\n".join(lines)


def changed(chance, data, others, by_lines=False):
    for _ in range(chance.choice([1, 1, 1, 2, 3, 6])):
        data = (changed_lines if by_lines and chance.random() < 0.7 else changed_bytes)(chance, data, others)
    return data


# ---- runs

def processor_seconds(child):
    """What a running child has used."""
    with open(f"/proc/{child.pid}/stat") as file:
        words = file.read().rsplit(")", 1)[1].split()
    return (int(words[11]) + int(words[12])) / os.sysconf("SC_CLK_TCK")


def ask(program, words, folder):
    """Status and lines, and the status is None where the time was over."""
    with open(os.path.join(folder, "said"), "wb") as said:
        child = subprocess.Popen([program, *words], cwd=folder, stdout=said, stderr=subprocess.DEVNULL, restore_signals=False)
        while True:
            try:
                child.wait(timeout=1)
                break
            except subprocess.TimeoutExpired:
                if processor_seconds(child) > SECONDS:
                    child.kill()
                    child.wait()
                    return None, []
    with open(os.path.join(folder, "said"), "rb") as said:
        return child.returncode, said.read().decode(errors="replace").splitlines()


class Long(Exception):
    """An accepted run that takes long by right."""


def fault_of_answer(status, said):
    if status is None:
        return f"no answer within {SECONDS} s"
    if not 0 <= status <= 7:
        return f"status {status}"
    if status > 0 and (len(said) != 1 or not said[0].startswith(LINES[status])):
        return f"status {status}, and it said {said[:3]}"
    return None


def triangles(outputs):
    return [line.split()[-1] for line in outputs]


def fault_in_other_band(program, folder, outputs):
    """The same deck with another band must give as many triangles."""
    with open(os.path.join(folder, "K"), "rb") as file:
        lines = [line for line in file.read().split(b"\n") if line.split()[:1] != [b"band"]]
    first = next(k for k, line in enumerate(lines) if line.split()[:1] == [b"unit"])
    lines.insert(first, b"band 65536" if len(lines) % 2 else b"band 4097")
    write(folder, "J", b"\n".join(lines))
    status, said = ask(program, ["fracture", "L", "J"], folder)
    if status in (None, 5, 6):
        raise Long
    others = [line for line in said if line.startswith("output ")]
    if status != 0 or triangles(others) != triangles(outputs):
        return f"with another band, status {status} and triangles {triangles(others)} in place of {triangles(outputs)}"
    return None


def fault_of_split(program, folder, output):
    """A shot file must have as many triangles in its stripes."""
    _, name, _, _, _, count = output
    status, said = ask(program, ["split", "1000", name, "stripe"], folder)
    if status in (None, 5, 6, 7):
        raise Long
    shots = triangles = 0
    for line in said[:-1]:
        _, number, _, some, _, most = line.split()
        listed = ask(program, ["shots", f"stripe.{number}"], folder)[1]
        if listed[-1] != f"shots {some} triangles {most}":
            return f"{line}, and then shots said {listed[-1:]}"
        shots, triangles = shots + int(some), triangles + int(most)
    if status != 0 or triangles != int(count) or said[-1] != f"shots {shots} triangles {triangles}":
        return f"split of {count} triangles ended with status {status}: {said[-1:]}"
    return None


def fault_of_density(program, folder, outputs):
    """The triangles of all windows must be those of the outputs."""
    status, said = ask(program, ["density", "4096", "L", "K"], folder)
    if status in (None, 5, 6):
        raise Long
    sums = [line for line in said if line.startswith("triangles ")]
    if status != 0 or triangles(sums) != triangles(outputs):
        return f"density ended with status {status}: {sums} in place of {triangles(outputs)}"
    return None


def fault_of_fracture(program, folder, counts):
    """What is wrong with `fracture` and what follows it, or nothing."""
    status, said = ask(program, ["fracture", "L", "K"], folder)
    made = [name for name in os.listdir(folder) if name not in ("L", "K", "said")]
    if made and (status is None or status == 5 and any(os.path.getsize(os.path.join(folder, name)) >= FILE for name in made)):
        raise Long
    fault = fault_of_answer(status, said)
    if fault or status > 0:
        return fault or (f"status {status} and the files {made}" if made and status < 4 else None)
    counts["accepted"] += 1
    outputs = [line for line in said if line.startswith("output ")]
    status, judged = ask(program, ["check", "L", "K"], folder)
    if status in (None, 6):
        raise Long
    if status != 0 or judged != [line.replace("output ", "exact ", 1) if line in outputs else line for line in said]:
        return f"fracture ended with status 0, and then check with {status}: {judged[-3:]}"
    for line in outputs:
        name, sums = line.split(" ", 1)[1].split(" shots ")
        status, listed = ask(program, ["shots", name], folder)
        if status != 0 or listed[-1] != f"shots {sums}":
            return f"shots of {name} ended with status {status}: {listed[-1:]}"
    return (fault_of_split(program, folder, outputs[0].split()) or fault_of_density(program, folder, outputs)
            or fault_in_other_band(program, folder, outputs))


def fault_of_unpack(program, folder, counts):
    """What is wrong with `unpack` and what follows it, or nothing."""
    status, said = ask(program, ["unpack", "F", "plain"], folder)
    if status == 6 or status == 5 and os.path.exists(os.path.join(folder, "plain")):
        raise Long
    fault = fault_of_answer(status, said)
    if fault or status > 0:
        return fault or (f"status {status} and a file" if os.path.exists(os.path.join(folder, "plain")) else None)
    counts["unpacked"] += 1
    status, listed = ask(program, ["shots", "plain"], folder)
    if status != 0 or listed[-1].split()[:2] != said[0].split()[2:0:-1]:
        return f"{said[0]}, and then shots ended with status {status}: {listed[-1:]}"
    for words in (["pack", "plain", "again"], ["unpack", "again", "twice"]):
        status, said = ask(program, words, folder)
        if status != 0:
            return f"{words[0]} of what was unpacked ended with status {status}: {said}"
    return None if read(folder, "plain") == read(folder, "twice") else "packed and unpacked again it is another file"


def try_case(program, chance, folder, begin, counts):
    """What is wrong with a case, or nothing."""
    layouts, decks, shots, packed = begin
    kind = chance.randrange(5)
    if kind == 4:
        write(folder, "F", changed(chance, chance.choice(packed), packed + shots))
        return fault_of_unpack(program, folder, counts)
    if kind == 0:
        write(folder, "F", changed(chance, chance.choice(shots), shots))
        return fault_of_answer(*ask(program, ["shots", "F"], folder))
    layout, deck = chance.choice(layouts), chance.choice(decks)
    if kind < 3:
        layout = changed(chance, layout, layouts)
    else:
        deck = changed(chance, deck, decks, True)
    write(folder, "L", layout)
    write(folder, "K", deck.replace(b"/", b"_"))
    if kind == 2 and chance.random() < 0.3:
        write(folder, "out.oas", changed(chance, chance.choice(shots), shots))
        return fault_of_answer(*ask(program, ["check", "L", "K"], folder))
    return fault_of_fracture(program, folder, counts)


def main(program, seconds, seed):
    program = os.path.realpath(program)
    resource.setrlimit(resource.RLIMIT_AS, (MEMORY, MEMORY))
    resource.setrlimit(resource.RLIMIT_FSIZE, (FILE, FILE))
    kept = f"fuzz-{seed}"
    print(f"seed {seed}", flush=True)
    cases = failed = 0
    counts = {"accepted": 0, "unpacked": 0, "long": 0}
    with tempfile.TemporaryDirectory() as room:
        begin = seeds(program, room)
        until = time.monotonic() + seconds
        folder = os.path.join(room, "case")
        while time.monotonic() < until:
            os.mkdir(folder)
            try:
                fault = try_case(program, random.Random(f"{seed} {cases}"), folder, begin, counts)
            except Long:
                counts["long"] += 1
                fault = None
            if fault:
                failed += 1
                shutil.copytree(folder, os.path.join(kept, str(cases)))
                print(f"FAILED: case {cases}, kept in {kept}/{cases}: {fault}", flush=True)
            shutil.rmtree(folder)
            cases += 1
    print(f"{cases} changed files, {counts['accepted']} of them layouts and decks that were accepted, "
          f"{counts['unpacked']} packed files that were unpacked, {counts['long']} long, {failed} failed")
    return 1 if failed else 0


if 3 <= len(sys.argv) <= 4:
    sys.exit(main(sys.argv[1], float(sys.argv[2]), int(sys.argv[3]) if len(sys.argv) == 4 else random.randrange(1 << 32)))
sys.exit(__doc__)
