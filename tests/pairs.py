"""Runs the program on two layouts that say the same, case by case, for the scripts beside this one."""
import os
import random
import subprocess
import tempfile

DECK = "unit 1000\ntop TOP\nlayer A 1 0\nlayer B 2 0\nwrite A a.oas 1 0\nwrite B b.oas 1 0\n"
FILES = ["a.oas", "b.oas"]


def outcome(program, layout):
    """The status, what is printed where it is 0, and both files."""
    with open("layout", "wb") as file:
        file.write(layout)
    ended = subprocess.run([program, "fracture", "layout", "deck"], capture_output=True, check=False)
    files = []
    for name in FILES:
        if os.path.exists(name):
            with open(name, "rb") as file:
                files.append(file.read())
            os.unlink(name)
    return ended.returncode, ended.stdout if ended.returncode == 0 else b"", files


def agree(program, layouts, seen, cases=60, first=0):
    """Whether both layouts that `layouts` makes of a source of chance give the same, by `seen` of their outcomes, in each case."""
    program = os.path.realpath(program)
    failed = whole = 0
    with tempfile.TemporaryDirectory() as folder:
        os.chdir(folder)
        with open("deck", "w") as deck:
            deck.write(DECK)
        for seed in range(first, first + cases):
            one, other = (outcome(program, layout) for layout in layouts(random.Random(seed)))
            whole += other[0] == 0
            if seen(one) != seen(other):
                failed += 1
                print(f"case {seed}: statuses {one[0]} and {other[0]}")
    print(f"{cases} layouts, {whole} accepted, {failed} differ")
    return not failed and whole >= cases // 2
