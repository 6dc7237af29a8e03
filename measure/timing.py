"""What the measuring scripts beside it have in common: runs of a program, timed, layouts to run it on, and tables.

The environment may have PART=N: sizes are divided by N then. That is for trying the scripts; the figures mean nothing.
"""
import os
import resource
import subprocess
import sys
from importlib.machinery import SourceFileLoader
from types import ModuleType
from typing import NamedTuple

HERE = os.path.dirname(os.path.abspath(__file__))
TOOLS = os.path.join(HERE, "..", "tools")
# The modules that read and write layouts are among the tools.
sys.path.insert(0, TOOLS)
# A run that needs more processor seconds is ended.
MOST_SECONDS = 100
# How often a run is made, and the processor seconds from which on it is made once.
RUNS, LONG_RUN = 3, 1.0
PART = int(os.environ.get("PART", "1"))


class Run(NamedTuple):
    """What a run took and said."""
    seconds: float      # of the processor, the system's part included
    memory: float       # the greatest, in megabytes
    said: str           # what it printed
    status: int         # the exit status, or less than 0 where a signal ended it


def sized(count):
    """A size, or its part."""
    return max(16, count // PART)


def loaded(name):
    """A script of this folder, as a module."""
    module = ModuleType(name)
    module.__file__ = os.path.join(HERE, name)
    SourceFileLoader(name, module.__file__).exec_module(module)
    return module


def limited():
    resource.setrlimit(resource.RLIMIT_CPU, (MOST_SECONDS, MOST_SECONDS))


def run(words, folder):
    child = subprocess.Popen(words, cwd=folder, stdout=subprocess.PIPE, stderr=subprocess.DEVNULL, preexec_fn=limited,
                             env={**os.environ, "QT_QPA_PLATFORM": "offscreen"})
    said = child.stdout.read()
    _, status, usage = os.wait4(child.pid, 0)
    child.returncode = os.WEXITSTATUS(status) if os.WIFEXITED(status) else -os.WTERMSIG(status)
    return Run(usage.ru_utime + usage.ru_stime, usage.ru_maxrss / 1000, said.decode(errors="replace"), child.returncode)


def least(words, folder, runs=RUNS):
    """The run of several that took the least processor seconds. A long run is made once."""
    best = run(words, folder)
    for _ in range(runs - 1):
        if best.seconds < LONG_RUN:
            best = min(best, run(words, folder), key=lambda it: it.seconds)
    return best


def memory_text(megabytes):
    """A run's memory. A child counts the memory of the process that made it, so less than that of this script can't be told."""
    floor = resource.getrusage(resource.RUSAGE_SELF).ru_maxrss / 1000
    return f"{megabytes:.0f} MB" if megabytes > 1.02 * floor else f"under {floor:.0f} MB"


def shots_in(said):
    lines = [line.split() for line in said.splitlines() if line.startswith("output ")]
    return sum(int(words[3]) for words in lines)


def write_deck(folder, name, text):
    with open(os.path.join(folder, name), "w") as file:
        file.write("unit 1000\n" + text)


def megabytes(folder, name):
    return os.path.getsize(os.path.join(folder, name)) / 1e6


def make_layout(program, folder, kind, count):
    """Writes layout.gds, and the decks that take all of it (whole.deck) and a small cell of it (read.deck); gives its megabytes."""
    if kind == "generated":
        run([program, "generate", str(count), "layout.gds"], folder)
    else:
        subprocess.run([os.path.join(HERE, "make_layout"), kind, str(count), "layout.gds"], cwd=folder, check=True)
    write_deck(folder, "whole.deck", "top TOP\nlayer A 1 0\nwrite A out.oas 1 0\n")
    small = "LEAF" if kind == "generated" else "SMALL"
    write_deck(folder, "read.deck", f"top {small}\nlayer A 1 0\nwrite A small.oas 1 0\n")
    return megabytes(folder, "layout.gds")


def table(*heads):
    print(f"| {' | '.join(heads)} |\n|{'---|' * len(heads)}", flush=True)


def row(*cells):
    print(f"| {' | '.join(map(str, cells))} |", flush=True)


def section(name):
    """Begins one of several tables that a script prints; measure/figures finds it by this line."""
    print(f"\n## {name}\n", flush=True)
