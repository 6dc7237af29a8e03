#!/usr/bin/env python3
"""Runs the program on layouts, decks and shot files made to take as much time or memory as they can.

    usage: tests/hostile/run.py PROGRAM [quick | WORD..]

Each case is made by a script of this folder, and must be answered with the status and the line that were worked out for it
(what comes after `..` is free), within 4 GB of address space and 60 seconds of the processor, or within the limits that it has
as its fourth field. Time and memory are printed.
With `quick` only the cases run that take less than a second each, with other words those whose name has all of them.

What today's program can't do within the limits is listed in beyond.txt, a case a line, with what was measured. Such a case
is run too, and named where it fails and where it doesn't any more; it doesn't make the whole fail.
"""
import multiprocessing
import os
import resource
import signal
import subprocess
import sys
import tempfile
import time

HERE = os.path.dirname(os.path.abspath(__file__))
sys.path.insert(0, HERE)
import bands
import decks
import further
import geometry
import names
import repetitions
import rings
import trees

# Bytes of address space and seconds of the processor that a case may take.
LIMITS = (4 << 30, 60)
# The last line that is printed has fewer bytes.
LONGEST_LINE = 1 << 24
CASES = [case for module in (names, repetitions, trees, geometry, rings, bands, decks, further) for case in module.CASES]


class Skipped(Exception):
    """Why a case can't be run."""


def beyond():
    """The cases that are known to fail, with what was measured."""
    with open(os.path.join(HERE, "beyond.txt")) as file:
        lines = [line.rstrip("\n").split(" | ") for line in file if line.strip() and not line.startswith("#")]
    return {words[0]: words[1] for words in lines}


def limit(memory, seconds):
    resource.setrlimit(resource.RLIMIT_AS, (memory, memory))
    resource.setrlimit(resource.RLIMIT_CPU, (seconds, seconds + 1))
    resource.setrlimit(resource.RLIMIT_CORE, (0, 0))


def answer(program, words, limits):
    """Status, last line, processor seconds and megabytes; a status below 0 is the signal that ended the program."""
    with open("said", "wb") as said:
        child = subprocess.Popen([program, *words], stdout=said, stderr=subprocess.DEVNULL, preexec_fn=lambda: limit(*limits))
        _, status, usage = os.wait4(child.pid, 0)
        child.returncode = os.waitstatus_to_exitcode(status)
    with open("said", "rb") as said:
        said.seek(max(0, os.path.getsize("said") - LONGEST_LINE))
        lines = said.read().decode(errors="replace").splitlines()
    return child.returncode, lines[-1] if lines else "", usage.ru_utime + usage.ru_stime, usage.ru_maxrss / 1000


def answers_of(program):
    """A pipe to a process that runs the program in a folder with some words and limits, and gives what `answer` does. It is
    begun while this one is small: what the making of cases takes would else be counted as memory of the program."""
    here, there = multiprocessing.Pipe()
    if os.fork() == 0:
        here.close()
        try:
            while True:
                folder, words, limits = there.recv()
                os.chdir(folder)
                there.send(answer(program, words, limits))
        except (EOFError, KeyboardInterrupt):
            os._exit(0)
    there.close()
    return here


def fits(line, wanted):
    return line.startswith(wanted[:-2]) if wanted.endswith("..") else line == wanted


def run(answers, make, limits=LIMITS):
    """What was measured of a case, and what is wrong with its answer, or nothing."""
    home = os.getcwd()
    with tempfile.TemporaryDirectory() as folder:
        os.chdir(folder)
        try:
            words, wanted, line = make()
            answers.send((folder, words, limits))
            status, said, seconds, memory = answers.recv()
        finally:
            os.chdir(home)
    if status == 1 and wanted != 1 and said == "words refused":
        raise Skipped("the program doesn't know these words")
    measured = f"{seconds:.2f} s, {memory:.0f} MB"
    if status < 0:
        out_of_time = -status in (signal.SIGXCPU, signal.SIGKILL)
        return measured, f"no answer within {limits[1]} s" if out_of_time else f"ended by signal {-status}"
    if status != wanted or not fits(said, line):
        return measured, f"status {status} in place of {wanted}: {said[:100]}"
    return measured, None


def chosen(words):
    if words == ["quick"]:
        return [case for case in CASES if case[1]]
    return [case for case in CASES if all(word in case[0] for word in words)]


def main(program, words):
    program = os.path.realpath(program)
    answers = answers_of(program)
    known = beyond()
    failed = past = 0
    begun = time.monotonic()
    cases = chosen(words)
    for name, _, *how in cases:
        try:
            measured, fault = run(answers, *how)
        except FileNotFoundError as missing:
            print(f"skipped: {name}, since there is no {missing.filename}", flush=True)
            continue
        except Skipped as why:
            print(f"skipped: {name}, since {why}", flush=True)
            continue
        if fault is None:
            print(f"{measured}: {name}" + (", which beyond.txt doesn't expect" if name in known else ""), flush=True)
        elif name in known:
            past += 1
            print(f"{measured}: beyond the limits, as expected: {name}: {fault}", flush=True)
        else:
            failed += 1
            print(f"{measured}: FAILED: {name}: {fault}", flush=True)
    print(f"{len(cases)} hostile cases, {failed} failed, {past} beyond the limits as expected, {time.monotonic() - begun:.0f} s")
    return 1 if failed else 0


if len(sys.argv) >= 2:
    sys.exit(main(sys.argv[1], sys.argv[2:]))
sys.exit(__doc__)
