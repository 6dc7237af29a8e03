"""Layouts of many names, and of names and numbers whose hashes collide where the tables of names hash with a fixed seed.

The program's tables don't: they hash with a key that depends on the whole file, so these names are as good as others. The
hash that they are made for is the kit's for maps where none is given: a number of 64 bits, multiplied by a constant after each byte of a
name, the halves of the product joined. Names are searched for by a small C program, until the lowest bits of enough of them
are 0, so that all of them begin in a few of the table's groups and go on through the same ones. It needs `cc`.
"""
import functools
import subprocess

from records import *

SEARCH = r"""
#include <stdint.h>
#include <stdio.h>
#include <stdlib.h>
#include <string.h>

static uint64_t mixed(uint64_t a, uint64_t b) {
    unsigned __int128 product = (unsigned __int128)a * b;
    return (uint64_t)product ^ (uint64_t)(product >> 64);
}

#define MULTIPLIER 0x9E3779B97F4A7C15u
#define START 0x243F6A8885A308D3u

static const char signs[] = "0123456789ABCDEFGHIJKLMNOPQRSTUVWXYZabcdefghijklmnopqrstuvwxyz-+";

static int hits(uint64_t state, uint64_t mask) {
    return ((state ^ state >> 32) & mask) == 0;
}

static uint64_t with_byte(uint64_t state, char sign) {
    return mixed(state ^ (uint64_t)sign * 0x010101, MULTIPLIER ^ 2);
}

int main(int count_of_words, char **words) {
    long left = atol(words[2]);
    uint64_t mask = ((uint64_t)1 << atol(words[3])) - 1;
    if (!strcmp(words[1], "numbers")) {
        for (uint64_t n = 1; left; n++)
            if (hits(mixed(START ^ n, MULTIPLIER ^ 16), mask)) left--, printf("%llu\n", (unsigned long long)n);
        return 0;
    }
    uint64_t begun = mixed(START ^ 8, MULTIPLIER ^ 16);
    for (uint64_t n = 0; left; n++) {
        char name[9] = {0};
        uint64_t state = begun;
        for (int k = 0; k < 7; k++) name[k] = signs[n >> 6 * k & 63], state = with_byte(state, name[k]);
        for (int k = 0; k < 64 && left; k++)
            if (hits(with_byte(state, signs[k]), mask)) name[7] = signs[k], left--, puts(name);
    }
    return 0;
}
"""


@functools.cache
def found(kind, count, bits):
    """So many names of 8 bytes, or numbers, whose hashes have as many lowest bits 0; made in the working folder."""
    with open("search.c", "w") as file:
        file.write(SEARCH)
    subprocess.run(["cc", "-O2", "-o", "search", "search.c"], check=True)
    return subprocess.run(["./search", kind, str(count), str(bits)], check=True, stdout=subprocess.PIPE).stdout.split()


def gds_collide(count, bits):
    gds((cell(name) for name in found("names", count, bits)), cell("TOP", polygon(SQUARE)))
    deck()
    return ["fracture", "layout", "deck"], 0, SQUARE_LINE


def oas_collide(count, bits):
    oas((oas_cell(name) for name in found("names", count, bits)), oas_cell("TOP", rectangle(0, 0, 10, 10)))
    deck()
    return ["fracture", "layout", "deck"], 0, SQUARE_LINE


def numbers_collide(count, bits):
    """Cells by number, and their names after them."""
    numbers = [int(number) for number in found("numbers", count, bits)]
    cells = (b"\x0D" + unsigned(number) for number in numbers)
    names = (b"\x04" + text("C%d" % number) + unsigned(number) for number in numbers)
    oas(cells, oas_cell("TOP", rectangle(0, 0, 10, 10)), names)
    deck()
    return ["fracture", "layout", "deck"], 0, SQUARE_LINE


def last_byte(count):
    """Long names that differ in their last bytes alone."""
    gds((cell("N" * 1000 + "%06d" % k) for k in range(count)), cell("TOP", polygon(SQUARE)))
    deck()
    return ["fracture", "layout", "deck"], 0, SQUARE_LINE


def twice(count):
    """The last of many names is the first again."""
    names = ["C%d" % k for k in range(count)] + ["C0"]
    first = len(GDS_HEAD) + 28
    gds((cell(name) for name in names))
    last = len(GDS_HEAD) + sum(len(cell(name)) for name in names[:-1]) + 28
    deck()
    return ["fracture", "layout", "deck"], 3, f"layout refused: gdsii name at {last} repeats {first}"


CASES = [
    ("names that collide, GDSII, 10,000", False, lambda: gds_collide(10000, 11)),
    ("names that collide, GDSII, 100,000", False, lambda: gds_collide(100000, 14)),
    ("names that collide, GDSII, 1,000,000", False, lambda: gds_collide(1000000, 15)),
    ("names that collide, OASIS, 1,000,000", False, lambda: oas_collide(1000000, 15)),
    ("numbers of cells that collide, OASIS, 100,000", False, lambda: numbers_collide(100000, 14)),
    ("numbers of cells that collide, OASIS, 1,000,000", False, lambda: numbers_collide(1000000, 15)),
    ("names of 1,006 bytes, 100,000", False, lambda: last_byte(100000)),
    ("a name twice among 100,000", True, lambda: twice(100000)),
]
