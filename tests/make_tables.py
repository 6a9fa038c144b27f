#!/usr/bin/env python3
"""The tables of paper 01 at a width of F fraction bits (32, 40 or 48).

step_table(F), reciprocals(), reciprocal_logs(F) and constants(F) are what a code
generator imports; `make_tables.py dump F` prints them all, one entry to a line.
"""

import functools
import sys

WIDTHS = (32, 40, 48)

# Values are whole numbers of 2^-PRECISION. A series has fewer than 200 terms, each
# cut by less than 2; a value adds at most four series with factors up to 16, so it
# is exact to 2^-370, far inside the 2^-100 of a unit that nearest() demands.
PRECISION = 384
TIE_MARGIN_BITS = 100


def odd_series(p, q, sign):
    """t + sign·t^3/3 + t^5/5 + sign·t^7/7 + ... at t = p/q: atanh for 1, arctan for -1."""
    power = (p << PRECISION) // q
    total, j = 0, 0
    while power not in (0, -1):
        total += sign**j * power // (2 * j + 1)
        power = power * p * p // (q * q)
        j += 1
    return total


def atanh(p, q):
    return odd_series(p, q, 1)


@functools.cache
def ln_2():
    return 2 * atanh(1, 3)


@functools.cache
def pi():
    """Machin: pi/4 = 4·arctan(1/5) - arctan(1/239)."""
    return 4 * (4 * odd_series(1, 5, -1) - odd_series(1, 239, -1))


def ln(p, q):
    """ln(p/q) for p, q > 0, by halving or doubling p/q into 3/4 to 3/2."""
    doublings = 0
    while 2 * p > 3 * q:
        q, doublings = 2 * q, doublings + 1
    while 4 * p < 3 * q:
        p, doublings = 2 * p, doublings - 1
    return doublings * ln_2() + 2 * atanh(p - q, p + q)


def arctan(p, q):
    """arctan(p/q) for q > 0, with the series at no more than 1/2 in size."""
    if p < 0:
        return -arctan(-p, q)
    if p > q:
        return pi() // 2 - arctan(q, p)
    if 2 * p > q:
        return pi() // 4 - arctan(q - p, q + p)
    return odd_series(p, q, -1)


def nearest(value, F):
    """The nearest whole number of units 1/2^F; no value may come near a tie."""
    cut = PRECISION - F
    half = 1 << (cut - 1)
    if abs(value % (1 << cut) - half) <= 1 << (cut - TIE_MARGIN_BITS):
        raise ArithmeticError("too near a tie to round")
    return (value + half) >> cut


def logarithm(re, im, scale, F):
    """ln((re + i·im)/scale), re > 0, each part as the nearest unit."""
    real = ln(re * re + im * im, scale * scale) // 2
    return nearest(real, F), nearest(arctan(im, re), F)


def step_entry(n, dx, dy, F):
    """ln(1 + d/2^n) (01, The step): over 2^n, that is 2^n + dx + i·dy."""
    return logarithm(2**n + dx, dy, 2**n, F)


@functools.cache
def step_table(F):
    """[n - 1][dx + 1][dy + 1] -> (re, im) for n from 1 to F - 8."""
    digits = (-1, 0, 1)
    return [
        [[step_entry(n, dx, dy, F) for dy in digits] for dx in digits]
        for n in range(1, F - 7)
    ]


def reciprocal(X, Y):
    """(a, b): the "seat" (a + ib)/64 of the cell with centre (X + iY)/32."""
    S = X * X + Y * Y
    # floor(v/S + 1/2) = floor((2v + S)/2S)
    return (4096 * X + S) // (2 * S), (-4096 * Y + S) // (2 * S)


@functools.cache
def reciprocals():
    """[(X - 17)/2][(Y + 31)/2] -> (a, b) for X odd 17..31, Y odd -31..31."""
    return [[reciprocal(X, Y) for Y in range(-31, 32, 2)] for X in range(17, 32, 2)]


@functools.cache
def reciprocal_logs(F):
    """ln((a + ib)/64), in the order of reciprocals()."""
    return [[logarithm(a, b, 64, F) for a, b in row] for row in reciprocals()]


def constants(F):
    """pi/4, ln 2 and half of ln 2 as the nearest units (02, E5)."""
    return tuple(nearest(value, F) for value in (pi() // 4, ln_2(), ln_2() // 2))


def dump(F):
    """One entry to a line: table, its two or three indices, its two numbers."""
    for n, rows in enumerate(step_table(F), 1):
        for dx, row in enumerate(rows, -1):
            for dy, entry in enumerate(row, -1):
                print("step", n, dx, dy, *entry)
    for name, table in (("reciprocal", reciprocals()), ("reciprocal_log", reciprocal_logs(F))):
        for X, row in zip(range(17, 32, 2), table):
            for Y, entry in zip(range(-31, 32, 2), row):
                print(name, X, Y, *entry)
    # The constants as the logarithms of 1 + i and of 2.
    quarter_pi, whole, half = constants(F)
    print("constant", 1, 1, half, quarter_pi)
    print("constant", 2, 0, whole, 0)


def main(arguments):
    if len(arguments) != 2 or arguments[0] != "dump" or arguments[1] not in map(str, WIDTHS):
        sys.exit("usage: make_tables.py dump 32|40|48")
    dump(int(arguments[1]))


if __name__ == "__main__":
    main(sys.argv[1:])
