#!/usr/bin/env python3
"""Writes crates/value_cases/src/storage_words/table.rt: fractions, the words that they pack to and the values
that those words read as, computed with exact fractions and nothing of the program.

    python3 tools/storage_numbers.py > crates/value_cases/src/storage_words/table.rt
    (cd crates/value_cases && rt fmt)
"""
from fractions import Fraction

MOST = 16_777_215
ONE = 10**7

# A step, and how a word shows it: the multiplying bit, the hundreds bit, the exponent.
STEPS = (
    [(Fraction(1, 10**e), 0, 0, e) for e in range(7, 0, -1)]
    + [(Fraction(1), 0, 0, 0)]
    + [(Fraction(10**e), 1, 0, e) for e in range(1, 8)]
    + [(Fraction(10 ** (2 * e)), 1, 1, e) for e in (4, 5, 6, 7)]
)


def half_even(x):
    """The nearest whole number to a fraction that is not below 0, on a tie the even one."""
    floor = x.numerator // x.denominator
    rest = x - floor
    if rest > Fraction(1, 2) or (rest == Fraction(1, 2) and floor % 2 == 1):
        return floor + 1
    return floor


def chosen(x):
    for step in STEPS:
        mantissa = half_even(abs(x) / step[0])
        if mantissa <= MOST:
            return step, mantissa
    return STEPS[-1], MOST


def word_and_units(x, anomalous, reset):
    (size, multiplies, hundreds, exponent), mantissa = chosen(x)
    if mantissa == 0:
        if anomalous and not reset:
            return 0x0400_0000, 0
        return (reset << 25) | ((not anomalous) << 24), 0
    word = (
        ((x < 0) << 31)
        | (multiplies << 30)
        | (exponent << 27)
        | (hundreds << 26)
        | (reset << 25)
        | ((not anomalous) << 24)
        | mantissa
    )
    units = mantissa * size * ONE * (-1 if x < 0 else 1)
    assert units.denominator == 1
    return word, int(units)


def samples():
    half = Fraction(1, 2)
    marks = [(False, False), (True, False), (False, True), (True, True)]
    turn = 0
    for number, (size, *_) in enumerate(STEPS):
        if number == 0:
            first = size
        else:
            first = (MOST + half) * STEPS[number - 1][0]
        for x in (
            first,  # the first that this step takes
            first - Fraction(1, 10**9) * size,  # and what is just below it
            MOST * size,  # the last mantissa
            (MOST + Fraction(499, 1000)) * size,  # what is still rounded to it
            (1_700_001 + half) * size,  # ties, to the odd and to the even number below
            (1_700_002 + half) * size,
        ):
            sign = -1 if turn % 2 else 1
            yield sign * x, *marks[turn % 4]
            turn += 1
    for x in (Fraction(0), half / ONE, Fraction(3, 2) / ONE, Fraction(1, 3), Fraction(-2, 3)):
        for mark in marks:
            yield x, *mark
    beyond = (MOST + half) * STEPS[-1][0]
    for x in (beyond, -beyond, beyond * 10, Fraction(2**100), Fraction(-(2**100))):
        yield x, False, False
    yield Fraction(2**100, 2**80), False, False
    yield Fraction(1, 2**80), True, True


def main():
    rows = []
    for x, anomalous, reset in samples():
        assert abs(x.numerator) <= 2**100 and x.denominator <= 2**80
        word, units = word_and_units(x, anomalous, reset)
        flags = f"{str(anomalous).lower()}, {str(reset).lower()}"
        rows.append(f"({x.numerator}, {x.denominator}, {flags}, 0x{word:08x}, {units}),")
    print("// Written by tools/storage_numbers.py.")
    print()
    print("/// Numerator, denominator, the two marks, the word, and the value that it reads as.")
    print(f"pub const TABLE: [(i128, i128, bool, bool, u32, i128); {len(rows)}] = [")
    for row in rows:
        print(f"    {row}")
    print("];")


if __name__ == "__main__":
    main()
