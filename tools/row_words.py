#!/usr/bin/env python3
"""Writes crates/value_cases/src/row_words/table.rt: rows of a chart, and the words that their values give,
computed with exact fractions and nothing of the program.

    python3 tools/row_words.py > crates/value_cases/src/row_words/table.rt
    (cd crates/value_cases && rt fmt)
"""
from fractions import Fraction

from storage_numbers import word_and_units

MOST, LEAST = 2**63 - 1, -(2**63)
FACTOR = 2**31 - 1


class Value:
    def __init__(self, algorithm, value, last=None, m=1, d=1, anomalous=False, hidden=False, noreset=False):
        self.algorithm = algorithm
        self.value = value
        self.last = last  # its moment and its value
        self.m, self.d = m, d
        self.anomalous, self.hidden, self.noreset = anomalous, hidden, noreset


def absolute(value, **more):
    return Value("absolute", value, **more)


def incremental(value, last=None, **more):
    return Value("incremental", value, last, **more)


def share(value, last=None, **more):
    return Value("percentage-of-absolute-row", value, last, **more)


def share_of_rise(value, last=None, **more):
    return Value("percentage-of-incremental-row", value, last, **more)


def before(v, every, store_first, moment):
    """The value before and how many seconds lie between, or None."""
    if v.last is not None and v.last[0] < moment:
        return v.last[1], moment - v.last[0]
    return (0, every or 1) if store_first else None


def rise(v, *grid):
    """How much a value rose, and whether it carries the reset mark; None where nothing is before."""
    was = before(v, *grid)
    if was is None:
        return None
    fell = v.value < was[0]
    return (0 if fell else v.value - was[0]), fell and not v.noreset


def percent(part, whole):
    return Fraction(100 * part, whole) if whole else Fraction(0)


def words(values, *grid):
    rises = [rise(v, *grid) for v in values]
    total = sum(v.value for v in values)
    total_rise = sum(r[0] for r in rises if r is not None)
    for v, r in zip(values, rises):
        reset = False
        if v.algorithm == "absolute":
            x = Fraction(v.value * v.m, v.d or 1)
        elif v.algorithm == "percentage-of-absolute-row":
            x = percent(v.value, total)
        elif r is None:
            yield None
            continue
        elif v.algorithm == "incremental":
            x = Fraction(r[0] * v.m, (v.d or 1) * before(v, *grid)[1])
            reset = r[1]
        else:
            x = percent(r[0], total_rise)
            reset = r[1]
        yield word_and_units(x, v.anomalous, reset)[0]


# What the row shows, update_every, store_first, its moment, its values.
ROWS = [
    ("a value as it is", 1, False, 60, [absolute(42)]),
    ("values below 0", 1, False, 60, [absolute(-42), absolute(-1, m=3, d=2)]),
    ("multiplied before it is divided", 1, False, 60, [absolute(7, m=10, d=4), absolute(1, m=1, d=3)]),
    ("a factor below 0", 1, False, 60, [absolute(5, m=-3), absolute(-5, m=-3)]),
    ("a divisor below 0", 1, False, 60, [absolute(5, d=-2), absolute(-5, d=-2), absolute(5, m=-1, d=-2)]),
    ("a divisor of 0 counts as 1", 1, False, 60, [absolute(5, d=0), incremental(9, (58, 3), d=0)]),
    ("a factor of 0", 1, False, 60, [absolute(5, m=0), incremental(9, (58, 3), m=0)]),
    ("the limits of values", 1, False, 60, [absolute(MOST), absolute(LEAST), absolute(0)]),
    ("the limits of factors", 1, False, 60, [absolute(MOST, m=FACTOR), absolute(LEAST, m=FACTOR), absolute(LEAST, m=-FACTOR, d=FACTOR), absolute(1, d=FACTOR)]),
    ("ties to the even mantissa", 1, False, 60, [absolute(5, d=100_000_000), absolute(15, d=100_000_000)]),
    ("marked values", 1, False, 60, [absolute(42, anomalous=True), absolute(0, anomalous=True)]),
    ("a last value does not matter to a value as it is", 1, False, 60, [absolute(42, last=(59, 50))]),
    ("a rise in a second", 1, False, 60, [incremental(160, (59, 100))]),
    ("a rise over a gap of three seconds", 1, False, 60, [incremental(160, (57, 100))]),
    ("a rise over the grid's five seconds", 5, False, 60, [incremental(160, (55, 100))]),
    ("a rise over the longest gap", 1, False, 2**32 - 1, [incremental(MOST, (0, LEAST)), incremental(MOST, (0, LEAST), m=FACTOR), incremental(MOST, (0, LEAST), d=-FACTOR)]),
    ("the greatest rise", 1, False, 60, [incremental(MOST, (59, LEAST)), incremental(MOST, (59, LEAST), m=-FACTOR)]),
    ("the greatest fall", 1, False, 60, [incremental(LEAST, (59, MOST)), incremental(LEAST, (59, MOST), noreset=True)]),
    ("a reset", 1, False, 60, [incremental(10, (59, 160))]),
    ("a fall that is no reset", 1, False, 60, [incremental(10, (59, 160), noreset=True)]),
    ("a marked reset", 1, False, 60, [incremental(10, (59, 160), anomalous=True), incremental(10, (59, 160), anomalous=True, noreset=True)]),
    ("no rise", 1, False, 60, [incremental(160, (59, 160)), incremental(160, (59, 160), anomalous=True)]),
    ("a rise from below 0", 1, False, 60, [incremental(-10, (58, -30)), incremental(10, (58, -30))]),
    ("a rise by factors", 1, False, 60, [incremental(160, (57, 100), m=8, d=1000), incremental(160, (57, 100), m=8, d=-1000)]),
    ("a first value", 1, False, 60, [incremental(160), share_of_rise(160)]),
    ("a first value that is stored", 1, True, 60, [incremental(160)]),
    ("a first value that is stored, on a grid of five", 5, True, 60, [incremental(160)]),
    ("a first value that is stored, on a grid of 0", 0, True, 60, [incremental(160)]),
    ("a first value below 0 that is stored", 1, True, 60, [incremental(-160), incremental(-160, noreset=True)]),
    ("first values that are stored, in percent", 10, True, 60, [share_of_rise(30), share_of_rise(90)]),
    ("a last row where the first is stored", 10, True, 60, [incremental(160, (57, 100))]),
    ("a last row at the moment", 1, False, 60, [incremental(160, (60, 100)), share_of_rise(160, (60, 100))]),
    ("a last row after the moment", 1, False, 60, [incremental(160, (61, 100)), share_of_rise(160, (2**32 - 1, 100))]),
    ("a last row at the moment, where the first is stored", 5, True, 60, [incremental(160, (60, 100)), incremental(160, (61, 200))]),
    ("a last row one second before", 5, False, 60, [incremental(160, (59, 100))]),
    ("the first moment", 1, False, 1, [incremental(160, (0, 100)), incremental(160, (1, 100))]),
    ("shares of two", 1, False, 60, [share(1), share(2)]),
    ("shares of 0", 1, False, 60, [share(0), share(0)]),
    ("shares of a sum of 0", 1, False, 60, [share(5), share(-5)]),
    ("shares with a part below 0", 1, False, 60, [share(-1), share(3)]),
    ("shares of a sum below 0", 1, False, 60, [share(-1), share(-3), share(2)]),
    ("shares take no factors", 1, False, 60, [share(1, m=7, d=3), share(2, m=-5, d=0)]),
    ("a hidden value counts in the sum", 1, False, 60, [share(1), share(1), share(2, hidden=True)]),
    ("a hidden value alone", 1, False, 60, [share(9, hidden=True), absolute(9, hidden=True)]),
    ("shares of great values", 1, False, 60, [share(MOST), share(MOST), share(LEAST), share(MOST)]),
    ("shares of rises", 1, False, 60, [share_of_rise(110, (59, 100)), share_of_rise(130, (59, 100))]),
    ("shares of rises over unlike gaps", 1, False, 60, [share_of_rise(110, (59, 100)), share_of_rise(130, (50, 100))]),
    ("shares of no rise", 1, False, 60, [share_of_rise(100, (59, 100)), share_of_rise(90, (59, 100)), share_of_rise(90, (59, 100), noreset=True)]),
    ("shares of rises with a reset", 1, False, 60, [share_of_rise(10, (59, 100)), share_of_rise(130, (59, 100))]),
    ("shares of rises with a first value", 1, False, 60, [share_of_rise(1000), share_of_rise(110, (59, 100)), share_of_rise(130, (59, 100))]),
    ("shares of rises take no factors", 1, False, 60, [share_of_rise(110, (59, 100), m=7), share_of_rise(130, (59, 100), d=-3)]),
    ("the greatest rises in percent", 1, False, 60, [share_of_rise(MOST, (59, LEAST)), share_of_rise(MOST, (59, LEAST)), share_of_rise(0, (59, -1))]),
    ("a hidden rise counts in the sum", 1, False, 60, [share_of_rise(110, (59, 100)), share_of_rise(130, (59, 100), hidden=True)]),
    ("all algorithms in one row", 2, False, 60, [absolute(10, m=2, d=3), incremental(30, (56, 10)), share(20), share_of_rise(60, (58, 40), anomalous=True)]),
    ("all algorithms in one row whose first is stored", 2, True, 60, [absolute(10), incremental(30), share(20), share_of_rise(60)]),
    ("a row of no values", 1, False, 60, []),
]


def shown(value):
    if value is None:
        return "-"
    if value is True or value is False:
        return "yes" if value else "no"
    return str(value)


def main():
    assert len(ROWS) >= 40
    print("// Written by tools/row_words.py.")
    print()
    print("/// A row in each part: update_every, store_first, its moment, and what it shows; then a line for each")
    print("/// value: its algorithm, the value, anomalous, the multiplier, the divisor, hidden, noreset, the moment")
    print("/// and the value of its last row, and the word in hexadecimal digits. A `-` is none.")
    parts = []
    for title, every, store_first, moment, values in ROWS:
        lines = [f"{every} {shown(store_first)} {moment} {title}"]
        for v, word in zip(values, words(values, every, store_first, moment)):
            last = v.last or (None, None)
            lines.append(
                f"{v.algorithm} {v.value} {shown(v.anomalous)} {v.m} {v.d} {shown(v.hidden)} {shown(v.noreset)} "
                f"{shown(last[0])} {shown(last[1])} {'-' if word is None else f'{word:08x}'}"
            )
        parts.append("\n".join(lines))
    print('pub const TABLE: &str = "' + "\n\n".join(parts) + '";')


main()
