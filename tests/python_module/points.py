"""The edges of coordinates, rows and columns: their types, huge and negative ones, and how many
there are.
"""

import decimal
import fractions

from . import forms, samples
from .subject import morgana

P = morgana.P
AT_3_4 = morgana.Values(a=2147483567, b=2147483535, c=0, factors=3)
NO_INTEGERS = (3.0, 3.5, "3", b"3", None, [3], decimal.Decimal(3), fractions.Fraction(3), 3j)
NEGATIVE = (-1, -P, -(2**32), -(2**64), -(10**5000), forms.Whole(-1))
# Their lowest 32 bits are all below p.
HUGE = (2**32, 2**32 + 1, 2**33 + 3, 2**64, 2**64 + 3, 10**5000 << 64)
OVER_P = (P, P + 1, 2**31 + 1, 2**32 - 1, *HUGE, forms.Whole(2**40))


def hold_forms(hold):
    """Coordinates may come in any iterable and as integers of any type."""
    for form in (*forms.POINTS, bytes, set, dict.fromkeys, forms.viewed):
        got = morgana.evaluate(samples.OLD, form([3]), form([4]))
        hold.equal(f"evaluate at {form}", AT_3_4, got)
    hold.equal("ranges", AT_3_4, morgana.evaluate(samples.OLD, range(3, 4), range(4, 5)))
    bools = morgana.evaluate(samples.OLD, [False], [True])
    hold.equal("bools", morgana.evaluate(samples.OLD, [0], [1]), bools)
    hold.equal("bools as row and column", bools, morgana.cell(samples.OLD, False, True))
    hold.equal("row and column", bools, morgana.cell(samples.OLD, forms.Whole(0), forms.Whole(1)))


def hold_types(hold):
    """What is no integer, or no iterable of them, raises TypeError."""
    for thing in NO_INTEGERS:
        for rows, columns in (([thing], [4]), ([3], [thing])):
            about = f"evaluate at {rows} {columns}"
            hold.raises(about, TypeError, morgana.evaluate, samples.OLD, rows, columns)
        hold.raises(f"row {thing!r}", TypeError, morgana.cell, samples.OLD, thing, 0)
        hold.raises(f"column {thing!r}", TypeError, morgana.cell, samples.OLD, 0, thing)
    for side in (None, 3, 3.5, "3", object()):
        hold.raises(f"rows {side!r}", TypeError, morgana.evaluate, samples.OLD, side, [4])
        hold.raises(f"columns {side!r}", TypeError, morgana.evaluate, samples.OLD, [3], side)
    rows = (1 // x for x in [0])
    hold.raises("failing rows", ZeroDivisionError, morgana.evaluate, samples.OLD, rows, [4])


def hold_negative(hold):
    """A negative number raises ValueError, wherever it stands."""
    for number in NEGATIVE:
        for point in (([number], [4]), ([3], [number]), ([3, number], [4]), ([P], [number])):
            for call in (morgana.evaluate, morgana.evaluate_quadratic):
                hold.raises("a negative number", ValueError, call, samples.OLD, *point)
            for call in (morgana.compare, morgana.locate, morgana.shorter, morgana.compare_quadratic):
                hold.raises("a negative number", ValueError, call, samples.OLD, samples.NEW, *point)
        hold.raises("a negative row", ValueError, morgana.cell, samples.OLD, number, 0)
        hold.raises("a negative column", ValueError, morgana.cell, samples.OLD, 0, number)


def hold_huge(hold):
    """A number of p or more is refused at its index, however great it is."""
    pair = samples.OLD, samples.NEW
    for number in OVER_P:
        for index, point in enumerate((([number], [4]), ([3], [number]))):
            hold.refused("evaluate", 23, index, morgana.evaluate, samples.OLD, *point)
            hold.refused("compare", 23, index, morgana.compare, *pair, *point)
            hold.refused("locate", 23, index, morgana.locate, *pair, *point)
        for index in range(4):
            numbers = [*samples.PARTS[0], *samples.PARTS[1]]
            numbers[index] = number
            point = numbers[:2], numbers[2:]
            hold.refused("evaluate", 23, index, morgana.evaluate_quadratic, samples.OLD, *point)
            hold.refused("compare", 23, index, morgana.compare_quadratic, *pair, *point)
    for number in (2, 3, P - 1, *OVER_P):
        hold.refused("row", 24, 0, morgana.cell, samples.OLD, number, 0)
        hold.refused("row before column", 24, 0, morgana.cell, samples.OLD, number, number)
        hold.refused("column", 24, 1, morgana.cell, samples.OLD, 0, number)


def hold_counts(hold):
    """Counts of numbers, and the greatest matrices."""
    for count in (0, 2, 61, 100_000):
        hold.refused("rows", 21, count, morgana.evaluate, samples.OLD, [P] * count, [P] * count)
        hold.refused("columns", 22, count, morgana.evaluate, samples.OLD, [P], [P] * count)
    hold.refused("one number of two", 21, 1, morgana.evaluate_quadratic, samples.OLD, [3], [4])
    last = 2**30 - 1
    corner = morgana.Values(a=1, b=2, c=3, factors=60)
    hold.equal("the last cell", corner, morgana.cell(samples.GREATEST, last, last))
    hold.equal("its point", corner, morgana.evaluate(samples.GREATEST, [1] * 30, [1] * 30))
    hold.refused("the row behind it", 24, 0, morgana.cell, samples.GREATEST, last + 1, last)
    hold.refused("the column behind it", 24, 1, morgana.cell, samples.GREATEST, last, last + 1)
    zeros = morgana.Values(a=0, b=0, c=0, factors=0)
    hold.equal("no coordinates", zeros, morgana.evaluate(samples.SHORTEST, [], []))


def hold_all(hold):
    """Every edge of this file."""
    hold_forms(hold)
    hold_types(hold)
    hold_negative(hold)
    hold_huge(hold)
    hold_counts(hold)
