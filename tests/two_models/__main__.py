"""Compares tests/model with tests/unroll on drawn keys of both editions, points, sheets, buffers and rates, over p and over p²:
both unroll a key, count its factors, price it, and move it into the other edition, each in its own way. Of two keys of unequal
shapes tests/unroll fills the matrices with zeros and takes their values at the whole point, and tests/model multiplies those
that each key has at its own coordinates.

The points have numbers 0, 1, 2, p - 1 and any others; some have every number p - 1. Keys, points and sheets are whole or
faulty, buffers fit or are too short, rates pass or not, and each refusal must have occurred. What is compared differs in rows,
in columns, in both and crosswise, and each answer must have occurred for each of these and for each two editions. A key and a
larger one that calls it at position 0 must be the same at every point. Where two keys are different tests/model locates a cell
by comparing them at further points, and tests/unroll by halving the matrices of their differences; the cell must differ, and
each of its bits must be 0 where that shows a difference, and else 1. Of two keys that are the same both hand back the shorter,
in either order; keys of one length, and shorter first and second ones, must have occurred for each difference of shapes and for
each two editions. What is moved is moved back, and the two keys are compared. tests/unroll adds up what each record costs, and
tests/model multiplies each count by its rate; at a penny for each cell, each call or each factor alone the price is how many
there are. At points with every v zero tests/model must answer over p² what it answers over p, as u with v zero, and no whole
key and no two may have more factors than the limits of E4 and E7. The cases over p² (tests/cases/quadratic, editions, factors
and grown) are worked out too, and must agree with what is worded there. Prints one line and ends with status 0, or prints the
first fault and ends with status 1.
"""

import sys

from tests.cases.programs import cases_over_p_squared

from .drawn import hold_all
from .holding import Failed
from .locations import hold_locations
from .moves import hold_moves
from .prices import hold_prices
from .shorters import hold_shorters


def main():
    """Says how it went."""
    try:
        worded = cases_over_p_squared()
        cases, located, kept, moves, prices = hold_all(), hold_locations(), hold_shorters(), hold_moves(), hold_prices()
    except (Failed, ValueError) as failure:
        print(f"the model fails: {failure}")
        return 1
    pairs = f"{located} pairs to locate a difference in, {kept} to hand back the shorter of"
    drawn = f"{cases} cases over both fields, {pairs}, {moves} moves, {prices} prices"
    print(f"the model answers what is unrolled: {drawn}, {len(worded.inputs)} worded cases over p²")
    return 0


if __name__ == "__main__":
    sys.exit(main())
