"""Tests the Python module against tests/model on drawn keys, points, sheets and rates over both fields, at its
own edges, and to the header, the refusals of the Rust package and those of crates/refusal, whose
numbers and words it repeats.

The library is the one that MORGANA_LIBRARY names, else target/lib/libmorgana.so. Prints one
line and ends with status 0, or prints the first fault and ends with status 1.
"""

import sys

from . import agreement, answers, chances, drawn, drawn_shorters, example, factors, keys, loading
from . import location_refusals, locations, moves, points, prices, rates, shapes, sheets
from . import shorter_sheets, shorters, threads, towers
from .holding import Failed, Hold

PARTS = (
    agreement, answers, keys, points, sheets, moves, shapes, locations, towers, location_refusals,
    shorters, shorter_sheets, drawn_shorters, factors, prices, rates, chances, threads, loading, example,
)


def main():
    """Says how it went."""
    hold = Hold()
    try:
        cases = drawn.hold_all()
        for part in PARTS:
            part.hold_all(hold)
    except Failed as failure:
        print(f"the Python module fails: {failure}")
        return 1
    held = f"{cases} drawn cases over both fields, {hold.count} answers and facts at its edges"
    print(f"the Python module answers what the model answers: {held}")
    return 0


if __name__ == "__main__":
    sys.exit(main())
