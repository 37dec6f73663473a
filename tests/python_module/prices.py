"""The price of a key: how it is rounded, what it counts, and how great it may be."""

import itertools

from tests.cases.prices import COUNTED, FULL, ROUNDED, SINGLE, TOGETHER, alone, whole_pence
from tests.draw.keys import drawn_key, encoded
from tests.draw.numbers import Draw, drawn_place, drawn_point
from tests.model.fields import PRIME, QUADRATIC
from tests.model.words import key

from . import samples
from .subject import morgana

DRAWN = 200
MOST = morgana.MOST_RATE
SAMPLES = (
    (samples.OLD, (1, 2, 3)),
    (samples.SCALED, (1, 2, 3)),
    (samples.DOUBLED, (1, 1, 2)),
    (samples.NEW, (1, 0, 2)),
    (samples.MOST_ARRAYS, (1, 0, 0)),
    (samples.LONGEST, (3000, 0, 0)),
    (samples.MOST_CALLS, (1, 5900, 1)),
)

# Keys, and how many cells, calls and factors they have.
KEYS = *SAMPLES, *((key(text), counts) for text, counts, *_ in (*COUNTED, *FULL))


def hold_rounding(hold):
    """Half a penny goes upwards, of the whole sum alone, in which each rate has its own count."""
    for (text, which), (hundredths, pence) in itertools.product(SINGLE, ROUNDED):
        hold.equal(f"{hundredths} hundredths", pence, morgana.price(key(text), *alone(which, hundredths)))
    for rates, pence in TOGETHER:
        hold.equal(f"the price at {rates}", pence, morgana.price(samples.OLD, *rates))
    for rates in itertools.permutations((100, 10_000, 1_000_000)):
        hold.equal(f"the price at {rates}", whole_pence((1, 2, 3), rates), morgana.price(samples.OLD, *rates))


def hold_counts(hold):
    """A price is by the counts alone, up to the greatest rates, and an int."""
    for data, counts in KEYS:
        for rate in (0, 100, MOST):
            for rates in (*(alone(which, rate) for which in range(3)), [rate] * 3):
                hold.equal(f"the price at {rates}", whole_pence(counts, rates), morgana.price(data, *rates))
        hold.equal("its type", int, type(morgana.price(data, 1, 1, 1)))
    for text, _, pence in FULL:
        hold.equal("rates just below the greatest", pence, morgana.price(key(text), *[MOST - 1] * 3))
    greatest = max(morgana.price(data, MOST, MOST, MOST) for data, _ in KEYS)
    hold.equal("the greatest price", 3_633_160_000, greatest)


def drawn_keys(draw):
    """Drawn keys, and those above."""
    yield from (data for data, _ in KEYS)
    yield from (encoded(drawn_key(draw, 4, draw.below(2))) for _ in range(DRAWN))


def hold_factors(hold):
    """At a penny a factor alone a key costs as many pence as evaluate counts factors at any point over either field, and cell
    at any place; at a penny a cell or a call alone as many as check counts.
    """
    draw = Draw()
    for data in drawn_keys(draw):
        counts = morgana.check(data)
        bits = counts.rows, counts.columns
        cells, calls, factors = (morgana.price(data, *alone(which, 100)) for which in range(3))
        hold.equal("check", (counts.cells, counts.calls), (cells, calls))
        hold.equal("cell", morgana.cell(data, *drawn_place(draw, bits)).factors, factors)
        for field in (PRIME, QUADRATIC):
            evaluate = getattr(morgana, f"evaluate{field.suffix}")
            point = drawn_point(draw, field.counts(bits))
            hold.equal(evaluate.__name__, evaluate(data, *point).factors, factors)


def hold_all(hold):
    """Everything of this file."""
    hold_rounding(hold)
    hold_counts(hold)
    hold_factors(hold)
