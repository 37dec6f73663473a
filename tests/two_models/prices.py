"""Drawn keys, priced by both models at drawn rates."""

import collections
import itertools

from tests.cases.prices import alone
from tests.draw.changes import damaged
from tests.draw.keys import drawn_key, encoded
from tests.draw.numbers import Draw, drawn_rates
from tests.model.price import price, priced
from tests.model.words import refused
from tests.unroll.factors import factors
from tests.unroll.keys import HEADS, Refused, check
from tests.unroll.price import RATE_LIMIT, costs, price_of

from .holding import hold, hold_outcomes
from .moves import long_keys

KEYS = 250
RATES = 4

# What must occur, with the least number of times: for each edition what becomes of the hundredths of a penny, of which 50 are
# half a penny; the refusals of a key, where all rates pass and where some do not; and the rate that 62 names, with how many do
# not pass.
ROUNDED = "none", "down", "half", "up"
ANSWERED = {*itertools.product(HEADS, ROUNDED)}
KEY_FAULTS = {*itertools.product(range(1, 14), (False, True))}
RATE_FAULTS = {(62, place, count) for place in range(3) for count in range(1, 4 - place)}
OUTCOMES = (ANSWERED, 10), (KEY_FAULTS, 1), (RATE_FAULTS, 10)


def rounded(key, rates):
    """What becomes of the hundredths of a penny that a key costs beside whole pence."""
    rest = sum(costs(key, *rates)) % 100
    return ROUNDED[(rest > 0) + (rest >= 50) + (rest > 50)]


def unrolled_price(data, rates):
    """What tests/unroll answers, as tests/model words it, and the kind of outcome."""
    over = sum(rate > RATE_LIMIT for rate in rates)
    try:
        pence = price_of(data, *rates)
    except Refused as refusal:
        number, place = refusal.number, refusal.place
        return refused(number, place), (62, place, over) if number == 62 else (number, over > 0)
    key = check(data)
    return priced(pence), (key.head, rounded(key, rates))


def hold_price(draw, data, counts):
    """Prices a key by both models at drawn rates."""
    for _ in range(RATES):
        rates = drawn_rates(draw)
        wanted, kind = unrolled_price(data, rates)
        hold("price", price(data, rates), wanted, f"{data[:200].hex()} at {rates}")
        counts[kind] += 1


def hold_pennies(data):
    """Raises Failed where a penny for each cell, for each call or for each factor alone is not as many pence as there are."""
    key = check(data)
    cells = sum(len(array.cells) for array in key.arrays)
    calls = sum(len(array.calls) for array in key.arrays)
    for which, count in enumerate((cells, calls, factors(key))):
        rates = alone(which, 100)
        for answer in (price(data, rates), priced(price_of(data, *rates))):
            hold("a penny each", answer, priced(count), f"{data.hex()} at {rates}")


def hold_prices():
    """Holds all prices, and returns how many there were."""
    draw, counts = Draw(), collections.Counter()
    for _ in range(KEYS):
        records = drawn_key(draw, 4, draw.below(2))
        whole = encoded(records)
        hold_pennies(whole)
        for data in (whole, *damaged(draw, records)):
            hold_price(draw, data, counts)
    for data in long_keys(draw):
        hold_price(draw, data, counts)
    for outcomes, least in OUTCOMES:
        hold_outcomes("price", outcomes, counts, least)
    return counts.total()
