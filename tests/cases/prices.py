"""The cases of the price: 02, E14. Rates are per cell, per call and per factor, in hundredths of a penny. How many cells, calls
and factors a key has is worked out beside it; the factors by E4's sentence: k + k' for a cell, (k - K) + (k' - K') for a call.
"""

import itertools

from tests.draw.changes import damaged
from tests.draw.keys import drawn_key, encoded
from tests.draw.numbers import drawn_rates
from tests.model.fields import P, TOP
from tests.model.words import key_words, refused

from .editions.shared import InEditionTwo
from .factors import MOST, MOST_FACTORS, NESTED_FACTORS, counted_keys
from .keys import ACROSS, FAULTY, NESTED, NONE, ONE, SAMPLE

LIMIT = 1_000_000
TOO_GREAT = LIMIT + 1, 2**20, P, 2**31, TOP

# A key with one call, without factors, and one whose call has one factor.
CALL = "head 0 0, sparse 0 0, recursive 0 0, call 0 0 0, end"
WIDER = "head 0 1, sparse 0 0, recursive 0 1, call 0 0 1, end"

# Keys with one cell, one call or one factor, and which of the three rates is the one for it.
SINGLE = (NONE, 0), (CALL, 1), (ONE, 2), (ACROSS, 2), (WIDER, 2)

# Hundredths of a penny, and pence.
ROUNDED = (
    *((0, 0), (1, 0), (49, 0), (50, 1), (51, 1), (99, 1), (100, 1), (101, 1), (149, 1), (150, 2), (151, 2)),
    *((249, 2), (250, 3), (251, 3), (999_949, 9999), (999_950, 10_000), (999_999, 10_000), (LIMIT, 10_000)),
)

# Rates for a key with one cell, two calls and three factors, and pence: of the whole sum, and not of its terms.
TOGETHER = (
    ((150, 75, 3), 3),
    ((46, 0, 1), 0),
    ((47, 0, 1), 1),
    ((48, 0, 1), 1),
    ((30, 15, 10), 1),
    ((16, 8, 5), 0),
    ((16, 8, 6), 1),
    ((50, 25, 0), 1),
    ((50, 25, 50), 3),
    ((51, 26, 17), 2),
    ((99, 99, 99), 6),
)

# The beginning of keys of edition 2: a cell with one factor, and an array whose calls have two each.
SCALED = "scaled_head 2 1, sparse 1 0, cell 1 0 1 2 3, recursive 2 1"

# Keys with their cells, calls and factors: the sample's, arrays without entries, arrays that nobody calls, and calls of arrays
# of the caller's own shape; in edition 2 the factors of calls are none of these.
COUNTED = (
    (key_words(SAMPLE), (1, 2, 1 + 2 * 1)),
    ("head 0 0, sparse 0 0, end", (0, 0, 0)),
    ("head 2 1, sparse 1 0, recursive 0 1, recursive 2 1, end", (0, 0, 0)),
    ("head 2 1, sparse 1 0, 2 times cell 1 0 1 2 3, sparse 2 1, end", (2, 0, 2 * 1)),
    ("head 2 2, sparse 1 0, 2 times cell 1 0 1 2 3, recursive 1 2, 3 times call 0 0 1, sparse 2 2, end", (2, 3, 2 + 3 * 2)),
    ("head 3 2, sparse 3 2, cell 7 3 1 2 3, recursive 3 2, 4 times call 0 0 0, end", (1, 4, 5 + 4 * 0)),
    (NESTED, (3, 9, NESTED_FACTORS)),
    ("head 1 1, 1023 times sparse 0 0, sparse 1 1, cell 1 1 1 2 3, end", (1, 0, 2)),
    *((f"{SCALED}, 3 times scaled_call 0 1 1 {factor}, end", (1, 3, 1 + 3 * 2)) for factor in (0, 1, 2, P - 1)),
)

# The same of keys with as many cells, as many calls and as many calls of edition 2 as a key has room for, each with sixty
# factors; and the pence where each of all these costs 9,999.99.
MOST_SCALED = "scaled_head 30 30, sparse 0 0, recursive 30 30, 4368 times scaled_call 0 5 7 2, end"
FULL = (
    ("head 30 30, sparse 30 30, 3120 times cell 5 7 1 2 3, end", (3120, 0, 3120 * 60), 1_903_198_097),
    (MOST, (0, 5956, MOST_FACTORS), 3_633_156_367),
    (MOST_SCALED, (0, 4368, 4368 * 60), 2_664_477_336),
)


def alone(which, rate):
    """The rates of which this is one and the others are 0."""
    return [rate if i == which else 0 for i in range(3)]


def whole_pence(counts, rates):
    """What so many cells, calls and factors cost in pence, where each rate is a number of whole pence."""
    return sum(count * (rate // 100) for count, rate in zip(counts, rates, strict=True))


def rounding_cases(cases):
    """Totals about half a penny, by one rate and by all; and each rate times its own count."""
    for (text, which), (hundredths, pence) in itertools.product(SINGLE, ROUNDED):
        cases.price(text, alone(which, hundredths), pence)
    text, counts = COUNTED[0]
    for rates, pence in TOGETHER:
        cases.price(text, rates, pence)
    for rates in itertools.permutations((100, 10_000, 1_000_000)):
        cases.price(text, rates, whole_pence(counts, rates))


def count_cases(cases):
    """As many pence as there are cells, calls or factors, at a penny for each of these alone; and the greatest rates."""
    for (text, counts), which in itertools.product(COUNTED, range(3)):
        cases.price(text, alone(which, 100), counts[which])
    for text, _, factors in counted_keys():
        cases.price(text, alone(2, 100), factors)
    for text, counts, *_ in (*COUNTED, *FULL):
        cases.price(text, [LIMIT] * 3, whole_pence(counts, [LIMIT] * 3))
    for text, _, pence in FULL:
        cases.price(text, [LIMIT - 1] * 3, pence)


def rate_cases(cases):
    """Rates of 1,000,000 and over, of which the first counts, also where a key has nothing that they are for."""
    for text, counts in COUNTED[:2]:
        for rates in itertools.product((0, LIMIT, LIMIT + 1), repeat=3):
            over = [i for i, rate in enumerate(rates) if rate > LIMIT]
            cases.price(text, rates, refused(62, over[0]) if over else whole_pence(counts, rates))
        for which, rate in itertools.product(range(3), TOO_GREAT):
            cases.price(text, alone(which, rate), refused(62, which))


def key_cases(cases):
    """A key at fault is refused for that, whatever the rates are."""
    for number, (text, place) in FAULTY.items():
        for rates in ([0] * 3, [LIMIT] * 3, [LIMIT + 1] * 3, alone(0, TOP), alone(2, LIMIT + 1)):
            cases.price(text, rates, refused(number, place))


def sweep(cases, draw):
    """Drawn keys of both editions, whole and damaged, at drawn rates."""
    for _ in range(40):
        records = drawn_key(draw, 4, draw.below(2))
        for data in (encoded(records), *damaged(draw, records)):
            cases.price(key_words(data), drawn_rates(draw))


def price_cases(cases, draw):
    """02, E14, in both editions."""
    for each in (cases, InEditionTwo(cases)):
        rounding_cases(each)
        count_cases(each)
        rate_cases(each)
        key_cases(each)
    sweep(cases, draw)
