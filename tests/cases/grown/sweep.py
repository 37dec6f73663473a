"""Drawn pairs of keys of unequal shapes, and all cases of them in their order."""

from tests.draw.changes import damaged, grown, in_other_edition, rewritten
from tests.draw.keys import drawn_key, encoded
from tests.draw.numbers import drawn_place, numbered, spoiled
from tests.model.fields import PRIME, QUADRATIC
from tests.model.pairs import most_bits
from tests.model.words import key_words

from ..editions.shared import InEditionTwo
from ..keys import pair
from ..quadratic.shared import Quadratics
from .comparisons import factor_cases, growth_cases, half_cases, repeated_growth_cases, shape_cases
from .counts import count_cases
from .distant import distant_cases
from .refusals import refusal_cases
from .shared import any_point, by_filling, edge_point


def compared(draw, records):
    """Keys that a drawn one is compared with, as records: the same, grown, written in another way and in the other edition; one
    that calls it anywhere; and any other.
    """
    more = 1 + draw.below(2), draw.below(3)
    larger = grown(records, more)
    placed = grown(records, more, drawn_place(draw, more), 1 + draw.below(2))
    return rewritten(draw, larger), in_other_edition(larger), placed, drawn_key(draw, 3, 1)


def sweep(cases, draw, field):
    """Drawn keys of both editions against others of unequal shapes, whole and damaged, at points that may be spoiled."""
    for i in range(10):
        records = drawn_key(draw, 3, 1)
        text, bits = key_words(encoded(records)), records[0][1]
        for j, other in enumerate(compared(draw, records)):
            keys, most = pair(i % 2, text, key_words(encoded(other))), most_bits(bits, other[0][1])
            for point in (any_point(draw, most, field), edge_point(draw, most, field)):
                cases.compare(*keys, *point, "same" if j < 2 else by_filling(*keys, point, field))
        for data in damaged(draw, other):
            point = (spoiled(draw, side) for side in any_point(draw, most, field))
            sheet = numbered(field.size * (3 + draw.below(9)))
            cases.compare(*pair(i % 2, text, key_words(data)), *point, sheet=sheet)


def cases_over(cases, draw, field):
    """All cases over a field but the sweeps of points, in both editions where keys have calls."""
    shape_cases(cases, draw, field)
    distant_cases(cases, draw, field)
    refusal_cases(cases, draw, field)
    for each in (cases, InEditionTwo(cases)):
        growth_cases(each, draw, field)
        repeated_growth_cases(each, draw, field)
    half_cases(cases, draw, field)
    factor_cases(cases, draw, field)
    sweep(cases, draw, field)


def grown_cases(cases, draw):
    """02, E7, over p."""
    cases_over(cases, draw, PRIME)
    count_cases(cases, draw)


def quadratic_grown_cases(cases, draw):
    """02, E7, over p²."""
    cases_over(Quadratics(cases), draw, QUADRATIC)
