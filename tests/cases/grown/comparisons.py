"""The cases of what compare answers of unequal shapes: every two small ones, and keys that have grown."""

import itertools

from tests.model.fields import P
from tests.model.pairs import most_bits

from ..comparisons import both_ways
from ..keys import CIRCUIT, NESTED, NONE, ONE, enlarged, grown_bits, keyed, last_place, of_cells, pair, places, scaled
from ..products import HALF
from .shared import any_point, by_filling, edge_point, with_coordinate

# Keys that grow, with their bits.
GROWING = (
    (NONE, (0, 0)),
    (ONE, (1, 0)),
    (keyed(CIRCUIT), (2, 1)),
    (NESTED, (3, 2)),
)


def numbered_cells(bits):
    """A cell at each place of a matrix of these bits, each with values of its own."""
    return [(place, (i + 1, 20 - i, P - 1 - i)) for i, place in enumerate(places(bits))]


def shape_cases(cases, draw, field):
    """Every two shapes of at most two bits on a side: the same cells in both, one more in the last place of the first, and
    matrices that are full.
    """
    for one, other in itertools.product(itertools.product(range(3), repeat=2), repeat=2):
        bits, cells = most_bits(one, other), numbered_cells(map(min, one, other))
        first, second = (of_cells(each, cells) for each in (one, other))
        cases.compare(first, second, *any_point(draw, bits, field), "same")
        more = of_cells(one, [*cells, (last_place(one), (1, 0, 2))])
        cases.compare(more, second, *any_point(draw, bits, field), "different")
        full = [of_cells(each, numbered_cells(each)) for each in (one, other)]
        for keys in ((more, second), full):
            point = edge_point(draw, bits, field)
            cases.compare(*keys, *point, by_filling(*keys, point, field))


def growth_cases(cases, draw, field):
    """A key against its own growth, in rows, in columns and in both: the same at every point where it is called at position 0,
    and different at any other position.
    """
    for (text, bits), more in itertools.product(GROWING, ((1, 0), (0, 1), (1, 1), (2, 3))):
        larger, total = enlarged(text, more), grown_bits(bits, more)
        both_ways(cases, text, larger, any_point(draw, total, field), "same")
        cases.compare(text, larger, *edge_point(draw, total, field), "same")
        for i, position in enumerate(itertools.product(*(range(min(n, 1) + 1) for n in more))):
            if any(position):
                keys = pair(i % 2, text, enlarged(text, more, position))
                cases.compare(*keys, *any_point(draw, total, field), "different")


def repeated_growth_cases(cases, draw, field):
    """Keys that have grown twice, and each in its own direction: the same, unless a call is at another position than 0."""
    for text, bits in GROWING:
        rows, columns = enlarged(text, (1, 0)), enlarged(text, (0, 2))
        both = enlarged(rows, (1, 1))
        point = any_point(draw, grown_bits(bits, (2, 2)), field)
        for one, other, more in ((text, both, (2, 1)), (rows, both, (2, 1)), (rows, columns, (1, 2)), (both, columns, (2, 2))):
            total = field.counts(grown_bits(bits, more))
            both_ways(cases, one, other, [side[:count] for side, count in zip(point, total)], "same")
        beside = enlarged(text, (1, 0), (1, 0))
        for one, other, wanted in ((text, beside, "different"), (rows, beside, "different"), (beside, beside, "same")):
            point = any_point(draw, grown_bits(bits, (2, 1)), field)
            cases.compare(one, enlarged(other, (1, 1)), *point, wanted)


def half_cases(cases, draw, field):
    """A key called at position 0 and at position 1, weighed by 1 - r and by r: the same exactly where r is 1/2."""
    for (text, bits), axis in itertools.product(GROWING, (0, 1)):
        more = pair(axis, 1, 0)
        beside, total = enlarged(text, more, more), grown_bits(bits, more)
        for i, r in enumerate((HALF, 0, 1, HALF + 1, draw.below(P))):
            point = list(any_point(draw, total, field))
            point[axis] = with_coordinate(point[axis], bits[axis], r, field)
            cases.compare(*pair(i % 2, text, beside), *point, "same" if r == HALF else "different")


def factor_cases(cases, draw, field):
    """A key of either edition against its growth by a call with a factor: the same where that is 1, and where an unused
    coordinate is 1; and by two calls, the same where their factors add up to 1.
    """
    text, bits = keyed(CIRCUIT), (2, 1)
    for i, factor in enumerate((0, 1, 2, P - 1)):
        larger = enlarged(scaled(text), (1, 1), factor=factor)
        point = any_point(draw, (3, 2), field)
        for each in (text, scaled(text)):
            cases.compare(*pair(i % 2, each, larger), *point, "same" if factor == 1 else "different")
        for axis in (0, 1):
            ones = with_coordinate(point[axis], bits[axis], 1, field)
            cases.compare(*pair(axis, text, larger), *pair(axis, ones, point[1 - axis]), "same")
        twice = larger.replace(", end", f", scaled_call 0 0 0 {(1 - factor) % P}, end")
        cases.compare(*pair(i % 2, twice, text), *any_point(draw, (3, 2), field), "same")
