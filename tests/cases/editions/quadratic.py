"""The cases of edition 2 over p²: what evaluate and compare answer where calls have factors."""

import itertools

from tests.draw.numbers import drawn_factor
from tests.model.fields import P, QUADRATIC, TOP
from tests.model.words import words

from ..comparisons import both_ways
from ..keys import CIRCUIT, EMPTY, keyed, pair
from ..quadratic import comparisons, evaluations
from ..quadratic.shared import BOTH, GREATEST, I, MINUS_I, UNIT, ZERO, Quadratics, point_of
from ..towers import drawn_levels, scaled_tower, scaled_tower_factors, shapes, tower, tower_factors, tower_values
from .comparisons import called, repeated
from .evaluations import FACTORS
from .shared import InEditionTwo


def factor_cases(cases):
    """One call with a factor: both numbers of the called values and of the weight are multiplied."""
    for factor, (u, v), axis in itertools.product(FACTORS, (ZERO, UNIT, I, MINUS_I, BOTH, GREATEST, (3, 4)), (0, 1)):
        bits, call = words("", pair(axis, 1, 0)), words("scaled_call 0", (*pair(axis, 1, 0), factor))
        text = f"scaled_head{bits}, sparse 0 0, cell 0 0 1 0 2, recursive{bits}, {call}, end"
        one, two = ([k * factor * part % P for part in (u, v)] for k in (1, 2))
        wanted = [(1, 0, 0, 0, 2, 0), (*one, 0, 0, *two)]
        cases.evaluate(text, *pair(axis, (u, v), ()), wanted)
    # A called value of two parts, and its factor: i times the cell's value, times 5, weighed by i.
    text = "scaled_head 2 0, sparse 1 0, cell 1 0 1 2 3, recursive 2 0, scaled_call 0 1 0 5, end"
    cases.evaluate(text, (*I, *I), (), [(0, 1, 0, 2, 0, 3), (P - 5, 0, P - 10, 0, P - 15, 0)])


def sum_cases(cases, draw):
    """Sums of many calls, and calls that cancel."""
    for count, axis in itertools.product((1, 2, 5, 17), (0, 1)):
        bits = words("", pair(axis, 1, 0))
        calls = ", ".join([words("scaled_call 0", (*pair(axis, 1, 0), P - 1))] * count)
        text = f"scaled_head{bits}, sparse 0 0, cell 0 0 {P - 1} {P - 1} {P - 1}, recursive{bits}, {calls}, end"
        # (-1)(-1)(-1 - i), so often.
        cases.evaluate(text, *pair(axis, GREATEST, ()), [(P - 1, 0) * 3, (P - count, P - count) * 3])
    for factor in (1, drawn_factor(draw), draw.below(P)):
        text = called((1, factor), (1, -factor % P))
        both_ways(cases, text, keyed(EMPTY[0]), point_of(draw, (2, 1)), "same")
        both_ways(cases, text, keyed(CIRCUIT), point_of(draw, (2, 1)), "different")


def mixed_cases(cases, draw):
    """One key of each edition, and one factor changed."""
    for count in (1, 2, 5):
        both_ways(cases, called((1, count)), repeated(count), point_of(draw, (2, 1)), "same")
        both_ways(cases, called((1, count + 1)), repeated(count), point_of(draw, (2, 1)), "different")
        both_ways(cases, called((1, P - 1), (1, count)), repeated(count - 1), point_of(draw, (2, 1)), "same")


def tower_cases(cases, draw):
    """Keys of many levels, whose factors multiply, and against those of edition 1 that call as often."""
    values = (P - 1, 2, 3)
    for count in (3, 9, 40, 120):
        levels = drawn_levels(draw, count, P - 1)
        point = point_of(draw, shapes(levels)[-1])
        wanted, factors = tower_values(values, levels, point, QUADRATIC), scaled_tower_factors(levels)
        sheet = [TOP] * 6 * len(wanted) + [1, 2]
        cases.evaluate(scaled_tower(values, levels), *point, wanted, sheet, count < 10, factors=factors)
    levels = drawn_levels(draw, 40, 3)
    point = point_of(draw, shapes(levels)[-1])
    known = [tower_values(values, levels, point, QUADRATIC)] * 2
    keys = tower(values, levels), scaled_tower(values, levels)
    factors = tower_factors(levels) + scaled_tower_factors(levels)
    cases.compare(*keys, *point, "same", [TOP] * 6 * 41 + [1, 2], known, False, factors)


def edition_cases(cases, draw):
    """02, E9, over p²; and the cases of E2 whose keys have calls, in edition 2."""
    quadratics = Quadratics(cases)
    factor_cases(quadratics)
    sum_cases(quadratics, draw)
    mixed_cases(quadratics, draw)
    tower_cases(quadratics, draw)
    second = InEditionTwo(quadratics)
    evaluations.greatest_cases(second)
    evaluations.weight_cases(second, draw)
    evaluations.tower_cases(second, draw)
    comparisons.same_cases(second, draw)
    comparisons.compared_sheets(second)
    comparisons.key_faults(second)
