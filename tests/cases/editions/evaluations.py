"""The cases of what evaluate and cell answer where calls have factors."""

import itertools

from tests.draw.numbers import drawn_factor, drawn_place, drawn_point
from tests.model.dense import bits_of
from tests.model.fields import P, TOP
from tests.model.words import times, words

from ..keys import NESTED, PATTERNS, pair, scaled
from ..towers import drawn_levels, scaled_tower, scaled_tower_factors, shapes, tower_values

FACTORS = (0, 1, 2, 3, 2**16, 2**30, P // 2, P - 2, P - 1)
VALUES = (3, 5, P - 1)


def multiplied(values, factor):
    """Three values times a factor."""
    return tuple(factor * x % P for x in values)


def factor_cases(cases):
    """One call with a factor: the called values, times the factor and the weight of its position."""
    called = f"sparse 0 0, {words('cell 0 0', VALUES)}"
    for factor, axis in itertools.product(FACTORS, (0, 1)):
        bits = words("", pair(axis, 1, 0))
        for a in (0, 1):
            call = words("scaled_call 0", (*pair(axis, a, 0), factor))
            text = f"scaled_head{bits}, {called}, recursive{bits}, {call}, end"
            for r in (0, 1, 2, P - 1):
                weighed = multiplied(VALUES, factor * (r if a else 1 - r))
                cases.evaluate(text, *pair(axis, (r,), ()), [VALUES, weighed])
            for place in (0, 1):
                wanted = [VALUES, multiplied(VALUES, factor * (place == a))]
                cases.cell(text, *pair(axis, place, 0), wanted)


def sum_cases(cases):
    """Sums of many products of a value, a factor and a weight, each up to p - 1."""
    greatest = (P - 1, P - 1, P - 1)
    called = f"sparse 0 0, {words('cell 0 0', greatest)}"
    for count, factor, r, axis in itertools.product((1, 2, 5, 17), (P - 1, 2**30), (2, P - 1, 2**30), (0, 1)):
        bits, call = words("", pair(axis, 1, 0)), times(count, words("scaled_call 0", (*pair(axis, 1, 0), factor)))
        text = f"scaled_head{bits}, {called}, recursive{bits}, {call}, end"
        cases.evaluate(text, *pair(axis, (r,), ()), [greatest, multiplied(greatest, count * factor * r)])


def cancelled_cases(cases, draw):
    """A call and the same call with factor p - 1: zero everywhere, at every place of the sheet that is the array's."""
    called = "sparse 1 1, cell 0 1 3 5 7, cell 1 1 11 13 17"
    for factor in (1, 2, drawn_factor(draw), draw.below(P)):
        calls = f"scaled_call 0 1 0 {factor}, scaled_call 0 1 0 {-factor % P}"
        text = f"scaled_head 2 1, {called}, recursive 2 1, {calls}, end"
        for _ in range(3):
            rows, columns = point = drawn_point(draw, (2, 1))
            own = tuple((rows[0] * x + (1 - rows[0]) * y) * columns[0] % P for x, y in zip((11, 13, 17), (3, 5, 7)))
            cases.evaluate(text, *point, [own, (0, 0, 0)])
        for row, column in itertools.product(range(4), range(2)):
            cases.cell(text, row, column)
    # All but one of the calls cancel.
    calls = f"scaled_call 0 0 0 1, scaled_call 0 1 0 1, scaled_call 0 0 0 {P - 1}"
    text = f"scaled_head 2 1, {called}, recursive 2 1, {calls}, end"
    cases.cell(text, 1, 1, [(11, 13, 17), (0, 0, 0)])
    cases.cell(text, 3, 1, [(11, 13, 17), (11, 13, 17)])


def pattern_cases(cases, draw):
    """Calls that overlap, are repeated or are nested, with drawn factors."""
    for pattern in (NESTED, *(f"head 3 1, {each}, end" for each in PATTERNS if "call" in each)):
        for _ in range(3):
            text = pattern
            while "call" in text.replace("scaled_call", ""):
                text = scaled_once(text, drawn_factor(draw))
            bits = (3, 2) if pattern == NESTED else (3, 1)
            cases.evaluate(text, *drawn_point(draw, bits))
            for place in itertools.product((0, 1, 5, 6, 7), (0, 1)):
                cases.cell(text, *place)


def scaled_once(text, factor):
    """A key in words with its head, and the first of its calls of edition 1, in edition 2."""
    items = text.split(", ")
    found = next(i for i, item in enumerate(items) if "call" in item and "scaled_call" not in item)
    items[found] = scaled(items[found], factor)
    items[0] = scaled(items[0])
    return ", ".join(items)


def tower_cases(cases, draw):
    """Keys of many levels, whose factors multiply; the closed form is compared with the unrolled one where levels are few."""
    for count in (1, 3, 6, 9, 40, 120, 1023):
        levels, values = drawn_levels(draw, count, P - 1), (P - 1, 2, 3)
        text, bits = scaled_tower(values, levels), shapes(levels)[-1]
        point, place = drawn_point(draw, bits), drawn_place(draw, bits)
        sheet, name = [TOP] * 3 * (count + 1) + [1, 2], f"a tower of {count} levels with factors" if count > 120 else None
        factors = scaled_tower_factors(levels)
        cases.evaluate(text, *point, tower_values(values, levels, point), sheet, count < 10, name, factors)
        known = tower_values(values, levels, tuple(map(bits_of, place, bits)))
        cases.cell(text, *place, known, sheet, count < 10, name, factors)


def evaluation_cases(cases, draw):
    """02, E9: the called matrices are multiplied by the factor."""
    factor_cases(cases)
    sum_cases(cases)
    cancelled_cases(cases, draw)
    pattern_cases(cases, draw)
    tower_cases(cases, draw)
