"""The cases of what evaluate answers over p²."""

import itertools

from tests.draw.numbers import drawn_edges, drawn_point
from tests.model.dense import dense, triples
from tests.model.fields import P, QUADRATIC, TOP, with_zeros
from tests.model.keys import read
from tests.model.words import byte_words, key, times, words

from ..keys import NESTED, PATTERNS, SAMPLE, pair, single
from ..towers import drawn_levels, shapes, tower, tower_factors, tower_values
from .shared import BOTH, GREATEST, I, MINUS_I, UNIT, ZERO, point_of


def product_cases(cases):
    """The product of two elements, as the weight of a cell by one coordinate on each side or by two on one."""
    products = {
        (I, I): (P - 1, 0),
        (I, MINUS_I): UNIT,
        (I, UNIT): I,
        (I, ZERO): ZERO,
        (BOTH, BOTH): (0, 2),
        (BOTH, (1, P - 1)): (2, 0),
        (GREATEST, GREATEST): (0, 2),
        (GREATEST, I): (1, P - 1),
        ((3, 4), (5, 6)): (P - 9, 38),
        ((2**16, 2**15), (2**15, 2**16)): (0, 2**30 + 2**32 - 2 * P),
    }
    for (x, y), product in products.items():
        values, wanted = (1, 0, 2), (*product, 0, 0, *(2 * z % P for z in product))
        cases.evaluate(single((1, 1), (1, 1), values), x, y, [wanted])
        cases.evaluate(single((2, 0), (3, 0), values), (*x, *y), (), [wanted])
        cases.evaluate(single((0, 2), (0, 3), values), (), (*y, *x), [wanted])
    # 1 - r at the bit 0: of i it is 1 - i, of -1 - i it is 2 + i.
    for axis in (0, 1):
        for r, wanted in ((I, (1, P - 1)), (GREATEST, (2, 1)), (ZERO, UNIT), (UNIT, ZERO), ((P - 1, 0), (2, 0))):
            text = single(pair(axis, 1, 0), (0, 0), (0, 1, 0))
            cases.evaluate(text, *pair(axis, r, ()), [(0, 0, *wanted, 0, 0)])


def old_point_cases(cases, draw):
    """Points with every v zero: the old answers as u, with v zero."""
    texts = [(NESTED, (3, 2)), (byte_words(SAMPLE), (1, 1)), *((f"head 3 1, {each}, end", (3, 1)) for each in PATTERNS)]
    for text, bits in texts:
        _, arrays = read(key(text))
        for rows, columns in (drawn_point(draw, bits), drawn_edges(draw, bits)):
            wanted = map(with_zeros, triples(arrays, dense(arrays), rows, columns))
            cases.evaluate(text, with_zeros(rows), with_zeros(columns), list(wanted))
    cases.evaluate(byte_words(SAMPLE), (3, 0), (4, 0), [(20, 0, 28, 0, 0, 0), (2147483567, 0, 2147483535, 0, 0, 0)])


def greatest_cases(cases):
    """Numbers p - 1 in both parts, and sums of many cells and calls that are weighed by them."""
    greatest = (P - 1, P - 1, P - 1)
    for count, axis in itertools.product((1, 2, 3, 4, 5, 9, 17), (0, 1)):
        cell, bits = words("cell", (*pair(axis, 1, 0), *greatest)), words("", pair(axis, 1, 0))
        point, total = pair(axis, GREATEST, ()), (count, count) * 3
        cases.evaluate(f"head{bits}, sparse{bits}, {times(count, cell)}, end", *point, [total])
        called = f"sparse 0 0, {words('cell 0 0', greatest)}, recursive{bits}"
        calls = times(count, words("call 0", pair(axis, 1, 0)))
        cases.evaluate(f"head{bits}, {called}, {calls}, end", *point, [(P - 1, 0) * 3, total])
    for bits in ((30, 30), (29, 26), (30, 0)):
        for place in ([2**n - 1 for n in bits], (0, 0), [2**n // 3 for n in bits]):
            cases.evaluate(single(bits, place, greatest), *(GREATEST * n for n in bits))
    # A value of p - 1 in both parts that is called, and called again.
    text = f"head 2 0, sparse 1 0, {words('cell 1 0', greatest)}, recursive 1 0, call 0 0 0, recursive 2 0, call 1 1 0, end"
    cases.evaluate(text, GREATEST * 2, (), [BOTH * 3, BOTH * 3, (0, P - 2) * 3])


def weight_cases(cases, draw):
    """Every address of few bits, every bit of thirty, and arrays of several shapes."""
    point = point_of(draw, (3, 2))
    for place in itertools.product(range(8), range(4)):
        cases.evaluate(single((3, 2), place, (1, 10, 100)), *point)
    point = point_of(draw, (30, 30))
    for bit, axis in itertools.product(range(30), (0, 1)):
        cases.evaluate(single((30, 30), pair(axis, 2**bit, 0), (1, 10, P - 1)), *point)
    for _ in range(10):
        cases.evaluate(NESTED, *point_of(draw, (3, 2)))
        cases.evaluate(NESTED, *drawn_edges(draw, QUADRATIC.counts((3, 2))))
    for pattern in PATTERNS:
        cases.evaluate(f"head 3 1, {pattern}, end", *point_of(draw, (3, 1)))


def tower_cases(cases, draw):
    """Keys of many levels; the closed form is compared with the unrolled one where the levels are few."""
    values = (P - 1, 2, 3)
    for count in (0, 3, 9, 40, 120):
        levels = drawn_levels(draw, count, 3)
        point = point_of(draw, shapes(levels)[-1])
        wanted, factors = tower_values(values, levels, point, QUADRATIC), tower_factors(levels)
        sheet = [TOP] * 6 * len(wanted) + [1, 2]
        cases.evaluate(tower(values, levels), *point, wanted, sheet, count < 10, factors=factors)
