"""The cases of what evaluate and cell answer: 01, 'Weights', 'Dense form and evaluation' and 'Single cells'."""

import itertools

from tests.draw.changes import damaged
from tests.draw.keys import DRAWN_CALLS, drawn_call, drawn_cell, drawn_key, drawn_scaled_call, encoded
from tests.draw.numbers import drawn_edges, drawn_place, drawn_point
from tests.model.dense import bits_of
from tests.model.fields import P, TOP
from tests.model.keys import larger
from tests.model.words import byte_words, key_words, times, words

from .keys import NESTED, PATTERNS, SAMPLE, pair, single
from .towers import drawn_levels, shapes, tower, tower_factors, tower_values


def starred_cases(cases):
    """01, 'Edges and starred cases', as evaluate and cell show them, on rows and on columns."""
    for axis in (0, 1):
        for number, point, wanted in ((0, (), 1), (1, (3,), 3), (0, (3,), P - 2), (2, (3, 4), 2147483639)):
            for values in ((1, 0, 0), (0, 1, 0), (0, 0, 1)):
                text = single(pair(axis, len(point), 0), pair(axis, number, 0), values)
                cases.evaluate(text, *pair(axis, point, ()), [tuple(x * wanted for x in values)])
        one, two = words("", pair(axis, 1, 0)), words("", pair(axis, 2, 0))
        five = f"head{one}, sparse{one}, 5 times cell 0 0 {P - 1} 0 0, end"
        cases.evaluate(five, *pair(axis, (2,), ()), [(5, 0, 0)])
        called = f"head{two}, sparse{one}, cell 0 0 9 0 0, recursive{two}, call 0{one}, end"
        cases.evaluate(called, *pair(axis, (3, 4), ()), [(P - 18, 0, 0), (2147483575, 0, 0)])
    repeated = f"head 0 0, sparse 0 0, cell 0 0 {P - 1} 0 0, cell 0 0 2 0 0, end"
    cases.cell(repeated, 0, 0, [(1, 0, 0)])
    cases.evaluate(repeated, (), (), [(1, 0, 0)])
    cells = f"sparse 0 0, cell 0 0 0 0 1, sparse 0 0, cell 0 0 0 0 {P - 1}"
    cases.evaluate(f"head 0 0, {cells}, cell 0 0 0 0 1, end", (), (), [(0, 0, 1), (0, 0, 0)])
    calls = "recursive 0 0, call 0 0 0, call 1 0 0"
    cases.evaluate(f"head 0 0, {cells}, {calls}, end", (), (), [(0, 0, 1), (0, 0, P - 1), (0, 0, 0)])
    cases.evaluate("head 2 1, recursive 2 1, end", (3, 4), (5,), [(0, 0, 0)])
    cases.cell("head 2 1, recursive 2 1, end", 3, 1, [(0, 0, 0)])
    cases.evaluate(byte_words(SAMPLE), (3,), (4,), [(20, 28, 0), (2147483567, 2147483535, 0)])
    cases.evaluate(single((1, 0), (1, 0), (P - 1, 0, 0)), (P - 1,), (), [(1, 0, 0)])


def weight_cases(cases, draw):
    """01, 'Weights': every address of few bits, and every bit of thirty."""
    point = drawn_point(draw, (3, 2))
    for place in itertools.product(range(8), range(4)):
        cases.evaluate(single((3, 2), place, (1, 10, 100)), *point)
    point = drawn_point(draw, (30, 30))
    for bit, axis in itertools.product(range(30), (0, 1)):
        cases.evaluate(single((30, 30), pair(axis, 2**bit, 0), (1, 10, P - 1)), *point)
    for number in (0, 2**30 - 1):
        text = single((30, 30), (number, number), (1, 10, P - 1))
        cases.evaluate(text, *point)
        cases.cell(text, number, number, [(1, 10, P - 1)])


def sum_cases(cases):
    """Sums of many products: cells at one place, and calls at one position, with values and weights up to p - 1."""
    greatest = (P - 1, P - 1, P - 1)
    cell = words("cell 0 0", greatest)
    for count, r, axis in itertools.product((1, 2, 4, 5, 9, 17), (0, 1, 2, P - 1, 2**30), (0, 1)):
        total = (-count * (1 - r) % P,) * 3
        bits, point = words("", pair(axis, 1, 0)), pair(axis, (r,), ())
        cases.evaluate(f"head{bits}, sparse{bits}, {times(count, cell)}, end", *point, [total])
        called = f"head{bits}, sparse 0 0, {cell}, recursive{bits}, {times(count, 'call 0 0 0')}, end"
        cases.evaluate(called, *point, [greatest, total])


def shape_cases(cases, draw):
    """Arrays of every small shape, full of cells or of calls, at a point and at each place."""
    for bits in itertools.product(range(3), repeat=2):
        head, places = words("head", bits), list(itertools.product(range(2 ** bits[0]), range(2 ** bits[1])))
        cells = ", ".join(words("cell", (*place, i + 1, 20 - i, P - 1 - i)) for i, place in enumerate(places))
        calls = ", ".join(times(i % 3 + 1, words("call 0", place)) for i, place in enumerate(places))
        for arrays in (
            f"{words('sparse', bits)}, {cells}",
            f"sparse 0 0, cell 0 0 3 5 7, {words('recursive', bits)}, {calls}",
        ):
            cases.evaluate(f"{head}, {arrays}, end", *drawn_point(draw, bits))
            for place in places:
                cases.cell(f"{head}, {arrays}, end", *place)


def point_cases(cases, draw):
    """Drawn points and edges, and each cell together with the point of its bits."""
    for row, column in itertools.product(range(8), range(4)):
        cases.cell(NESTED, row, column)
        cases.evaluate(NESTED, bits_of(row, 3), bits_of(column, 2))
    for _ in range(20):
        cases.evaluate(NESTED, *drawn_point(draw, (3, 2)))
        cases.evaluate(NESTED, *drawn_edges(draw, (3, 2)))
    for row, column in itertools.product((0, 1, 2, P - 1), repeat=2):
        cases.evaluate(byte_words(SAMPLE), (row,), (column,))


def pattern_cases(cases, draw):
    """Cells and calls that overlap or are repeated, and arrays that are empty or not called."""
    for pattern in PATTERNS:
        text = f"head 3 1, {pattern}, end"
        cases.evaluate(text, *drawn_point(draw, (3, 1)))
        for place in itertools.product((0, 1, 5, 6, 7), (0, 1)):
            cases.cell(text, *place)


def position_cases(cases, draw):
    """Calls at every position, of arrays of every small shape, in an array that is itself called at its greatest."""
    sides = [(K, k, a) for k in range(3) for K in range(k + 1) for a in range(2 ** (k - K))]
    for down, right in itertools.product(sides, repeat=2):
        called, calling, position = zip(down, right)
        cells = f"cell 0 0 1 2 3, {words('cell', (2**K - 1 for K in called))} 4 5 6"
        arrays = f"{words('sparse', called)}, {cells}, {words('recursive', calling)}, {words('call 0', position)}"
        last = f"recursive 3 3, {words('call 1', (2 ** (3 - k) - 1 for k in calling))}"
        cases.evaluate(f"head 3 3, {arrays}, {last}, end", *drawn_point(draw, (3, 3)))
    for K, axis in itertools.product((0, 1, 15, 29, 30), (0, 1)):
        cell = f"{words('cell', pair(axis, 2**K - 1, 0))} 1 2 3"
        call = words("call 0", pair(axis, 2 ** (30 - K) - 1, 5))
        text = f"head 30 30, {words('sparse', pair(axis, K, 0))}, {cell}, recursive 30 30, {call}, end"
        cases.evaluate(text, *drawn_point(draw, (30, 30)))
        cases.cell(text, *pair(axis, 2**30 - 1, 5))


def called_cases(cases):
    """The array that a call names, of some hundred."""
    values = [(i + 1, 2 * i + 1, P - 1 - i) for i in range(301)]
    arrays = ", ".join(f"sparse 0 0, {words('cell 0 0', triple)}" for triple in values)
    for called in (0, 1, 44, 255, 256, 257, 300):
        text = f"head 0 0, {arrays}, recursive 0 0, call {called} 0 0, end"
        name = f"301 arrays of one cell each and a call of {called}"
        cases.evaluate(text, (), (), [*values, values[called]], [TOP] * 906 + [1, 2], name=name)


def tower_case(cases, draw, levels, unroll, name=None):
    """A tower at a point and at a place, against its closed form."""
    values, bits = (P - 1, 2, 3), shapes(levels)[-1]
    text, point, place = tower(values, levels), drawn_point(draw, bits), drawn_place(draw, bits)
    place_point = tuple(map(bits_of, place, bits))
    sheet, factors = [TOP] * 3 * (len(levels) + 1) + [1, 2], tower_factors(levels)
    cases.evaluate(text, *point, tower_values(values, levels, point), sheet, unroll, name, factors)
    cases.cell(text, *place, tower_values(values, levels, place_point), sheet, unroll, name, factors)


def tower_cases(cases, draw):
    """Keys of many levels; the closed form is compared with the unrolled one where the levels are few."""
    for count in (0, 1, 3, 6, 9, 12):
        tower_case(cases, draw, drawn_levels(draw, count, 3), True)
    for count in (40, 60, 90, 120):
        tower_case(cases, draw, drawn_levels(draw, count, 3), False)
    tower_case(cases, draw, drawn_levels(draw, 1023, 2), False, "a tower of 1023 levels")
    tower_case(cases, draw, [(None, [2])] * 1023, True, "1024 arrays, each of which calls the one before twice")


def fibonacci_case(cases, draw):
    """1,024 arrays of one shape, each of which calls the two before it: their values go up by Fibonacci's numbers, and none but
    the two coordinates of the one cell count as factors.
    """
    arrays = ", ".join(f"recursive 1 1, call {i - 2} 0 0, call {i - 1} 0 0" for i in range(2, 1024))
    text = f"head 1 1, 2 times sparse 1 1, cell 1 0 1 2 {P - 1}, {arrays}, end"
    (row,), (column,) = point = drawn_point(draw, (1, 1))
    numbers = [0, 1]
    while len(numbers) < 1024:
        numbers.append(numbers[-2] + numbers[-1])
    wanted = [tuple(x * row * (1 - column) * value % P for value in (1, 2, P - 1)) for x in numbers]
    name = "1024 arrays, each of which calls the two before it"
    cases.evaluate(text, *point, wanted, [TOP] * 3072 + [1, 2], name=name, factors=2)


def longest_keys(draw):
    """Keys of 65,536 bytes of few arrays in words: one of cells alone, one of cells and calls, and one of edition 2."""
    cells = ", ".join(f"52 times {words(*drawn_cell(draw, (30, 30)))}" for _ in range(60))
    yield f"head 30 30, 4 times sparse 30 30, {cells}, end"
    cells = ", ".join(f"101 times {words(*drawn_cell(draw, (14, 15)))}" for _ in range(20))
    inner = ", ".join(f"100 times {words(*drawn_call(draw, (20, 21), 1, (14, 15)))}" for _ in range(10))
    outer = ", ".join(f"100 times {words(*drawn_call(draw, (30, 30), 2, (20, 21)))}" for _ in range(11))
    yield f"head 30 30, sparse 0 0, sparse 14 15, {cells}, recursive 20 21, {inner}, recursive 30 30, {outer}, end"
    inner = ", ".join(f"70 times {words(*drawn_scaled_call(draw, (20, 21), 1, (14, 15)))}" for _ in range(10))
    outer = ", ".join(f"84 times {words(*drawn_scaled_call(draw, (30, 30), 2, (20, 21)))}" for _ in range(10))
    yield f"scaled_head 30 30, sparse 0 0, sparse 14 15, {cells}, recursive 20 21, {inner}, recursive 30 30, {outer}, end"


# The factors of each: those of cells of 60 bits, or of 29, and those of calls.
LONGEST_FACTORS = (3120 * 60, 2020 * 29 + 1000 * (6 + 6) + 1100 * (10 + 9), 2020 * 29 + 700 * (6 + 6) + 840 * (10 + 9))

# How many arrays of the key below have one cell, which is the first with fewer calls, and how many the ones before have.
WIDEST = {"head": (9, 595, 6), "scaled_head": (10, 104, 5)}


def widest_key(draw, name):
    """The records of a key of 65,536 bytes and 1,024 arrays with a head of this name: the first of one cell, and the rest of
    several calls, the later of one call fewer.
    """
    sparse, fewer, most = WIDEST[name]
    bits = [(0, 0), *(tuple(draw.below(n + 1) for n in (2, 1)) for _ in range(1022)), (2, 1)]
    records = [(name, (2, 1))]
    for i, own in enumerate(bits):
        records.append(("sparse" if i < sparse else "recursive", own))
        for _ in range(1 if i < sparse else most - (i >= fewer)):
            called = draw.below(max(i, 1))
            called = 0 if larger(bits[called], own) else called
            call = DRAWN_CALLS[name](draw, own, called, bits[called])
            records.append(drawn_cell(draw, own) if i < sparse else call)
    return [*records, ("end", ())]


def widest_case(cases, draw, name):
    """A key of 65,536 bytes and 1,024 arrays with a head of this name."""
    data = encoded(widest_key(draw, name))
    if len(data) != 65536:
        raise ValueError(f"a key of {len(data)} bytes")
    text, sheet = f"a drawn key of 65536 bytes and 1024 arrays behind a {name}", [TOP] * 3072 + [1, 2]
    cases.evaluate(key_words(data), *drawn_point(draw, (2, 1)), sheet=sheet, name=text)
    cases.cell(key_words(data), 3, 1, sheet=sheet, name=text)


def limit_cases(cases, draw):
    """01, 'Edges': keys of 65,536 bytes."""
    for text, factors in zip(longest_keys(draw), LONGEST_FACTORS, strict=True):
        cases.evaluate(text, *drawn_point(draw, (30, 30)), factors=factors)
        cases.cell(text, 2**30 - 1, 2**30 - 1, factors=factors)
    for name in WIDEST:
        widest_case(cases, draw, name)


def sweep(cases, draw):
    """Drawn keys of both editions, whole and damaged, at points and at places."""
    for _ in range(60):
        records = drawn_key(draw, 7, 1)
        text, bits = key_words(encoded(records)), records[0][1]
        cases.evaluate(text, *drawn_point(draw, bits))
        cases.evaluate(text, *drawn_edges(draw, bits))
        cases.cell(text, *drawn_place(draw, bits))
        for data in damaged(draw, records):
            cases.evaluate(key_words(data), *drawn_point(draw, bits))
            cases.cell(key_words(data), *drawn_place(draw, bits))


def evaluation_cases(cases, draw):
    """01, 'Dense form and evaluation' and 'Single cells': what is answered, and every place of the sheet."""
    starred_cases(cases)
    weight_cases(cases, draw)
    sum_cases(cases)
    shape_cases(cases, draw)
    point_cases(cases, draw)
    pattern_cases(cases, draw)
    position_cases(cases, draw)
    called_cases(cases)
    tower_cases(cases, draw)
    fibonacci_case(cases, draw)
    limit_cases(cases, draw)
    sweep(cases, draw)
