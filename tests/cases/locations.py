"""The cases of what locate answers: a cell in which two keys differ, both keys' values there, and the sheet at its bits."""

import itertools

from tests.draw.changes import damaged, grown, rewritten, with_cells
from tests.draw.keys import drawn_key, encoded
from tests.draw.numbers import drawn_edges, drawn_place, drawn_point, numbered, spoiled
from tests.model.calls import written
from tests.model.fields import P, TOP
from tests.model.locate import located
from tests.model.pairs import most_bits
from tests.model.words import key_words, outcome, words

from .comparisons import root, weighed
from .keys import CIRCUIT, EMPTY, NONE, ONE, REWRITTEN, SQUARE, THREE
from .keys import enlarged, keyed, last_place, of_cells, pair, part, places, single
from .location_refusals import location_refusals
from .towers import WithCell, drawn_levels

ZERO = 0, 0, 0
VALUES = 3, 5, P - 1


def both_ways(cases, first, second, point, place, values):
    """Two keys in words, and exchanged: the cell at a place, where they have these values."""
    cases.locate(first, second, *point, located(*place, values))
    cases.locate(second, first, *point, located(*place, values[::-1]))


def same_cases(cases, draw):
    """Keys of one circuit, keys whose matrices are 0, and a key with itself."""
    for one, other in itertools.pairwise((CIRCUIT, *REWRITTEN)):
        cases.locate(keyed(one), keyed(other), *drawn_point(draw, (2, 1)), "same")
    for one, other in itertools.pairwise(EMPTY):
        cases.locate(keyed(one), keyed(other), *drawn_edges(draw, (2, 1)), "same")
    for text, bits in ((ONE, (1, 0)), (THREE, (1, 0)), (SQUARE, (2, 2)), (NONE, (0, 0))):
        cases.locate(text, text, *drawn_point(draw, bits), "same")
    cases.locate(ONE, THREE, (5,), (), "same")


def corner_cases(cases, draw):
    """One cell more at each place, in A alone, in B alone and in C alone: that cell exactly where it has a weight."""
    own = {(0, 0): (5, 7, 9), (3, 1): (2, 0, P - 1)}
    for i, (place, which) in enumerate(itertools.product(places((2, 1)), range(3))):
        added = part(which, 1 + draw.below(P - 1))
        other = keyed(f"{CIRCUIT}, {words('cell', (*place, *added))}")
        first = own.get(place, ZERO)
        values = first, tuple((x + y) % P for x, y in zip(first, added))
        for point in (drawn_point(draw, (2, 1)), drawn_edges(draw, (2, 1))):
            texts, given = pair(i % 2, keyed(CIRCUIT), other), pair(i % 2, *values)
            cases.locate(*texts, *point, located(*place, given) if weighed(place, point) else "same")


def way_cases(cases, draw):
    """Several cells against none: 0 before 1, from the lowest bit up, rows before columns, where every cell has a weight."""
    for bits, given, place in (
        ((1, 1), [(0, 0), (1, 1)], (0, 0)),
        ((1, 1), [(1, 0), (0, 1)], (0, 1)),
        ((1, 1), [(1, 0), (1, 1)], (1, 0)),
        ((2, 0), [(1, 0), (2, 0)], (2, 0)),
        ((0, 2), [(0, 1), (0, 2)], (0, 2)),
        ((3, 0), [(3, 0), (5, 0), (6, 0), (7, 0)], (6, 0)),
        ((0, 3), [(0, 7), (0, 5), (0, 3)], (0, 5)),
        ((2, 2), [(3, 0), (2, 3), (2, 1)], (2, 1)),
        ((30, 30), [(2**29, 1), (1, 2**29), (3, 3)], (2**29, 1)),
    ):
        point = [[2 + draw.below(P - 2) for _ in range(n)] for n in bits]
        some = of_cells(bits, [(each, (1 + i, 2, 3)) for i, each in enumerate(given)])
        both_ways(cases, some, of_cells(bits, []), point, place, ((1 + given.index(place), 2, 3), ZERO))


def passed_cases(cases, draw):
    """Cells that are passed over: those that 0 leaves for the first coordinate are two, which the second one weighs to zero."""
    ways = ((1, 1), ((0, 0), (0, 1)), (1, 1)), ((2, 0), ((0, 0), (2, 0)), (1, 0)), ((0, 2), ((0, 0), (0, 2)), (0, 1))
    for (bits, two, place), which in itertools.product(ways, range(3)):
        u, v = 1 + draw.below(P // 2), P // 2 + 1 + draw.below(P // 2)
        values = [part(which, x) for x in (u, v)]
        some = of_cells(bits, [*zip(two, values), (place, (1, 2, 3))])
        for second in (root(u, v), root(u, v) + 1):
            numbers = 2 + draw.below(P - 2), second
            wanted = (place, (1, 2, 3)) if second == root(u, v) else (two[0], values[0])
            both_ways(cases, some, of_cells(bits, []), (numbers[: bits[0]], numbers[bits[0] :]), wanted[0], (wanted[1], ZERO))


def shape_cases(cases, draw):
    """Keys of unequal shapes: a cell beyond the rows of one key, beyond its columns and beyond both, and shapes that cross."""
    for bits, more in itertools.product(((0, 0), (1, 0), (1, 2)), ((1, 0), (0, 2), (2, 1), (29, 28))):
        small, larger = single(bits, last_place(bits), VALUES), tuple(n + k for n, k in zip(bits, more))
        cases.locate(small, enlarged(small, more), *drawn_point(draw, larger), "same")
        for i, place in enumerate((last_place(larger), *(drawn_place(draw, larger) for _ in range(2)))):
            own = VALUES if place == last_place(bits) else ZERO
            other = of_cells(larger, [(last_place(bits), VALUES), (place, part(i, 7))])
            values = own, tuple((x + y) % P for x, y in zip(own, part(i, 7)))
            both_ways(cases, small, other, drawn_point(draw, larger), place, values)
    down, across = single((30, 0), (2**30 - 1, 0), (1, 2, 3)), single((0, 30), (0, 2**30 - 1), (4, 5, 6))
    both_ways(cases, down, across, drawn_point(draw, (30, 30)), (0, 2**30 - 1), (ZERO, (4, 5, 6)))


def no_point_cases(cases):
    """No coordinates at all: the one cell, where it differs."""
    triples = ZERO, (1, 0, 0), (1, 0, 1), (P - 1, P - 1, P - 1)
    for values in itertools.product(triples, repeat=2):
        first, second = (single((0, 0), (0, 0), each) for each in values)
        cases.locate(first, second, (), (), "same" if first == second else located(0, 0, values))


def tower_case(cases, draw, levels, more):
    """A tower of drawn levels and the same with one cell added, in either order, and the sheet at the cell's bits."""
    one = WithCell(VALUES, drawn_levels(draw, levels, 2), more)
    for i, place in enumerate((last_place(one.bits), *(drawn_place(draw, one.bits) for _ in range(3)))):
        added, point = part(i % 3, 1 + draw.below(P - 1)), drawn_point(draw, one.bits)
        values = one.at(place), tuple((x + y) % P for x, y in zip(one.at(place), added))
        triples = one.triples(place), [*one.triples(place), added, values[1]]
        sheet = [TOP] * (3 * len(triples[1]) + 2)
        for texts, given, known in (
            ((one.tower, one.added(place, added)), values, triples),
            ((one.added(place, added), one.tower), values[::-1], triples[::-1]),
        ):
            after = written(known[1], written(known[0], sheet))
            cases.locate(*texts, *point, sheet=sheet, known=outcome(located(*place, given), after))


def tower_cases(cases, draw):
    """Towers that are too large to unroll: of sixty bits and ninety levels, and of twenty-six bits and forty levels beside
    sixty bits.
    """
    tower_case(cases, draw, 90, (0, 0))
    tower_case(cases, draw, 40, (17, 17))


def sweep(cases, draw):
    """Drawn keys of both editions against others of any shapes with cells added, written in another way, and damaged."""
    for i in range(16):
        records = drawn_key(draw, 3)
        text, bits = key_words(encoded(records)), records[0][1]
        more = draw.below(3), draw.below(3)
        for other in (*(with_cells(draw, records, more, count) for count in (1, 2, 3)), drawn_key(draw, 3, 1)):
            most = most_bits(bits, other[0][1])
            for point in (drawn_point(draw, most), drawn_edges(draw, most)):
                cases.locate(*pair(i % 2, text, key_words(encoded(other))), *point)
        larger = grown(records, more)
        cases.locate(*pair(i % 2, text, key_words(encoded(rewritten(draw, larger)))), *drawn_point(draw, larger[0][1]), "same")
        for j, data in enumerate(damaged(draw, larger)):
            point = (spoiled(draw, side) for side in drawn_point(draw, larger[0][1]))
            cases.locate(*pair(j % 2, text, key_words(data)), *point, sheet=numbered(3 + draw.below(12)))


def location_cases(cases, draw):
    """What locate answers, and every place of the sheet."""
    same_cases(cases, draw)
    corner_cases(cases, draw)
    way_cases(cases, draw)
    passed_cases(cases, draw)
    shape_cases(cases, draw)
    no_point_cases(cases)
    tower_cases(cases, draw)
    location_refusals(cases, draw)
    sweep(cases, draw)
