"""A cell in which keys differ that nobody unrolls: all their cells are different from zero, and one of them is not the same."""

import array
import itertools

from tests.cases.towers import WithCell, drawn_levels
from tests.draw.numbers import Draw, drawn_place, drawn_point
from tests.model.words import key

from .locations import found_at
from .subject import morgana

P = morgana.P
VALUES = 3, 5, P - 1


def flat(triples):
    """The numbers of arrays as a sheet has them."""
    return [*itertools.chain(*triples)]


def places_of(draw, bits):
    """The corners of a shape, places with one bit, and drawn ones."""
    last = [2**n - 1 for n in bits]
    yield from itertools.product(*((0, x) for x in last))
    yield from ((1, 0), (0, 1), ((last[0] + 1) // 2, 0), (0, (last[1] + 1) // 2))
    yield from (drawn_place(draw, bits) for _ in range(8))


def hold_tower(hold, draw, levels, more):
    """Of a tower and the same with one cell added: that cell, whichever key is first, and the sheet at its bits."""
    one = WithCell(VALUES, drawn_levels(draw, levels, 2), more)
    tower = key(one.tower)
    for i, place in enumerate(places_of(draw, one.bits)):
        added = [0, 0, 0]
        added[i % 3] = 1 + draw.below(P - 1)
        other, own = key(one.added(place, added)), one.at(place)
        total = tuple((x + y) % P for x, y in zip(own, added))
        triples, point = one.triples(place), drawn_point(draw, one.bits)
        larger = [*triples, added, total]
        sheet = array.array("I", [9] * (3 * len(larger) + 2))
        got = morgana.locate(tower, other, *point, sheet)
        hold.equal("the cell", found_at(*place, own, total), got)
        hold.equal("the sheet", [*flat(larger), 9, 9], list(sheet))
        got = morgana.locate(other, tower, *point, sheet)
        hold.equal("the cell, exchanged", found_at(*place, total, own), got)
        hold.equal("the sheet, exchanged", [*flat(triples), *added, *total, 9, 9], list(sheet))


def hold_all(hold):
    """Keys of sixty bits, ninety levels deep, and of twenty-six bits, forty levels deep, beside larger ones of up to sixty."""
    draw = Draw()
    hold_tower(hold, draw, 90, (0, 0))
    hold_tower(hold, draw, 40, (17, 17))
    hold_tower(hold, draw, 40, (0, 17))
    hold_tower(hold, draw, 40, (17, 0))
