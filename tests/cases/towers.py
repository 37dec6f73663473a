"""Keys of many levels that are too large to unroll, with what they evaluate to in closed form.

A tower begins with an array of one cell, and each level calls the array before it. A level is its axis (0 adds a row
bit, 1 a column bit, None neither) and how often it calls at position 0 and, where it adds a bit, at position 1. So the
dense value at a place is the cell's times one count for each level, which the bit of the place that the level added
chooses. Summed over all places with their weights this is a product: the cell's value times, for each level, its first
count times 1 - r and its second times r, r being the coordinate of the bit that it added. In edition 2 one call with the
count as its factor stands for so many calls.

The weight of a call has one coordinate where its level adds a bit, and none else, and that of the cell has none. So a tower
has as many factors as calls at levels that add a bit.
"""

from tests.draw.changes import added_to
from tests.draw.keys import encoded
from tests.model.dense import bits_of, numbers_of
from tests.model.fields import P, PRIME
from tests.model.records import records_in
from tests.model.words import joined, key, key_words, times, words


def shapes(levels):
    """The bits of each array of a tower."""
    bits = [(0, 0)]
    for axis, _ in levels:
        bits.append(tuple(k + (side == axis) for side, k in enumerate(bits[-1])))
    return bits


def calls(called, down, right, count):
    """So many calls of a level in words, or nothing where there are none."""
    return times(count, words("call", (called, down, right))) if count else ""


def scaled_calls(called, down, right, count):
    """The same as one call of edition 2."""
    return words("scaled_call", (called, down, right, count))


def tower(values, levels, head="head", level_calls=calls):
    """The key of a tower in words."""
    bits = shapes(levels)
    items = [words(head, bits[-1]), "sparse 0 0", words("cell 0 0", values)]
    for i, (axis, counts) in enumerate(levels):
        positions = ((a * (axis == 0), a * (axis == 1)) for a in range(len(counts)))
        entries = (level_calls(i, *position, count) for position, count in zip(positions, counts))
        items.extend([words("recursive", bits[i + 1]), *entries])
    return joined(*items, "end")


def scaled_tower(values, levels):
    """The key of a tower in words, in edition 2; its counts are below p."""
    return tower(values, levels, "scaled_head", scaled_calls)


def factor(axis, counts, bits, point):
    """What a level multiplies the values of the array before it by, which has these bits."""
    if axis is None:
        return counts[0]
    r = point[axis][bits[axis]]
    return counts[0] * (1 - r) + counts[1] * r


def tower_values(values, levels, point, field=PRIME):
    """The numbers of A, B and C of each array of a tower at a point: those of its row and of its column coordinates."""
    point = [field.elements(side) for side in point]
    known = [tuple(map(field.element, values))]
    for bits, (axis, counts) in zip(shapes(levels), levels):
        known.append(tuple(factor(axis, counts, bits, point) * x % P for x in known[-1]))
    return [numbers_of(each, field) for each in known]


def tower_factors(levels):
    """How many factors a tower has: one for each call of a level that adds a bit."""
    return sum(sum(counts) for axis, counts in levels if axis is not None)


def scaled_tower_factors(levels):
    """The same in edition 2, where such a level has two calls, whatever their factors are."""
    return 2 * sum(shapes(levels)[-1])


def drawn_levels(draw, count, most):
    """So many levels, a third of them on each axis, but at most thirty; each calls at most so often at a position."""
    side = min(30, count // 3)
    axes = [0] * side + [1] * side + [None] * (count - 2 * side)
    levels = []
    while axes:
        axis = axes.pop(draw.below(len(axes)))
        positions = 1 if axis is None else 2
        levels.append((axis, [1 + draw.below(most) for _ in range(positions)]))
    return levels


class WithCell:
    """A tower, and a key of so many row and column bits more whose matrices are the tower's with values added in one cell."""

    def __init__(self, values, levels, more=(0, 0)):
        self.values, self.levels, self.more = values, levels, more
        self.own = shapes(levels)[-1]
        self.bits = tuple(n + k for n, k in zip(self.own, more, strict=True))
        self.tower = tower(values, levels)

    def added(self, place, values):
        """The key in words that has these values added in the cell at a place."""
        records, _ = records_in(key(self.tower))
        return key_words(encoded(added_to(records, self.more, [(*place, *values)])))

    def triples(self, place):
        """A, B and C of each array of the tower at as many low bits of a place as the tower has."""
        return tower_values(self.values, self.levels, [*map(bits_of, place, self.own)])

    def at(self, place):
        """A, B and C of the tower in a cell, zero beyond its own shape."""
        within = all(x < 2**n for x, n in zip(place, self.own, strict=True))
        return self.triples(place)[-1] if within else (0, 0, 0)
