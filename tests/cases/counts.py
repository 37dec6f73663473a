"""The cases in which compare is counted over all points whose coordinates are from a list. Where two keys are the same is
known here in closed form alone, from the difference of their matrices, and nothing is evaluated.
"""

import itertools

from tests.model.fields import P

from .comparisons import root, weighed
from .keys import last_place, of_cells, pair, part, places

# The shapes of two coordinates.
SHAPES = (2, 0), (1, 1), (0, 2)

# A cell that two keys have in common, with values that are not 0.
COMMON = ((0, 0), (7, 11, P - 13))


class Values:
    """Values, no two of them equal: 0, 1, 2, p - 2, p - 1, given ones, and so many drawn ones that they are `count`."""

    def __init__(self, draw, count, *given):
        known = dict.fromkeys((0, 1, 2, P - 2, P - 1, *given))
        self.name = f"{' '.join(map(str, known))} and {count - len(known)} drawn"
        while len(known) < count:
            known[draw.below(P)] = None
        self.all = list(known)


def bound(bits, values):
    """How often keys that differ may be the same at most, by the agreement bound with the number of the values in place of p."""
    q, m = len(values.all), sum(bits)
    return q**m - (q - 1) ** m


def counted_pair(cases, texts, bits, values, same, number):
    """Two keys in words at every point of the values; `same` says where they are the same, and so often they are."""
    found = cases.count(*texts, bits, values.all, lambda point: "S" if same(point) else "D", values.name)
    if found != number:
        raise ValueError(f"same at {found} points, not at {number}")


def counted(cases, keys, bits, values, same, number):
    """The same of two keys of cells that have one shape."""
    counted_pair(cases, [of_cells(bits, cells) for cells in keys], bits, values, same, number)


def unweighed(bits, place):
    """The test whether a place has no weight at a point."""
    return lambda point: not weighed(place, (point[: bits[0]], point[bits[0] :]))


def holding(*wanted):
    """The test whether a point has one of these coordinates, each its index and its value."""
    return lambda point: any(point[i] == r for i, r in wanted)


def corner_count(cases, bits, values, cell, common):
    """A cell at the last place against none: the same exactly where a coordinate is 0, which is as often as the bound allows."""
    place = last_place(bits)
    keys = [*common, (place, cell)], common
    counted(cases, keys, bits, values, lambda point: 0 in point, bound(bits, values))


def corner_counts(cases, draw):
    """One cell at the last place against none, in A, in B and in C."""
    for which in range(3):
        value = part(which, 1 + draw.below(P - 1))
        for bits in SHAPES:
            corner_count(cases, bits, Values(draw, 32), value, [])
        corner_count(cases, SHAPES[which], Values(draw, 48), value, [COMMON])
        for axis in (0, 1):
            corner_count(cases, pair(axis, 1, 0), Values(draw, (1000, 200)[axis]), value, [COMMON][:axis])


def place_counts(cases, draw):
    """One cell more at any place: the same exactly where the place has no weight."""
    for number, bits in enumerate(((1, 0), (0, 1), *SHAPES)):
        for i, place in enumerate(places(bits)):
            cell = place, part((number + i) % 3, 1 + draw.below(P - 1))
            values = Values(draw, 32 if sum(bits) == 2 else 200)
            counted(cases, ([COMMON], [COMMON, cell]), bits, values, unweighed(bits, place), bound(bits, values))


def root_counts(cases, draw):
    """Values u and v at places that differ in one bit, against none: the same exactly where the coordinate of that bit is
    u/(u - v), and, where there is another coordinate, where that one gives neither place a weight.
    """
    for axis, which in itertools.product((0, 1), range(3)):
        u, v = 1 + draw.below(P // 2), P // 2 + 1 + draw.below(P // 2)
        zero, bits = root(u, v), pair(axis, 1, 0)
        cells = [(pair(axis, bit, 0), part(which, x)) for bit, x in enumerate((u, v))]
        counted(cases, (cells, []), bits, Values(draw, 1000, zero, zero - 1, zero + 1), holding((0, zero)), 1)
    for which, bits in enumerate(SHAPES):
        u, v = 1 + draw.below(P // 2), P // 2 + 1 + draw.below(P // 2)
        # The last two places differ in their lowest bit, which is coordinate 0 where both coordinates are of one side.
        cells = [(place, part(which, x)) for place, x in zip(list(places(bits))[2:], (u, v))]
        zero, moving = root(u, v), int(bits == (1, 1))
        values, same = Values(draw, 32, zero), holding((moving, zero), (1 - moving, 0))
        counted(cases, ([], cells), bits, values, same, bound(bits, values))


def equal_counts(cases, draw):
    """Keys that differ in no cell, and keys that differ by the same value everywhere."""
    for which, bits in enumerate(SHAPES):
        cells = [(place, part(which, 5)) for place in places(bits)]
        halves = [(place, part(which, x)) for place in places(bits) for x in (2, 3)]
        counted(cases, (cells, halves[::-1]), bits, Values(draw, 32), lambda _: True, 32**2)
        counted(cases, (halves, []), bits, Values(draw, 16), lambda _: False, 0)
    for axis in (0, 1):
        bits = pair(axis, 1, 0)
        cells = [(pair(axis, bit, 0), (3, 4, P - 1)) for bit in (0, 1)]
        counted(cases, (cells, cells[::-1]), bits, Values(draw, 200), lambda _: True, 200)
        counted(cases, (cells, cells[:1]), bits, Values(draw, 200), holding((0, 0)), 1)


def refusal_counts(cases, draw):
    """Refused exactly where a coordinate is p or more, and at every point where a key is at fault or has more coordinates."""
    for bits in ((1, 0), (0, 1), *SHAPES):
        values = [P, 0, draw.below(P), P + 1, P - 1]
        text, other = of_cells(bits, []), of_cells((2, 2), [])
        name = " ".join(map(str, values))
        cases.count(text, text, bits, values, lambda point: "S" if max(point) < P else "R", name)
        cases.count(text, other, bits, values, lambda _: "R", name)
        cases.count(text[:-5], text, bits, values, lambda _: "R", name)


def count_cases(cases, draw):
    """01, 'Comparing two keys': at how many points keys are the same, and at which."""
    corner_counts(cases, draw)
    place_counts(cases, draw)
    root_counts(cases, draw)
    equal_counts(cases, draw)
    refusal_counts(cases, draw)
