"""Compare of unequal shapes, counted over all points whose coordinates are from a list. Where two keys are the same is known
here in closed form alone, from the difference of their matrices, filled with zeros, and nothing is evaluated.
"""

import itertools

from tests.model.fields import P
from tests.model.pairs import most_bits

from ..comparisons import root
from ..counts import COMMON, SHAPES, Values, bound, counted_pair, holding, unweighed
from ..keys import enlarged, grown_bits, last_place, of_cells, pair, part, scaled, single
from ..products import HALF

# The shapes of at most two coordinates, and every two of them that a point of at most two coordinates serves.
SMALL = ((0, 0), (1, 0), (0, 1), *SHAPES)
UNEQUAL = [keys for keys in itertools.permutations(SMALL, 2) if sum(most_bits(*keys)) <= 2]


def values_for(draw, bits, *given):
    """Values for a sweep of so many coordinates."""
    return Values(draw, 16 if sum(bits) == 2 else 200, *given)


def corner_counts(cases, draw):
    """A cell at the last place of a key that is larger in rows and columns against a smaller one without it: the same exactly
    where a coordinate is 0, which is as often as the bound allows.
    """
    for i, (one, other) in enumerate(UNEQUAL):
        if most_bits(one, other) == one:
            values, last = values_for(draw, one), last_place(one)
            common = [COMMON][: i % 2]
            keys = of_cells(one, [*common, (last, part(i % 3, 1 + draw.below(P - 1)))]), of_cells(other, common)
            counted_pair(cases, pair(i // 2 % 2, *keys), one, values, lambda point: 0 in point, bound(one, values))


def first_place_counts(cases, draw):
    """A cell at the first place of any key against none: the same exactly where a coordinate, used or unused, is 1."""
    for i, (one, other) in enumerate(UNEQUAL):
        bits = most_bits(one, other)
        values, value = values_for(draw, bits), part(i % 3, 1 + draw.below(P - 1))
        keys = of_cells(one, [((0, 0), value)]), of_cells(other, [])
        counted_pair(cases, pair(i // 2 % 2, *keys), bits, values, lambda point: 1 in point, bound(bits, values))


def place_counts(cases, draw):
    """A cell at the last place of any key against none: the same exactly where that place has no weight, its bits being 0 in
    the coordinates that the key does not use.
    """
    for i, (one, other) in enumerate(UNEQUAL):
        bits, last = most_bits(one, other), last_place(one)
        values, value = values_for(draw, bits), part(i % 3, 1 + draw.below(P - 1))
        keys = of_cells(one, [COMMON, (last, value)]), of_cells(other, [COMMON])
        counted_pair(cases, pair(i // 2 % 2, *keys), bits, values, unweighed(bits, last), bound(bits, values))


def root_counts(cases, draw):
    """The value u at the last place of a key against v at the last place of one that has a coordinate r more: u(1 - r) against
    v·r, so the same exactly where r is u/(u + v), and where a coordinate that both use is 0.
    """
    for i, (one, other) in enumerate(UNEQUAL):
        grown = [n - k for n, k in zip(one, other)]
        if sorted(grown) != [0, 1]:
            continue
        u, v = (1 + draw.below(P // 2) for _ in range(2))
        zero, which = root(u, -v), i % 3
        # The coordinate that the larger key has more is the last of its side.
        index = one[0] - 1 if grown[0] else sum(one) - 1
        values = values_for(draw, one, zero)
        keys = single(one, last_place(one), part(which, v)), single(other, last_place(other), part(which, u))
        shared = [(j, 0) for j in range(sum(one)) if j != index]
        counted_pair(cases, pair(i % 2, *keys), one, values, holding((index, zero), *shared), bound(one, values))


def equal_counts(cases, draw):
    """Keys that differ in no cell where they are filled with zeros: the same at every point."""
    for i, (one, other) in enumerate(UNEQUAL):
        bits = most_bits(one, other)
        values = values_for(draw, bits)
        cells = [COMMON, (last_place(map(min, one, other)), part(i % 3, 1 + draw.below(P - 1)))]
        texts = of_cells(one, cells), of_cells(other, cells[::-1])
        counted_pair(cases, texts, bits, values, lambda _: True, len(values.all) ** sum(bits))


def growth_counts(cases, draw):
    """A key against its own growth: at position 0 the same at every point; at position 1 exactly where the coordinate that it
    does not use is 1/2, and where its one cell, at the last place, has no weight.
    """
    for bits, axis in itertools.product(((0, 0), (1, 0), (0, 1)), (0, 1)):
        more = pair(axis, 1, 0)
        total = grown_bits(bits, more)
        values = values_for(draw, total, HALF)
        text = single(bits, last_place(bits), (3, 5, P - 1))
        everywhere = len(values.all) ** sum(total)
        counted_pair(cases, (text, enlarged(text, more)), total, values, lambda _: True, everywhere)
        index = total[0] - 1 if axis == 0 else sum(total) - 1
        own = [(j, 0) for j in range(sum(total)) if j != index]
        keys = enlarged(text, more, more), text
        counted_pair(cases, keys, total, values, holding((index, HALF), *own), bound(total, values))


def factor_counts(cases, draw):
    """A key against its growth by a call at position 0 with a factor that is not 1: the same exactly where the coordinate that
    it does not use is 1, and where its one cell, at the last place, has no weight.
    """
    for i, (bits, axis) in enumerate(itertools.product(((0, 0), (1, 0), (0, 1)), (0, 1))):
        more = pair(axis, 1, 0)
        total = grown_bits(bits, more)
        values, last = values_for(draw, total), last_place(bits)
        text, factor = single(bits, last, (3, 5, P - 1)), (0, P - 1, 2 + draw.below(P - 2))[i % 3]
        keys = pair(i % 2, text, enlarged(scaled(text), more, factor=factor))
        counted_pair(cases, keys, total, values, unweighed(total, last), bound(total, values))


def refusal_counts(cases, draw):
    """Refused at every point that has one key's coordinates alone, where the other key has more."""
    for one, other in UNEQUAL:
        if sum(one) and one != most_bits(one, other):
            values = [0, 1, draw.below(P), P - 1]
            keys = [single(bits, (0, 0), (1, 2, 3)) for bits in (one, other)]
            cases.count(*keys, one, values, lambda _: "R", " ".join(map(str, values)))


def count_cases(cases, draw):
    """02, E7: at how many of the points of N + N' coordinates keys are the same, and at which."""
    corner_counts(cases, draw)
    first_place_counts(cases, draw)
    place_counts(cases, draw)
    root_counts(cases, draw)
    equal_counts(cases, draw)
    growth_counts(cases, draw)
    factor_counts(cases, draw)
    refusal_counts(cases, draw)
