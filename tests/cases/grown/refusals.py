"""The cases in which compare refuses keys of unequal shapes: 21 and 22 by N and N', 23 in any coordinate, and 31 for the key
with more arrays.
"""

import itertools

from tests.draw.numbers import numbered
from tests.model.fields import P, TOP
from tests.model.pairs import most_bits

from ..comparisons import both_ways
from ..keys import NONE, pair, single
from .shared import any_point

HEADS = (1, 2), (2, 1), (1, 1), (2, 2), (0, 3), (3, 0)

# Keys of no bits and of two row bits and one column bit, with their numbers of arrays.
SMALL = {
    NONE: 1,
    "head 0 0, 2 times sparse 0 0, cell 0 0 7 8 9, recursive 0 0, call 1 0 0, end": 3,
}
LARGE = {
    "head 2 1, sparse 2 1, cell 3 1 1 2 3, end": 1,
    "head 2 1, sparse 1 1, cell 1 0 1 2 3, recursive 2 1, call 0 1 0, end": 2,
}


def point_refusal(received, bits, field):
    """The refusal of a point of so many numbers on each side for keys whose larger bits are these, or None."""
    for number, count, wanted in zip((21, 22), received, field.counts(bits)):
        if count != wanted:
            return f"neither refused {number} at {count}"
    return None


def shape_cases(cases, draw, field):
    """Shapes that differ in rows, in columns and in both, at points of the larger bits and of either shape: the same values in
    the first place, and nothing else, are the same at every point.
    """
    for one, other in (*itertools.combinations(HEADS, 2), ((30, 0), (0, 30))):
        keys, most = [single(bits, (0, 0), (1, 2, 3)) for bits in (one, other)], most_bits(one, other)
        for bits in (most, one, other):
            wanted = point_refusal(field.counts(bits), most, field) or "same"
            both_ways(cases, *keys, any_point(draw, bits, field), wanted)


def count_cases(cases, draw, field):
    """Numbers 21 and 22: as many numbers as the smaller key's bits ask for, as p asks for, and counts about N and N'."""
    keys = [single(bits, (0, 0), (1, 2, 3)) for bits in ((3, 1), (1, 2))]
    point = any_point(draw, (3, 2), field)
    for axis, needed in enumerate(field.counts((3, 2))):
        counts = {0, 1, field.size, needed // field.size, 2 * needed, needed + 256, *range(needed - 2, needed + 3)} - {needed}
        for count in sorted(counts):
            received = [draw.below(P) for _ in range(count)]
            both_ways(cases, *keys, pair(axis, received, point[1 - axis]), f"neither refused {21 + axis} at {count}")
    # Both sides at fault, and the point of the larger shape with its sides exchanged.
    both_ways(cases, *keys, any_point(draw, (1, 1), field), f"neither refused 21 at {field.size}")
    both_ways(cases, *keys, point[::-1], f"neither refused 21 at {2 * field.size}")


def number_cases(cases, draw, field):
    """Number 23: every number of a point at fault, alone and with a later one, whichever key does not use it; p - 1 passes."""
    keys = [single(bits, (0, 0), (1, 2, 3)) for bits in ((3, 1), (1, 2))]
    rows, columns = any_point(draw, (3, 2), field)
    numbers, middle = [*rows, *columns], len(rows)
    for first, later in itertools.combinations_with_replacement(range(len(numbers)), 2):
        for number in (P - 1, P, TOP) if first == later else (P,):
            point = [number if i in (first, later) else r for i, r in enumerate(numbers)]
            wanted = f"neither refused 23 at {first}" if number >= P else "same"
            cases.compare(*pair(later % 2, *keys), point[:middle], point[middle:], wanted)
    for index in (0, 30 * field.size - 1, 30 * field.size, 60 * field.size - 1):
        point = [P if i == index else draw.below(P) for i in range(60 * field.size)]
        keys, middle = [single(bits, (0, 0), (1, 2, 3)) for bits in ((30, 0), (0, 30))], 30 * field.size
        cases.compare(*keys, point[:middle], point[middle:], f"neither refused 23 at {index}")


def sheet_cases(cases, draw, field):
    """Number 31 for the key with more arrays, whichever is larger and whichever is first, and sheets that are long enough."""
    point = any_point(draw, (2, 1), field)
    for (small, arrays), (large, others) in itertools.product(SMALL.items(), LARGE.items()):
        need, less = (3 * field.size * count(arrays, others) for count in (max, min))
        for length in sorted({0, less - 1, less, need - 1, need, need + 4}):
            wanted = f"neither refused 31 at {need}" if length < need else "different"
            both_ways(cases, small, large, point, wanted, numbered(length))
    most = "head 0 0, 1024 times sparse 0 0, cell 0 0 1 2 3, end"
    need = 3 * field.size * 1024
    keys = most, single((1, 0), (0, 0), (1, 2, 3))
    for i, wanted in enumerate(("same", f"neither refused 31 at {need}")):
        cases.compare(*pair(i, *keys), *any_point(draw, (1, 0), field), wanted, [7] * (need - i))


def refusal_cases(cases, draw, field):
    """What refuses keys of unequal shapes."""
    shape_cases(cases, draw, field)
    count_cases(cases, draw, field)
    number_cases(cases, draw, field)
    sheet_cases(cases, draw, field)
