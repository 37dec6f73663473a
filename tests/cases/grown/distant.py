"""The cases of shapes that are too far apart to fill, 0 bits against 30, with closed forms."""

from tests.model.fields import P
from tests.model.pairs import most_bits

from ..comparisons import both_ways, tower_pair
from ..keys import of_cells, pair, single
from ..products import HALF
from ..towers import drawn_levels
from .shared import any_point, with_coordinate

VALUES = (3, 5, P - 1)

# Levels of a row bit and of a column bit that call at position 0 alone: the tower below has grown.
UP, ACROSS = (0, [1, 0]), (1, [1, 0])


def cell_cases(cases, draw, field):
    """One cell of a key without bits against one of the same values in a key of thirty: in the first place the same everywhere,
    and elsewhere weighed by r for 1 - r at one coordinate, so the same where that is 1/2, and where another is 1.
    """
    small = single((0, 0), (0, 0), VALUES)
    for axis in (0, 1):
        bits = pair(axis, 30, 0)
        both_ways(cases, small, single(bits, (0, 0), VALUES), any_point(draw, bits, field), "same")
        for bit in (0, 15, 29):
            large = single(bits, pair(axis, 2**bit, 0), VALUES)
            side = any_point(draw, bits, field)[axis]
            for i, r in ((bit, HALF), (bit, 1), ((bit + 1) % 30, 1), (bit, 5)):
                wanted = "same" if r == HALF or i != bit else "different"
                both_ways(cases, small, large, pair(axis, with_coordinate(side, i, r, field), ()), wanted)


def empty_cases(cases, draw, field):
    """One cell against none, with shapes that are crossed or thirty bits apart: the same where an unused coordinate is 1."""
    for one, other in (((30, 0), (0, 30)), ((0, 0), (30, 30)), ((0, 30), (30, 30)), ((29, 1), (1, 29))):
        bits = most_bits(one, other)
        first, second = single(one, (0, 0), VALUES), of_cells(other, [])
        rows, columns = any_point(draw, bits, field)
        both_ways(cases, first, second, (rows, columns), "different")
        both_ways(cases, first, single(other, (0, 0), VALUES), (rows, columns), "same")
        for axis, n in enumerate(bits):
            if n > one[axis]:
                for i in (one[axis], n - 1):
                    side = with_coordinate((rows, columns)[axis], i, 1, field)
                    both_ways(cases, first, second, pair(axis, side, (rows, columns)[1 - axis]), "same")


def tower_cases(cases, draw, field):
    """Towers against themselves grown, in rows, in columns and in both, and with the last level called otherwise."""
    for levels, more in (
        ([], [UP] * 30),
        ([], [ACROSS] * 30),
        ([], [UP] * 30 + [ACROSS] * 30),
        (drawn_levels(draw, 6, 2), [UP, ACROSS]),
        (drawn_levels(draw, 40, 2), [UP] * 17 + [ACROSS] * 17),
    ):
        keys = (VALUES, levels), (VALUES, [*levels, *more])
        tower_pair(cases, draw, *keys, "same", field)
        tower_pair(cases, draw, *keys[::-1], "same", field)
        axis, _ = more[-1]
        for changed in ((axis, [0, 1]), (axis, [1, 1]), (axis, [2, 0])):
            tower_pair(cases, draw, (VALUES, levels), (VALUES, [*levels, *more[:-1], changed]), "different", field)
    # One grows in rows and the other in columns.
    levels = drawn_levels(draw, 12, 2)
    tower_pair(cases, draw, (VALUES, [*levels, *[UP] * 26]), (VALUES, [*levels, *[ACROSS] * 26]), "same", field)


def distant_cases(cases, draw, field):
    """Shapes that are up to thirty bits apart."""
    cell_cases(cases, draw, field)
    empty_cases(cases, draw, field)
    tower_cases(cases, draw, field)
