"""What the cases of unequal shapes share: points over a field, and what compare says by matrices that are filled with zeros.

The cases are `Cases` over p and `Quadratics` over p², with the field of either.
"""

from tests.draw.numbers import drawn_edges, drawn_point
from tests.model.dense import dense, extension
from tests.model.keys import read
from tests.model.words import key


def any_point(draw, bits, field):
    """A point of any numbers of a field, for keys of these bits."""
    return drawn_point(draw, field.counts(bits))


def edge_point(draw, bits, field):
    """A point whose numbers are 0, 1, 2, p - 1 or, one in five, any."""
    return drawn_edges(draw, field.counts(bits))


def with_coordinate(side, i, number, field):
    """The numbers of one side of a point, with a number over p in place of coordinate i."""
    at = field.size * i
    return [*side[:at], *field.numbers(field.element(number)), *side[at + field.size :]]


def by_filling(first, second, point, field):
    """What compare says of two keys in words by its meaning: by their dense forms, which are zero at every other place of the
    larger shape, with the weights of all coordinates of the point.
    """
    sides, zero = [field.elements(side) for side in point], field.element(0)
    one, other = (extension(dense(read(key(text))[1])[-1], *sides, zero) for text in (first, second))
    return "same" if one == other else "different"
