"""Two keys of any shapes at one point: 02, E7. The smaller matrix is read as placed at position 0 of the larger one, so a key's
values are multiplied by eq([0]) of the coordinates that it does not use.
"""

from .dense import numbers_of, weight
from .factors import factors
from .fields import P, PRIME


def most_bits(*heads):
    """N and N': the most row bits and the most column bits that one of the heads has."""
    return tuple(map(max, *heads))


def unused(heads):
    """Of each head, the coordinates, by their numbers on each side, that its key does not use of a point for all of them."""
    return [[range(n, most) for n, most in zip(head, most_bits(*heads), strict=True)] for head in heads]


def multiplied(values, coordinates, rows, columns, field=PRIME):
    """The numbers of A, B and C times eq([0]) of those coordinates of a point that have these numbers on each side."""
    product = 1
    for side, numbers in zip((rows, columns), coordinates, strict=True):
        elements = field.elements(side)
        product = product * weight(0, [elements[i] for i in numbers]) % P
    return numbers_of([x * product % P for x in field.elements(values)], field)


def pair_factors(heads, keys):
    """The count of factors of two keys, by their heads and their arrays: those of both, and one for each coordinate that one of
    them does not use.
    """
    return sum(map(factors, keys)) + sum(len(side) for left in unused(heads) for side in left)
