"""Weights, the dense form of each array, which is unrolled place by place, and its value at a point (01, 'Weights' and
'Dense form and evaluation', and 02, E9).
"""

import itertools

from .fields import P, PRIME


def bits_of(number, count):
    """The bits of a number, lowest first."""
    return [number >> i & 1 for i in range(count)]


def eq(x, y):
    """eq(x; y) of 004 (1.1.2): the product of the places' x·y + (1 - x)(1 - y)."""
    product = 1
    for a, b in zip(x, y, strict=True):
        product *= a * b + (1 - a) * (1 - b)
    return product % P


def weight(number, coordinates):
    """eq([number]; coordinates): bit i, lowest first, is paired with coordinate i."""
    product = 1
    for i, r in enumerate(coordinates):
        product = product * (r if number >> i & 1 else 1 - r) % P
    return product


def contributions(array, arrays, forms):
    """The places and values that an array's dense form is the sum of, by the forms of the arrays before it."""
    for fields in array.entries:
        if array.name == "sparse":
            yield fields[:2], fields[2:]
        else:
            called, *position, factor = fields
            down, right = (a * 2**K for a, K in zip(position, arrays[called].bits, strict=True))
            for (row, column), values in forms[called].items():
                yield (row + down, column + right), tuple(factor * x for x in values)


def dense(arrays):
    """The dense form of each array: A, B and C by place, and zero at a place that has none."""
    forms = []
    for array in arrays:
        form = {}
        for place, values in contributions(array, arrays, forms):
            form[place] = tuple((x + y) % P for x, y in zip(form.get(place, (0, 0, 0)), values))
        forms.append(form)
    return forms


def extension(form, rows, columns, zero):
    """A, B and C of a dense form at a point: the sum over all places of what is there times the place's weights."""
    total = (zero, zero, zero)
    for (row, column), values in form.items():
        w = weight(row, rows) * weight(column, columns)
        total = tuple((x + y * w) % P for x, y in zip(total, values))
    return total


def numbers_of(values, field):
    """The numbers of A, B and C, one behind the other."""
    return tuple(itertools.chain(*map(field.numbers, values)))


def triples(arrays, forms, rows, columns, field=PRIME):
    """The numbers of A, B and C of each array, at as many of the first coordinates as it has bits."""
    sides, zero = (field.elements(rows), field.elements(columns)), field.element(0)
    known = []
    for array, form in zip(arrays, forms):
        values = extension(form, *(side[:bits] for side, bits in zip(sides, array.bits)), zero)
        known.append(numbers_of(values, field))
    return known
