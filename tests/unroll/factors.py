"""How many factors the weights of a key's cells and calls have, counted over its records and not over what they unroll to."""

from .keys import larger_shape


def bits(array):
    """The row and the column bits of an array, or of a key, together."""
    return array.row_bits + array.column_bits


def factors(key):
    """The sum over the key's arrays: k + k' for each cell, and (k - K) + (k' - K') for each call."""
    count = 0
    for array in key.arrays:
        count += bits(array) * len(array.cells)
        count += sum(bits(array) - bits(key.arrays[call.id]) for call in array.calls)
    return count


def factors_of_both(one, other):
    """The factors of two keys that are compared: those of each, and as many as it has bits fewer than the larger shape."""
    return factors(one) + factors(other) + 2 * sum(larger_shape(one, other)) - bits(one) - bits(other)
