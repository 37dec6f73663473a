"""A key evaluated at a point, and two keys compared, with the sheet afterwards."""

from .dense import PARTS, dense, extension, filled, weights
from .factors import factors, factors_of_both
from .fields import F_P, PRIME
from .keys import Refused, check, larger_shape, require

PLACES_LIMIT = 2**18


class TooManyPlaces(Exception):
    """The keys are accepted, and one of them, or its last array filled with zeros, has more than PLACES_LIMIT places."""


def judge_point(row_bits, column_bits, rows, columns, over):
    """Refuses with 21, 22 and 23, which count numbers, what is no point of so many row and column coordinates."""
    require(len(rows) == over.numbers * row_bits, 21, len(rows))
    require(len(columns) == over.numbers * column_bits, 22, len(columns))
    for i, number in enumerate([*rows, *columns]):
        require(number < PRIME, 23, i)


def judge_places(what, count):
    """Raises TooManyPlaces for more than PLACES_LIMIT places."""
    if count > PLACES_LIMIT:
        raise TooManyPlaces(f"the {what} has {count} places; at most {PLACES_LIMIT} are unrolled")


def unrolled(arrays):
    """The dense matrices A, B and C of each array. Raises TooManyPlaces."""
    sizes = [2 ** (array.row_bits + array.column_bits) for array in arrays]
    called = sum(sizes[call.id] for array in arrays for call in array.calls)
    judge_places("key", sum(sizes) + called)
    return list(zip(*(dense(arrays, part) for part in PARTS), strict=True))


def values(matrices, rows, columns, over):
    """The numbers of A, B and C by their matrices, at a point of as many elements as these have bits."""
    sides = weights(rows, over), weights(columns, over)
    a, b, c = (extension(matrix, *sides, over) for matrix in matrices)
    return a + b + c


def all_values(arrays, matrices, rows, columns, over):
    """The numbers of A, B and C of all arrays, array i's at the first k and the first k' elements of the point."""
    pairs = zip(arrays, matrices, strict=True)
    return [values(three, rows[: a.row_bits], columns[: a.column_bits], over) for a, three in pairs]


def evaluate(key, rows, columns, over=F_P):
    """The numbers of A, B and C of all arrays at a point."""
    judge_point(key.row_bits, key.column_bits, rows, columns, over)
    return all_values(key.arrays, unrolled(key.arrays), over.elements(rows), over.elements(columns), over)


def laid(triples, sheet):
    """The sheet with the numbers of all arrays at its beginning. Refuses with 31."""
    numbers = [number for triple in triples for number in triple]
    require(len(sheet) >= len(numbers), 31, len(numbers))
    return numbers + sheet[len(numbers) :]


def evaluate_on(key_bytes, rows, columns, sheet, over=F_P):
    """The last array's numbers, the count of factors and the sheet afterwards. Refuses with 1 to 13, 21, 22, 23 and 31."""
    key = check(key_bytes)
    triples = evaluate(key, rows, columns, over)
    return triples[-1], factors(key), laid(triples, sheet)


def check_named(key_bytes, which):
    """The accepted key that the bytes are; a refusal also has which key it is about."""
    try:
        return check(key_bytes)
    except Refused as refusal:
        refusal.which = which
        raise


def compare_on(first, second, rows, columns, sheet, over=F_P):
    """Whether the matrices of two keys, filled with zeros to the larger shape, have the same numbers at a point, the factors of
    both keys, and the sheet afterwards. Refuses with 1 to 13 for the first key, then for the second, and then with 21, 22, 23,
    and 31 for the key with more arrays.
    """
    keys = check_named(first, "first"), check_named(second, "second")
    shape = larger_shape(*keys)
    judge_point(*shape, rows, columns, over)
    judge_places("larger shape", 2 ** sum(shape))
    matrices, point = [unrolled(key.arrays) for key in keys], (over.elements(rows), over.elements(columns))
    of_first, of_second = (all_values(key.arrays, each, *point, over) for key, each in zip(keys, matrices))
    laid(max(of_first, of_second, key=len), sheet)
    one, other = ([filled(matrix, *shape) for matrix in each[-1]] for each in matrices)
    same = values(one, *point, over) == values(other, *point, over)
    return same, factors_of_both(*keys), laid(of_second, laid(of_first, sheet))
