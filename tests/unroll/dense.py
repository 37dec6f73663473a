"""The dense matrices of a key's arrays, written out in full, and their values at a point."""

import operator

from .fields import PRIME
from .keys import SPARSE

PARTS = 0, 1, 2  # A, B and C, in the order of a cell's values.


def dense(arrays, part):
    """The dense matrix A, B or C of every array, as lists: the number of array i at a place is [i][row][column]."""
    matrices = []
    for array in arrays:
        if array.kind == SPARSE:
            matrices.append(sparse_matrix(array, part))
        else:
            matrices.append(recursive_matrix(array, matrices))
    return matrices


def zero_matrix(array):
    """The matrix of an array's shape that is zero at every place."""
    return [[0] * 2**array.column_bits for _ in range(2**array.row_bits)]


def sparse_matrix(array, part):
    """At each place the sum of the values of all the array's cells there."""
    matrix = zero_matrix(array)
    for cell in array.cells:
        matrix[cell.row][cell.column] = (matrix[cell.row][cell.column] + cell.values[part]) % PRIME
    return matrix


def recursive_matrix(array, earlier):
    """The sum over the array's calls of the called matrices, multiplied by the call's factor, and moved down by a·2^K rows,
    right by a'·2^K' columns.
    """
    matrix = zero_matrix(array)
    for call in array.calls:
        called = earlier[call.id]
        down = call.row_position * len(called)
        right = call.column_position * len(called[0])
        for row, numbers in enumerate(called):
            for column, number in enumerate(numbers):
                total = matrix[down + row][right + column] + call.factor * number
                matrix[down + row][right + column] = total % PRIME
    return matrix


def filled(matrix, row_bits, column_bits):
    """The matrix of so many bits that has this one, of no more, in its first rows and columns, and is zero elsewhere."""
    rows = [[*numbers, *[0] * (2**column_bits - len(numbers))] for numbers in matrix]
    return rows + [[0] * 2**column_bits for _ in range(2**row_bits - len(matrix))]


def eq(whole, coordinates, over):
    """eq([whole]; coordinates) over a field: bit i of the whole number, lowest first, is paired with coordinate i."""
    one = over.embedded(1)
    product = one
    for i, coordinate in enumerate(coordinates):
        bit = whole >> i & 1
        product = over.product(product, coordinate if bit == 1 else over.difference(one, coordinate))
    return product


def weights(coordinates, over):
    """eq([x]; coordinates) for every x."""
    return [eq(x, coordinates, over) for x in range(2 ** len(coordinates))]


def extension(matrix, row_weights, column_weights, over):
    """The sum over all rows x and columns y of matrix(x, y) times their weights, row by row."""
    total = over.embedded(0)
    for numbers, weight in zip(matrix, row_weights, strict=True):
        across = [sum(map(operator.mul, numbers, part)) for part in zip(*column_weights)]
        total = over.sum(total, over.product(weight, across))
    return total
