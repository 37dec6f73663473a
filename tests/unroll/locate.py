"""A cell in which two keys differ: the matrix of their differences, written out in full, is halved until one place is left."""

from .calls import compare_on, laid, unrolled, values
from .dense import filled
from .fields import F_P, PRIME
from .keys import check, larger_shape


def difference(one, other):
    """The matrix of the numbers of one matrix less those of another of the same shape."""
    lines = zip(one, other, strict=True)
    return [[(x - y) % PRIME for x, y in zip(line, others, strict=True)] for line, others in lines]


def every_other_row(matrix, first):
    """The matrix of the rows whose lowest bit is this one."""
    return matrix[first::2]


def every_other_column(matrix, first):
    """The matrix of the columns whose lowest bit is this one."""
    return [line[first::2] for line in matrix]


class Remaining:
    """What is left of the difference of two keys: its matrices of A, B and C, the numbers of their rows and of their columns,
    and the coordinates that these have.
    """

    def __init__(self, matrices, rows, columns, point):
        self.matrices, self.rows, self.columns, self.point = matrices, rows, columns, point

    def vanishes(self):
        """Whether the extensions of all three matrices are zero at the coordinates."""
        return not any(values(self.matrices, *self.point, F_P))

    def by_row(self, bit):
        """What is left where the first row coordinate is this bit."""
        matrices = [every_other_row(matrix, bit) for matrix in self.matrices]
        return Remaining(matrices, self.rows[bit::2], self.columns, (self.point[0][1:], self.point[1]))

    def by_column(self, bit):
        """What is left where the first column coordinate is this bit."""
        matrices = [every_other_column(matrix, bit) for matrix in self.matrices]
        return Remaining(matrices, self.rows, self.columns[bit::2], (self.point[0], self.point[1][1:]))

    def place(self):
        """The row and the column that are left where each half is that of 0, or that of 1 where that of 0 vanishes."""
        rest = self
        while len(rest.rows) > 1:
            rest = rest.by_row(rest.by_row(0).vanishes())
        while len(rest.columns) > 1:
            rest = rest.by_column(rest.by_column(0).vanishes())
        return rest.rows[0], rest.columns[0]


def at_place(matrices, row, column):
    """The numbers of A, B and C of an array at as many low bits of a row and of a column as it has."""
    return tuple(matrix[row % len(matrix)][column % len(matrix[0])] for matrix in matrices)


def locate_on(first, second, rows, columns, sheet):
    """A cell in which the matrices of two keys, filled with zeros to the larger shape, differ: its row, its column and the
    numbers of each key there; or None where they have the same numbers at a point. And the sheet afterwards. Refuses as
    compare_on does.
    """
    same, _, after = compare_on(first, second, rows, columns, sheet)
    if same:
        return None, after
    keys = check(first), check(second)
    shape, matrices = larger_shape(*keys), [unrolled(key.arrays) for key in keys]
    one, other = ([filled(matrix, *shape) for matrix in each[-1]] for each in matrices)
    numbers = (range(2**bits) for bits in shape)
    row, column = Remaining([*map(difference, one, other)], *numbers, (F_P.elements(rows), F_P.elements(columns))).place()
    cell = row, column, at_place(one, row, column), at_place(other, row, column)
    of_first, of_second = ([at_place(each, row, column) for each in arrays] for arrays in matrices)
    return cell, laid(of_second, laid(of_first, sheet))
