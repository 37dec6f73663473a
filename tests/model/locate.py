"""What locate answers, in words: two keys are compared at a point, and then at others that have one bit more each, until the
point is a row and a column.
"""

from .calls import read_pair, verdict, written
from .dense import dense, triples
from .records import Refusal
from .words import outcome, refused


def located(row, column, values):
    """A cell in which two keys differ, with A, B and C of each there, as the program prints it."""
    first, second = (" ".join(map(str, each)) for each in values)
    return f"different at row {row} column {column} first {first} second {second}"


def number_of(bits):
    """The number that has these bits, lowest first."""
    return sum(bit << i for i, bit in enumerate(bits))


class Pair:
    """Two keys to be compared at several points: the bits of their heads, and the arrays and the dense forms of each."""

    def __init__(self, heads, keys):
        self.heads = heads
        self.keys = keys
        self.forms = [dense(arrays) for arrays in keys]

    def known(self, point):
        """Each array's A, B and C of each key at a point: row coordinates and column coordinates."""
        return [triples(arrays, forms, *point) for arrays, forms in zip(self.keys, self.forms)]

    def same(self, point):
        """Whether compare finds the keys the same at a point."""
        return verdict(self.heads, self.known(point), *point) == "same"

    def values(self, row, column):
        """A, B and C of each key's last array in a cell, which are zero where the key has no such place."""
        return [forms[-1].get((row, column), (0, 0, 0)) for forms in self.forms]


def bits_by_points(pair, rows, columns):
    """The bits that are put for the coordinates of a point, from the first row coordinate to the last column coordinate: 0,
    and 1 where two keys are the same with 0 there, the bits before it and the coordinates behind it.
    """
    numbers, middle = [*rows, *columns], len(rows)
    for i in range(len(numbers)):
        numbers[i] = 0
        if pair.same((numbers[:middle], numbers[middle:])):
            numbers[i] = 1
    return numbers[:middle], numbers[middle:]


def locate(first, second, rows, columns, sheet):
    """What locating a difference of two keys at a point answers, and the sheet afterwards."""
    try:
        pair = Pair(*read_pair(first, second, rows, columns, sheet))
    except Refusal as refusal:
        *cause, which = refusal.args
        return outcome(f"{which} {refused(*cause)}", sheet)
    point, answer = (rows, columns), "same"
    if not pair.same(point):
        point = bits_by_points(pair, rows, columns)
        row, column = map(number_of, point)
        answer = located(row, column, pair.values(row, column))
    one, other = pair.known(point)
    return outcome(answer, written(other, written(one, sheet)))
