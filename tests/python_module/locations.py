"""The cell in which two keys differ: of several the one that the point leads to, cells beyond a key's own shape, keys of one
place, keys that are the same, and what the answer is.
"""

import array
import itertools
import pickle

from tests.draw.keys import encoded
from tests.draw.numbers import Draw, drawn_point

from . import samples
from .subject import morgana

P = morgana.P
HALF = (P + 1) // 2
ZERO = 0, 0, 0


def found_at(row, column, first, second):
    """The answer for a cell, by both keys' A, B and C there."""
    values = (morgana.Values(a=a, b=b, c=c) for a, b, c in (first, second))
    return morgana.DifferingCell(row, column, *values)


def cells_of(bits, *cells):
    """A key of one array, by the row, the column and the values of each cell."""
    return encoded([("head", bits), ("sparse", bits), *(("cell", cell) for cell in cells), ("end", ())])


def hold_several(hold):
    """Of several cells that differ: 0 before 1, from the lowest bit up, rows before columns, by what differs at the point."""
    for bits, point, places, wanted in (
        ((1, 1), ([5], [7]), [(0, 0), (1, 1)], (0, 0)),
        ((1, 1), ([5], [7]), [(1, 0), (0, 1)], (0, 1)),
        ((1, 1), ([5], [7]), [(1, 0), (1, 1)], (1, 0)),
        ((2, 0), ([5, 6], []), [(1, 0), (2, 0)], (2, 0)),
        ((3, 0), ([5, 6, 7], []), [(3, 0), (5, 0), (6, 0), (7, 0)], (6, 0)),
        ((0, 2), ([], [5, 6]), [(0, 1), (0, 2)], (0, 2)),
        ((2, 2), ([5, 6], [7, 8]), [(3, 0), (2, 3), (2, 1)], (2, 1)),
        # A cell that has no weight at the point is passed over.
        ((1, 1), ([5], [1]), [(0, 0), (1, 1)], (1, 1)),
        ((1, 1), ([5], [0]), [(0, 1), (1, 0)], (1, 0)),
        ((2, 0), ([5, 1], []), [(0, 0), (3, 0)], (3, 0)),
        # The cells of row 0 add up to zero where the column coordinate is 1/2, so that row 1 is answered.
        ((1, 1), ([5], [HALF]), [(0, 0, 1, 0, 0), (0, 1, P - 1, 0, 0), (1, 1, 1, 0, 0)], (1, 1)),
    ):
        cells = [(*place, 1, 2, 3) if len(place) == 2 else place for place in places]
        values = next(cell[2:] for cell in cells if cell[:2] == wanted)
        some, none = cells_of(bits, *cells), cells_of(bits)
        hold.equal(f"{places}", found_at(*wanted, values, ZERO), morgana.locate(some, none, *point))
        hold.equal(f"{places}, exchanged", found_at(*wanted, ZERO, values), morgana.locate(none, some, *point))


def hold_shapes(hold):
    """Keys of crossed shapes, thirty bits apart: zero beyond the rows of the one and beyond the columns of the other."""
    last = 2**30 - 1
    down, across = cells_of((30, 0), (last, 0, 1, 2, 3)), cells_of((0, 30), (0, last, 4, 5, 6))
    point = drawn_point(Draw(), (30, 30))
    hold.equal("across", found_at(0, last, ZERO, (4, 5, 6)), morgana.locate(down, across, *point))
    hold.equal("exchanged", found_at(0, last, (4, 5, 6), ZERO), morgana.locate(across, down, *point))
    point = point[0], [0] * 30
    hold.equal("down", found_at(last, 0, (1, 2, 3), ZERO), morgana.locate(down, across, *point))
    # Beyond its one row and one column a key without bits is zero, and not what it has there.
    one = cells_of((0, 0), (0, 0, 1, 2, 3))
    for place in ((1, 0), (0, 1), (1, 1)):
        other = cells_of((1, 1), (0, 0, 1, 2, 3), (*place, 1, 2, 3))
        hold.equal("beyond", found_at(*place, ZERO, (1, 2, 3)), morgana.locate(one, other, [5], [7]))


def hold_no_bits(hold):
    """Keys of one place: it is the cell, and the sheet is that of compare."""
    triples = ZERO, (1, 2, 3), (1, 2, 4), (0, 2, 3), (P - 1, 0, 0)
    for first, second in itertools.product(triples, repeat=2):
        keys = [cells_of((0, 0), (0, 0, *values)) for values in (first, second)]
        sheet = array.array("I", [9] * 4)
        wanted = None if first == second else found_at(0, 0, first, second)
        hold.equal("the one cell", wanted, morgana.locate(*keys, [], [], sheet))
        hold.equal("the sheet", [*second, 9], list(sheet))


def hold_same(hold):
    """None for keys that are the same at the point, equal or not, and the sheet as after compare."""
    pairs = itertools.product((samples.OLD, samples.NEW, samples.SCALED, samples.DOUBLED), repeat=2)
    cases = [(*pair, ([number], [4])) for pair in pairs for number in (0, 1, 3, P - 1)]
    cases += [(samples.OLD, samples.TALL, ([3, 5], [4])), (samples.LARGER, samples.WIDE, ([3, 5], [4, 6, 7]))]
    cases += [(samples.GREATEST, samples.GREATEST, ([2] * 30, [3] * 30))]
    # Keys that differ, at points where the cells that do have no weight, or add up to zero.
    cases += [(samples.OLD, samples.WRONG, ([1], [4])), (samples.OLD, samples.WRONG, ([3], [0]))]
    cases += [(samples.DISPLACED, samples.OLD, ([3, HALF], [4, 6, 7]))]
    for first, second, point in cases:
        sheets = [array.array("I", [9] * 8) for _ in range(2)]
        hold.true("same", morgana.compare(first, second, *point, sheets[0]).same)
        hold.equal("no cell", None, morgana.locate(first, second, *point, sheets[1]))
        hold.equal("the sheet", *map(list, sheets))


def hold_answers(hold):
    """What is found has names and is a tuple; its values are those of cell, and have no count of factors."""
    found = morgana.locate(samples.OLD, samples.WRONG, [3], [4])
    row, column, first, second = found
    hold.equal("a tuple", (0, 1, first, second), found)
    hold.equal("its type", morgana.DifferingCell, type(found))
    hold.equal("its names", ("row", "column", "first", "second"), found._fields)
    hold.equal("its types", [int, int, morgana.Values, morgana.Values], [*map(type, found)])
    for values, data in ((first, samples.OLD), (second, samples.WRONG)):
        hold.true("a cell's values", values == morgana.cell(data, row, column))
        hold.equal("factors", None, values.factors)
    hold.equal("pickled", found, pickle.loads(pickle.dumps(found)))
    hold.equal("its hash", hash(found), hash(tuple(found)))
    hold.true("its truth", found)


def hold_all(hold):
    """Everything of this file."""
    hold_several(hold)
    hold_shapes(hold)
    hold_no_bits(hold)
    hold_same(hold)
    hold_answers(hold)
