"""Drawn pairs of keys of any shapes, in which both models locate a difference."""

import itertools

from tests.draw.changes import with_cells
from tests.draw.numbers import numbered, spoiled
from tests.model.fields import PRIME
from tests.model.locate import locate, located
from tests.model.words import outcome, refused
from tests.unroll.calls import compare_on, unrolled
from tests.unroll.dense import filled
from tests.unroll.keys import Refused, check, larger_shape
from tests.unroll.locate import locate_on

from .holding import Failed, hold
from .pairs import NAMED, SHAPES, differing, drawn_counts, hold_drawn_pairs, others

# What must occur, with the least number of times: the refusals of either key; for each difference of shapes the answers and the
# refusals of neither key; and cells beyond the rows of a key, beyond its columns and beyond both, cells behind others that
# differ, and cells whose row is the greater number, and whose column is.
ANSWERED = {*itertools.product(SHAPES, ("same", "different"))}
JUDGED = {*itertools.product(SHAPES, (21, 22, 23, 31))}
CELLS = {"beyond rows", "beyond columns", "beyond both", "not the first", "row greater", "column greater"}
OUTCOMES = (NAMED, 1), (ANSWERED, 20), (JUDGED, 1), (CELLS, 20)


def unrolled_location(first, second, rows, columns, sheet):
    """What tests/unroll answers, as tests/model words it, the cell or None, the kind of outcome, and the key that a refusal
    names.
    """
    try:
        cell, after = locate_on(first, second, rows, columns, sheet)
    except Refused as refusal:
        answer = f"{refusal.which} {refused(refusal.number, refusal.place)}"
        return outcome(answer, sheet), None, refusal.number, refusal.which
    if cell is None:
        return outcome("same", after), None, "same", "neither"
    row, column, *both = cell
    return outcome(located(row, column, both), after), cell, "different", "neither"


def filled_cells(key, shape):
    """A, B and C of a key's last array at each place of a shape, filled with zeros, by row and column."""
    parts = [filled(matrix, *shape) for matrix in unrolled(key.arrays)[-1]]
    return [list(zip(*lines, strict=True)) for lines in zip(*parts, strict=True)]


def bits_of(number, count):
    """The bits of a number, lowest first."""
    return [number >> i & 1 for i in range(count)]


def hold_way(keys, point, cell, about):
    """Raises Failed unless each bit of the cell's row, lowest first, and then of its column, is 0 exactly where the keys are
    different with 0 for its coordinate, the bits before it and the coordinates behind it.
    """
    numbers, middle = [*point[0], *point[1]], len(point[0])
    bits = bits_of(cell[0], middle) + bits_of(cell[1], len(numbers) - middle)
    for i, bit in enumerate(bits):
        tried = [*bits[:i], 0, *numbers[i + 1 :]]
        same, *_ = compare_on(*keys, tried[:middle], tried[middle:], numbered(36))
        hold("the way", bit, int(same), f"{about}, coordinate {i}")


def hold_cell(keys, point, cell, counts, about):
    """Raises Failed unless both keys have in a cell what it says, and not the same, and unless it is where its way ends."""
    row, column, first, second = cell
    accepted = [*map(check, keys)]
    one, other = (filled_cells(key, larger_shape(*accepted)) for key in accepted)
    hold("the values", [first, second], [one[row][column], other[row][column]], about)
    if first == second:
        raise Failed(f"{about}: the answered cell, row {row} and column {column}, does not differ")
    hold_way(keys, point, cell, about)
    count_cell(counts, accepted, (one, other), row, column)


def turned(number, count):
    """The number whose bits are those of this one in the other order."""
    return sum(bit << i for i, bit in enumerate(reversed(bits_of(number, count))))


def count_cell(counts, keys, cells, row, column):
    """Counts where an answered cell is: beyond a key's rows or columns, behind others that differ, and which of its numbers is
    the greater.
    """
    below = any(row >= 2**key.row_bits for key in keys)
    right = any(column >= 2**key.column_bits for key in keys)
    counts["beyond both" if below and right else "beyond rows" if below else "beyond columns" if right else "within"] += 1
    shape = larger_shape(*keys)
    places = itertools.product(*(range(2**bits) for bits in shape))
    differing_places = (place for place in places if cells[0][place[0]][place[1]] != cells[1][place[0]][place[1]])
    first = min(differing_places, key=lambda place: [*map(turned, place, shape)])
    counts["the first" if first == (row, column) else "not the first"] += 1
    counts["row greater" if row > column else "column greater" if column > row else "equal"] += 1


def compared(draw, records):
    """Keys in which a difference from a drawn one is located, as records: those that it is compared with, and as many with
    cells added, of its shape and of larger ones.
    """
    alike = others(draw, records)
    return [*alike, *(with_cells(draw, records, (draw.below(3), draw.below(3)), 1 + draw.below(3)) for _ in alike)]


def hold_pair(draw, pair, make_point, counts):
    """Locates a difference of two keys, each its bytes and its head's bits, by both models at a point, which may be spoiled."""
    keys, heads = zip(*pair)
    point = make_point(draw, drawn_counts(draw, heads, PRIME))
    rows, columns = point if draw.below(3) else (spoiled(draw, side) for side in point)
    sheet = numbered(draw.below(24) + 3)
    wanted, cell, kind, which = unrolled_location(*keys, rows, columns, sheet)
    about = f"{keys[0].hex()} with {keys[1].hex()} at {rows} {columns} on {len(sheet)} places"
    hold("locate", locate(*keys, rows, columns, sheet), wanted, about)
    counts[which if which != "neither" else differing(*map(check, keys)), kind] += 1
    if cell:
        hold_cell(keys, (rows, columns), cell, counts, about)


def hold_locations():
    """Holds all drawn pairs, and returns how many there were."""
    return hold_drawn_pairs("locate", compared, hold_pair, OUTCOMES)
