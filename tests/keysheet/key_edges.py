"""Keys at the edges that the request names, as inputs of keysheet, each with what is printed for it."""

from random import Random

from .drawn import many_arrays
from .inputs import ACCEPTED, END, PRIME, Case, Input, call, cell, head, recursive, refused, scaled_head, sparse

# A key with one record of each kind of edition 1: the place of each record, and the key's length, are in PLACES.
RECORDS = [head(3, 2), sparse(1, 1), cell(1, 1, PRIME - 1, PRIME - 1, PRIME - 1), recursive(3, 2), call(0, 3, 1), END]
HEAD, SPARSE, CELL, RECURSIVE, CALL, LAST = range(6)
PLACES = [0, 3, 6, 27, 30, 41, 42]
ROWS, COLUMNS = [3, 5, 7], [11, 13]


def keyed(records, stated):
    """The case of a key of the shape of RECORDS at the point of ROWS and COLUMNS."""
    return Case(Input(ROWS, COLUMNS, records).written(), stated)


def changed(index, field, number, stated):
    """The case of RECORDS with one field changed."""
    records = list(RECORDS)
    records[index] = records[index].with_field(field, number)
    return keyed(records, stated)


def record_edges():
    """Keys cut at every length, kinds that are unknown, and records that are not allowed."""
    whole = Input(ROWS, COLUMNS, RECORDS).written()
    key_start = len(whole) - PLACES[-1]
    for length in range(PLACES[-1]):
        yield Case(whole[: key_start + length], refused(2, max(place for place in PLACES if place <= length)))
    for record, place in zip(RECORDS, PLACES):
        for kind in (0, 9, record.kind + 8, record.kind + 128, 255):
            damaged = whole[: key_start + place] + bytes([kind])
            yield Case(damaged, refused(3, place))
            yield Case(damaged + whole[len(damaged) :], refused(3, place))
    for record in RECORDS[1:]:
        yield keyed([record, *RECORDS], refused(4, 0))
    for index in (SPARSE, CELL, RECURSIVE, CALL, LAST):
        for second in (RECORDS[HEAD], scaled_head(3, 2)):
            yield keyed([*RECORDS[:index], second, *RECORDS[index:]], refused(4, PLACES[index]))
    for record in (RECORDS[CELL], RECORDS[CALL], END):
        yield keyed([RECORDS[HEAD], record, *RECORDS[1:]], refused(4, 3))
    yield keyed([*RECORDS[:CALL], RECORDS[CELL], *RECORDS[CALL:]], refused(4, 30))
    yield keyed([*RECORDS[:CELL], RECORDS[CALL], *RECORDS[CELL:]], refused(4, 6))
    for behind in (END, RECORDS[CELL], RECORDS[HEAD], scaled_head(3, 2)):
        yield keyed([*RECORDS, behind], refused(13, 42))
    for behind in (b"\0", b"\6", b"\xff" * 1000):
        yield Case(whole + behind, refused(13, 42))


def field_edges():
    """Each field of a record at its limit, with the neighbour that passes."""
    yield keyed(RECORDS, ACCEPTED)
    for field in (0, 1):
        yield changed(HEAD, field, 31, refused(5, 0))
        yield changed(HEAD, field, 255, refused(5, 0))
        yield changed(SPARSE, field, RECORDS[HEAD].fields[field] + 1, refused(5, 3))
        yield changed(RECURSIVE, field, RECORDS[HEAD].fields[field] + 1, refused(5, 27))
        yield changed(CELL, field, 2, refused(7, 6))
        yield changed(CELL, field, 2**32 - 1, refused(7, 6))
    for field in (2, 3, 4):
        yield changed(CELL, field, PRIME, refused(8, 6))
        yield changed(CELL, field, 2**32 - 1, refused(8, 6))
    for number in (1, 2, 256, 2**16 - 1):
        yield changed(CALL, 0, number, refused(9, 30))
    for field, limit in ((1, 4), (2, 2)):
        for number in (limit, limit + 1, 2**31, 2**32 - 1):
            yield changed(CALL, field, number, refused(11, 30))
    openings = [sparse(0, 0), recursive(0, 0)] * 2
    for called, stated in ((2, ACCEPTED), (3, refused(9, 15))):
        yield Case(Input([], [], [head(0, 0), *openings, call(called), END]).written(), stated)


def shape_edges():
    """Called arrays that are larger, last arrays of another shape, and the greatest numbers of bits."""
    for shape, stated in (((1, 1), ACCEPTED), ((0, 1), refused(10, 30)), ((1, 0), refused(10, 30))):
        yield keyed([*RECORDS[:3], recursive(*shape), call(0), recursive(3, 2), END], stated)
    for shape in ((0, 2), (3, 0), (0, 0)):
        yield keyed([*RECORDS[:3], recursive(*shape), call(0), END], refused(10, 30))
    for last in (recursive, sparse):
        for shape, stated in (((3, 2), ACCEPTED), ((2, 2), refused(12, 30)), ((3, 1), refused(12, 30))):
            yield keyed([*RECORDS[:3], last(*shape), END], stated)
    yield keyed([head(3, 2), sparse(3, 2), sparse(0, 0), END], refused(12, 9))
    yield keyed([head(3, 2), sparse(3, 2), recursive(3, 2), call(0), END], ACCEPTED)
    yield keyed([head(3, 2), sparse(3, 2), recursive(3, 2), call(0, 1), END], refused(11, 9))
    yield keyed([head(3, 2), sparse(3, 2), recursive(3, 2), call(0, 0, 1), END], refused(11, 9))
    yield from greatest_bits()
    for count, stated in ((1023, ACCEPTED), (1024, ACCEPTED), (1025, refused(6, 3 + 1024 * 3))):
        arrays = [sparse(0, 0)] * count
        yield Case(Input([], [], [head(0, 0), *arrays, END]).written(), stated)
    for seed in range(3):
        yield Case(many_arrays(Random(seed), 1024).written(), ACCEPTED)
        yield Case(many_arrays(Random(seed), 1025).written(), "refused 6 at ")


def greatest_bits():
    """Keys of thirty row and thirty column bits: accepted by the check, and refused for their point."""
    top = 2**30 - 1
    one = sparse(0, 0), cell(0, 0)
    bodies = [
        ([sparse(30, 30), cell(top, top)], None),
        ([sparse(30, 30), cell(top + 1, top)], refused(7, 6)),
        ([sparse(30, 30), cell(top, top + 1)], refused(7, 6)),
        ([*one, recursive(30, 30), call(0, top, top)], None),
        ([*one, recursive(30, 30), call(0, top + 1, top)], refused(11, 30)),
        ([*one, recursive(30, 30), call(0, top, top + 1)], refused(11, 30)),
        ([*one, recursive(30, 29), call(0, top, top // 2)], refused(12, 41)),
    ]
    ones = [1] * 30
    points = [
        (ones[1:], ones, refused(21, 29)),
        (ones, [*ones, 1], refused(22, 31)),
        ([*ones[1:], PRIME], ones, refused(23, 29)),
        (ones, [*ones[1:], PRIME], refused(23, 59)),
    ]
    for body, stated in bodies:
        for rows, columns, point_stated in points:
            yield Case(Input(rows, columns, [head(30, 30), *body, END]).written(), stated or point_stated)


def order_edges():
    """Inputs with two faults, of which the first in the request's order counts."""
    point = [PRIME], [PRIME]
    yield Case(Input(*point, [head(31, 0)]).written(), refused(5, 0))
    yield Case(Input(*point, [head(0, 0), sparse(0, 0), END]).written(), refused(21, 1))
    yield Case(Input(*point, [head(1, 0), sparse(1, 0), END]).written(), refused(22, 1))
    yield Case(Input(*point, [head(1, 1), sparse(1, 1), END]).written(), refused(23, 0))
    yield Case(Input(*point, [head(1, 1), sparse(1, 1), END, END]).written(), refused(13, 7))
    yield Case(Input([], [], RECORDS).written()[:-1], refused(2, 41))
    whole = [head(1, 1), sparse(0, 1), cell(0, 0), recursive(1, 1)]
    for last, stated in [
        (cell(9, 9, PRIME), refused(4, 30)),
        (call(1, 9, 9), refused(9, 30)),
        (call(0, 2, 1), refused(11, 30)),
    ]:
        yield Case(Input([3], [4], [*whole, last, END]).written(), stated)
    yield Case(Input([3], [4], [*whole[:2], cell(1, 0, PRIME), END]).written(), refused(7, 6))
    yield Case(Input([3], [4], [*whole[:2], recursive(1, 0), call(0, 9, 9), END]).written(), refused(10, 9))
    yield Case(Input([3], [4], [*whole[:2], END, END]).written(), refused(12, 6))
    yield Case(Input([3], [4], [head(1, 1), END, END]).written(), refused(4, 3))
    arrays = [sparse(0, 0)] * 1024
    yield Case(Input([], [], [head(0, 0), *arrays, sparse(1, 1), END]).written(), refused(6, 3075))
    yield Case(Input([], [], [head(0, 0), *arrays, head(31, 31), END]).written(), refused(4, 3075))
    for index, place in enumerate(PLACES[:-1]):
        before = Input(ROWS, COLUMNS, RECORDS[:index]).written()
        for record in RECORDS[:LAST]:
            yield Case(before + record.written()[:-1], refused(2, place))


def key_edges():
    """Every case of this file."""
    yield from record_edges()
    yield from field_edges()
    yield from shape_edges()
    yield from order_edges()
