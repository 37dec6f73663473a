"""Inputs of keysheet at the edges that the request names, each with what is printed for it, or how that begins."""

from random import Random

from .drawn import filled
from .edition_edges import edition_edges
from .inputs import ACCEPTED, END, PRIME, Case, Input, call, cell, head, recursive, refused, sparse
from .key_edges import COLUMNS, RECORDS, ROWS, key_edges, keyed

SAMPLE = bytes.fromhex(
    "01 01 03000000 04000000 010101 020001 04 00000000 01000000 05000000 07000000 00000000"
    "030101 05 0000 00000000 00000000 05 0000 00000000 00000000 06"
)
SAMPLE_PRINTED = (
    "key 53 bytes arrays 2 cells 1 calls 2 rows 1 columns 1\n"
    "0 20 28 0\n"
    "1 2147483567 2147483535 0\n"
)


def samples():
    """The evaluations whose numbers the request gives."""
    yield Case(SAMPLE, SAMPLE_PRINTED)
    five = [head(1, 0), sparse(1, 0), *[cell(0, 0, PRIME - 1)] * 5, END]
    yield Case(Input([2], [], five).written(), "key 112 bytes arrays 1 cells 5 calls 0 rows 1 columns 0\n0 5 0 0\n")
    twice = [head(0, 0), sparse(0, 0), cell(0, 0, PRIME - 1), cell(0, 0, 2), END]
    yield Case(Input([], [], twice).written(), "key 49 bytes arrays 1 cells 2 calls 0 rows 0 columns 0\n0 1 0 0\n")
    empty = [head(1, 1), recursive(1, 1), END]
    yield Case(Input([3], [4], empty).written(), "key 7 bytes arrays 1 cells 0 calls 0 rows 1 columns 1\n0 0 0 0\n")
    moved = [head(2, 0), sparse(1, 0), cell(0, 0, 9), recursive(2, 0), call(0, 1), END]
    lines = "key 42 bytes arrays 2 cells 1 calls 1 rows 2 columns 0\n0 2147483629 0 0\n1 2147483575 0 0\n"
    yield Case(Input([3, 4], [], moved).written(), lines)


def feeder_edges():
    """The edges of an input's length and of its two counts."""
    for length in range(10):
        yield Case(SAMPLE[:length], refused(41, length))
    yield Case(SAMPLE[:10], refused(2, 0))
    yield Case(bytes(2), refused(2, 0))
    for count in (1, 30, 31, 255):
        key = Input([], [], [head(0, 0), sparse(0, 0), END]).written()[2:]
        coordinates = bytes(4 * count)
        for counts, number in ((bytes([count, 0]), 21), (bytes([0, count]), 22)):
            yield Case(counts, refused(41, 2))
            yield Case(counts + coordinates[1:], refused(41, 1 + 4 * count))
            yield Case(counts + coordinates, refused(2, 0))
            yield Case(counts + coordinates + key, refused(number, count))
        yield Case(bytes([count, count]) + coordinates, refused(41, 2 + 4 * count))
        yield Case(bytes([count, count]) + coordinates * 2 + key, refused(21, count))
    yield keyed(RECORDS, ACCEPTED)
    for size in (65537, 65538, 200000):
        yield Case(filled(Random(size), 65536).written() + bytes(size - 65536), refused(42, 65536))
        yield Case(bytes(size), refused(42, 65536))
    yield Case(b"\xff" * 65536, refused(3, 0))
    for size in (65534, 65535, 65536):
        yield Case(filled(Random(size), size).written(), ACCEPTED)


def point_edges():
    """Counts of coordinates and coordinates at their limits."""
    for rows in ([], ROWS[:2], [*ROWS, 1]):
        yield Case(Input(rows, COLUMNS, RECORDS).written(), refused(21, len(rows)))
    for columns in ([], COLUMNS[:1], [*COLUMNS, 1]):
        yield Case(Input(ROWS, columns, RECORDS).written(), refused(22, len(columns)))
    for i in range(5):
        for number in (0, 1, PRIME - 1, PRIME, PRIME + 1, 2**32 - 1):
            point = [*ROWS, *COLUMNS]
            point[i] = number
            stated = ACCEPTED if number < PRIME else refused(23, i)
            yield Case(Input(point[:3], point[3:], RECORDS).written(), stated)


def evaluations():
    """Whole keys whose sums are p or a multiple of it, with matrices of many places, and with calls at many levels."""
    zeros = [head(1, 0), sparse(1, 0), cell(0, 0, 2, 1, 1), cell(0, 0, 0, PRIME - 1), cell(1, 0, 1, 0, 2**30), END]
    yield Case(Input([2], [], zeros).written(), "key 70 bytes arrays 1 cells 3 calls 0 rows 1 columns 0\n0 0 0 0\n")
    for row_bits, column_bits in ((12, 0), (0, 12), (6, 6), (9, 3)):
        corner = cell(2**row_bits - 1, 2**column_bits - 1, 2, 3, 4)
        records = [head(row_bits, column_bits), sparse(row_bits, column_bits), corner, cell(0, 0, 5, 6), END]
        point = list(range(2, row_bits + 2)), list(range(3, column_bits + 3))
        yield Case(Input(*point, records).written(), ACCEPTED)
    halves = [head(10, 0), sparse(0, 0), cell(0, 0, 1, 2, PRIME - 1)]
    for level in range(1, 11):
        halves += [recursive(level, 0), call(level - 1, 0), call(level - 1, 1), call(level - 1, 1)]
    yield Case(Input(list(range(7, 17)), [], [*halves, END]).written(), ACCEPTED)
    doubled = [head(0, 0), sparse(0, 0), cell(0, 0, 1, PRIME - 1, 3)]
    for level in range(1, 60):
        doubled += [recursive(0, 0), call(level - 1), call(level - 1)]
    yield Case(Input([], [], [*doubled, END]).written(), ACCEPTED)
    calls = [head(2, 1), sparse(1, 1), cell(1, 0, 8, 9), recursive(2, 1), *[call(0, 1), call(0)] * 2970, END]
    yield Case(Input([6, 7], [8], calls).written(), ACCEPTED)


def edges():
    """Every case of this file, of the edges of keys and of those of editions."""
    yield from samples()
    yield from feeder_edges()
    yield from point_edges()
    yield from key_edges()
    yield from edition_edges()
    yield from evaluations()
