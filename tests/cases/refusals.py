"""The cases in which evaluate and cell refuse, about each number's edge and in 01's order, and the sheet stays."""

import itertools

from tests.draw.changes import damaged
from tests.draw.keys import drawn_key, encoded
from tests.draw.numbers import drawn_place, drawn_point, numbered, spoiled
from tests.model.fields import P, TOP
from tests.model.words import byte_words, key, key_words, refused, words

from .keys import FAULTY, SAMPLE, SQUARE, pair, single

# 01, 'Edges': keys on both sides of each edge, with their bits and the refusal.
EDGES = (
    ("", (1, 1), (2, 0)),
    (single((30, 0), (5, 0), (1, 2, 3)), (30, 0), None),
    (single((31, 0), (5, 0), (1, 2, 3)), (31, 0), (5, 0)),
    (single((0, 30), (0, 5), (1, 2, 3)), (0, 30), None),
    (single((0, 31), (0, 5), (1, 2, 3)), (0, 31), (5, 0)),
    (single((0, 0), (0, 0), (P - 1, P - 1, P - 1)), (0, 0), None),
    (single((0, 0), (0, 0), (P - 1, P - 1, P)), (0, 0), (8, 6)),
    ("head 0 0, 3 times sparse 0 0, recursive 0 0, call 2 0 0, end", (0, 0), None),
    ("head 0 0, 3 times sparse 0 0, recursive 0 0, call 3 0 0, end", (0, 0), (9, 15)),
    ("head 3 0, sparse 1 0, cell 1 0 1 2 3, recursive 3 0, call 0 3 0, end", (3, 0), None),
    ("head 3 0, sparse 1 0, cell 1 0 1 2 3, recursive 3 0, call 0 4 0, end", (3, 0), (11, 30)),
)


def first_refusal(faults):
    """The refusal of the first fault that is there, if any; of each, whether it is there, its number and its place."""
    return next((refused(number, place) for there, number, place in faults if there), None)


def edge_cases(cases, draw):
    """01, 'Edges', through evaluate and cell."""
    for text, bits, refusal in EDGES:
        wanted = refused(*refusal) if refusal else None
        cases.evaluate(text, *drawn_point(draw, bits), wanted)
        cases.cell(text, 0, 0, wanted)
    longest = "head 30 30, 4 times sparse 30 30, 3120 times cell 1 2 3 4 5, bytes 0600"
    cases.evaluate(longest, *drawn_point(draw, (30, 30)), refused(1, 65536))
    cases.cell(longest, 1, 2, refused(1, 65536))


def key_faults(cases):
    """Check's refusals, through evaluate and cell, with nothing else at fault and with everything."""
    for number, (text, place) in FAULTY.items():
        wanted = refused(number, place)
        cases.evaluate(text, (3,), (), wanted, numbered(12))
        cases.cell(text, 0, 0, wanted, numbered(12))
        cases.evaluate(text, (P, P), (P,), wanted, numbered(1))
        cases.cell(text, TOP, TOP, wanted, numbered(1))
    for length in range(len(SAMPLE)):
        cases.evaluate(key_words(SAMPLE[:length]), (3,), (4,))
        cases.cell(key_words(SAMPLE[:length]), 0, 1)


def count_cases(cases, draw):
    """Numbers 21 and 22: counts about n and n', and a count that is greater by 256."""
    for bits in ((3, 2), (0, 0), (0, 2), (3, 0), (8, 9), (30, 30)):
        text, point = single(bits, (0, 0), (1, 2, 3)), drawn_point(draw, bits)
        for axis, n in enumerate(bits):
            for count in sorted({0, 1, n - 1, n + 1, 2 * n, bits[1 - axis], n + 256} - {-1, n}):
                received = [draw.below(P) for _ in range(count)]
                cases.evaluate(text, *pair(axis, received, point[1 - axis]), refused(21 + axis, count))
    cases.evaluate(single((3, 2), (0, 0), (1, 2, 3)), (4, 5), (6, 7, 8), refused(21, 2))


def coordinate_cases(cases, draw):
    """Number 23: every coordinate at fault, alone and with a later one, and p - 1, which passes."""
    text, (rows, columns) = single((3, 2), (5, 2), (1, 2, 3)), drawn_point(draw, (3, 2))
    for first, later in itertools.combinations_with_replacement(range(5), 2):
        for number in (P - 1, P, P + 1, TOP):
            point = [number if i in (first, later) else r for i, r in enumerate([*rows, *columns])]
            cases.evaluate(text, point[:3], point[3:], refused(23, first) if number >= P else None)
    for bits in ((0, 2), (2, 0), (30, 0), (30, 30)):
        n, count = bits[0], sum(bits)
        for index in sorted({0, 1, n - 1, n, count - 1} & set(range(count))):
            point = [P if i == index else draw.below(P) for i in range(count)]
            cases.evaluate(single(bits, (0, 0), (1, 2, 3)), point[:n], point[n:], refused(23, index))


def address_cases(cases):
    """Number 24: rows and columns about the edges of the last array, which has a cell at the edge."""
    for bits in ((0, 0), (1, 2), (3, 0), (0, 3), (30, 30)):
        edges = [2**n for n in bits]
        last = f"{words('sparse', bits)}, {words('cell', (edge - 1 for edge in edges))} 1 2 3"
        text = f"{words('head', bits)}, sparse 0 0, cell 0 0 4 5 6, {last}, end"
        for row, column in itertools.product(*((edge - 1, edge, edge + 1, TOP) for edge in edges)):
            wanted = first_refusal(((row >= edges[0], 24, 0), (column >= edges[1], 24, 1)))
            cases.cell(text, row, column, wanted or [(4, 5, 6), (1, 2, 3)])


def sheet_cases(cases):
    """Number 31, and longer sheets: what a place held does not matter, and the places behind the arrays' stay."""
    for text, arrays, rows, columns in (
        (byte_words(SAMPLE), 2, (3,), (4,)),
        (single((0, 0), (0, 0), (1, 2, 3)), 1, (), ()),
    ):
        need = 3 * arrays
        for length in (0, 1, 2, need - 1, need, need + 1, need + 3, need + 100):
            wanted = refused(31, need) if length < need else None
            for sheet in ([0] * length, [1] * length, [P] * length, [TOP] * length, numbered(length)):
                cases.evaluate(text, rows, columns, wanted, sheet)
                cases.cell(text, 0, 0, wanted, sheet)
    most = "head 0 0, 1024 times sparse 0 0, cell 0 0 1 2 3, end"
    values = [(0, 0, 0)] * 1023 + [(1, 2, 3)]
    for length in (0, 3, 3071, 3072, 3080):
        wanted = refused(31, 3072) if length < 3072 else values
        cases.evaluate(most, (), (), wanted, [7] * length)
        cases.cell(most, 0, 0, wanted, [7] * length)


def evaluate_orders(cases):
    """Evaluate's order, check, 21, 22, 23, 31, for every choice of faults."""
    for key_fault, row_count, column_count, row, column, length in itertools.product(
        (False, True), (1, 2, 3), (1, 2, 3), (4, P), (4, TOP), (5, 6)
    ):
        faults = (
            (key_fault, 13, len(key(SQUARE))),
            (row_count != 2, 21, row_count),
            (column_count != 2, 22, column_count),
            (row >= P, 23, 1),
            (column >= P, 23, 3),
            (length < 6, 31, 6),
        )
        rows, columns = [3] * (row_count - 1) + [row], [5] * (column_count - 1) + [column]
        text = f"{SQUARE}, bytes 00" if key_fault else SQUARE
        cases.evaluate(text, rows, columns, first_refusal(faults), numbered(length))


def cell_orders(cases):
    """Cell's order, check, 24, 31, for every choice of faults."""
    for key_fault, row, column, length in itertools.product((False, True), (2, 4), (2, 4), (5, 6)):
        faults = (
            (key_fault, 13, len(key(SQUARE))),
            (row > 3, 24, 0),
            (column > 3, 24, 1),
            (length < 6, 31, 6),
        )
        text = f"{SQUARE}, bytes 00" if key_fault else SQUARE
        cases.cell(text, row, column, first_refusal(faults), numbered(length))


def fault_sweep(cases, draw):
    """Drawn keys, whole and damaged, with drawn faults of the point, the place and the sheet."""
    for _ in range(25):
        records = drawn_key(draw)
        bits = records[0][1]
        for data in (encoded(records), *damaged(draw, records)):
            sheet = numbered(3 + draw.below(3 * len(records)))
            cases.evaluate(key_words(data), *(spoiled(draw, side) for side in drawn_point(draw, bits)), sheet=sheet)
            cases.cell(key_words(data), *drawn_place(draw, [n + draw.below(2) for n in bits]), sheet=sheet)


def refusal_cases(cases, draw):
    """01, 'Who can cause a refusal', for evaluate and cell."""
    edge_cases(cases, draw)
    key_faults(cases)
    count_cases(cases, draw)
    coordinate_cases(cases, draw)
    address_cases(cases)
    sheet_cases(cases)
    evaluate_orders(cases)
    cell_orders(cases)
    fault_sweep(cases, draw)
