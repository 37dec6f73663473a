"""The cases in which evaluate refuses over p², about each number's edge and in 01's order."""

import itertools

from tests.draw.numbers import drawn_point, numbered
from tests.model.fields import P, TOP
from tests.model.words import byte_words, key, refused

from ..keys import FAULTY, SAMPLE, SQUARE, pair, single
from ..refusals import first_refusal
from .shared import point_of


def count_cases(cases, draw):
    """Numbers 21 and 22: counts that differ from 2n and 2n' by one number, by one pair and otherwise."""
    for bits in ((3, 2), (0, 0), (0, 2), (3, 0), (30, 30)):
        text, point = single(bits, (0, 0), (1, 2, 3)), point_of(draw, bits)
        for axis, n in enumerate(bits):
            counts = {0, 1, n, 2 * n - 2, 2 * n - 1, 2 * n + 1, 2 * n + 2, 4 * n, 2 * n + 256} - {2 * n}
            for count in sorted(count for count in counts if count >= 0):
                received = [draw.below(P) for _ in range(count)]
                cases.evaluate(text, *pair(axis, received, point[1 - axis]), refused(21 + axis, count))
    # As many numbers as the point has over p, and the two sides exchanged.
    text = single((3, 2), (0, 0), (1, 2, 3))
    cases.evaluate(text, *drawn_point(draw, (3, 2)), refused(21, 3))
    cases.evaluate(text, *reversed(point_of(draw, (3, 2))), refused(21, 4))


def number_cases(cases, draw):
    """Number 23: every number of a point at fault, alone and with a later one, and p - 1, which passes."""
    text, (rows, columns) = single((2, 1), (1, 0), (1, 2, 3)), point_of(draw, (2, 1))
    for first, later in itertools.combinations_with_replacement(range(6), 2):
        for number in (P - 1, P, TOP):
            point = [number if i in (first, later) else r for i, r in enumerate([*rows, *columns])]
            cases.evaluate(text, point[:4], point[4:], refused(23, first) if number >= P else None)
    for index in (0, 1, 58, 59, 60, 61, 118, 119):
        point = [P if i == index else draw.below(P) for i in range(120)]
        cases.evaluate(single((30, 30), (0, 0), (1, 2, 3)), point[:60], point[60:], refused(23, index))


def sheet_cases(cases):
    """Number 31, and longer sheets: the places behind the arrays' stay."""
    for text, arrays, rows, columns in (
        (byte_words(SAMPLE), 2, (3, 5), (4, 6)),
        (single((0, 0), (0, 0), (1, 2, 3)), 1, (), ()),
    ):
        need = 6 * arrays
        for length in (0, 3 * arrays, need - 2, need - 1, need, need + 1, need + 6):
            wanted = refused(31, need) if length < need else None
            for sheet in ([TOP] * length, numbered(length)):
                cases.evaluate(text, rows, columns, wanted, sheet)
    most = "head 0 0, 1024 times sparse 0 0, cell 0 0 1 2 3, end"
    values = [(0,) * 6] * 1023 + [(1, 0, 2, 0, 3, 0)]
    for length in (3072, 6143, 6144, 6150):
        cases.evaluate(most, (), (), refused(31, 6144) if length < 6144 else values, [7] * length)


def evaluate_orders(cases):
    """The order, check, 21, 22, 23, 31, for every choice of faults; and check's own numbers with everything at fault."""
    for key_fault, row_count, column_count, row, column, length in itertools.product(
        (False, True), (3, 4, 6), (2, 4, 5), (4, P), (4, TOP), (11, 12)
    ):
        faults = (
            (key_fault, 13, len(key(SQUARE))),
            (row_count != 4, 21, row_count),
            (column_count != 4, 22, column_count),
            (row >= P, 23, 3),
            (column >= P, 23, 7),
            (length < 12, 31, 12),
        )
        rows, columns = [3] * (row_count - 1) + [row], [5] * (column_count - 1) + [column]
        text = f"{SQUARE}, bytes 00" if key_fault else SQUARE
        cases.evaluate(text, rows, columns, first_refusal(faults), numbered(length))
    for number, (text, place) in FAULTY.items():
        cases.evaluate(text, (3, 4), (), refused(number, place), numbered(12))
        cases.evaluate(text, (P,), (P,), refused(number, place), numbered(1))
