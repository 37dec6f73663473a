"""The cases of what refuses compare and in which order (01, 'Who can cause a refusal' and 'Order'), and of its sheets."""

import itertools

from tests.draw.numbers import drawn_point, numbered
from tests.model.fields import P, TOP

from .keys import ACROSS, FAULTY, NONE, ONE, THREE, TWO, pair, single


def key_fault_cases(cases):
    """Check's numbers, in the first key, in the second and in both, with nothing else at fault and with everything."""
    for number, (text, place) in FAULTY.items():
        fault = f"refused {number} at {place}"
        cases.compare(text, ONE, (3,), (), f"first {fault}", numbered(12))
        cases.compare(ONE, text, (3,), (), f"second {fault}", numbered(12))
        cases.compare(text, "head 0 1, sparse 0 1, end", (P, P), (P,), f"first {fault}", numbered(1))
        cases.compare("head 0 1, sparse 0 1, end", text, (P, P), (P,), f"second {fault}", numbered(1))
        cases.compare(text, text, (3,), (), f"first {fault}", numbered(12))
        other = FAULTY[(number + 5) % 13 + 1][0]
        cases.compare(text, other, (P, P), (P,), f"first {fault}", numbered(1))
    # The same number in both keys, at two places; the empty key.
    later = f"head 1 0, sparse 0 0, sparse 1 0, cell 0 0 1 2 {P}, end"
    cases.compare(later, FAULTY[8][0], (3,), (), "first refused 8 at 9")
    cases.compare(FAULTY[8][0], later, (3,), (), "first refused 8 at 6")
    cases.compare("", ONE, (3,), (), "first refused 2 at 0")
    cases.compare(ONE, "", (3,), (), "second refused 2 at 0")
    cases.compare("", "", (3,), (), "first refused 2 at 0")


def count_faults(cases, draw):
    """Numbers 21 and 22, and 23 for each coordinate, alone and with a later one; p - 1 passes."""
    first, second = (single((3, 2), (5, 2), values) for values in ((1, 2, 3), (1, 2, 4)))
    rows, columns = drawn_point(draw, (3, 2))
    for axis, n in enumerate((3, 2)):
        for count in (0, n - 1, n + 1, 5):
            received = [draw.below(P) for _ in range(count)]
            point = pair(axis, received, (rows, columns)[1 - axis])
            cases.compare(first, second, *point, f"neither refused {21 + axis} at {count}")
    for index, later in itertools.combinations_with_replacement(range(5), 2):
        for number in (P - 1, P + index) if index == later else (TOP,):
            point = [number if i in (index, later) else r for i, r in enumerate([*rows, *columns])]
            wanted = "different" if number < P else f"neither refused 23 at {index}"
            cases.compare(first, second, point[:3], point[3:], wanted)


def sheet_cases(cases):
    """Number 31 for the key with more arrays, and what sheets hold afterwards: the second key's numbers, then those of the
    first, then what was lent.
    """
    for (one, arrays), (other, others) in itertools.product({ONE: 1, TWO: 2, THREE: 3}.items(), repeat=2):
        need = 3 * max(arrays, others)
        for length in sorted({0, 3 * min(arrays, others), need - 1, need, need + 4}):
            wanted = f"neither refused 31 at {need}" if length < need else None
            cases.compare(one, other, (5,), (), wanted, numbered(length))
        cases.compare(one, other, (5,), (), None, [TOP] * need)
    two = f"{P - 28} {P - 32} {P - 36}"
    for first, second, places, wanted in (
        (ONE, TWO, 7, f"different sheet 7 8 9 {two} 107"),
        (TWO, ONE, 7, f"different sheet 5 10 15 {two} 107"),
        (ONE, THREE, 9, "same sheet 1 2 3 0 0 0 5 10 15"),
        (THREE, ONE, 10, "same sheet 5 10 15 0 0 0 5 10 15 110"),
        (TWO, THREE, 9, "different sheet 1 2 3 0 0 0 5 10 15"),
        (THREE, TWO, 10, f"different sheet 7 8 9 {two} 5 10 15 110"),
        (ONE, TWO, 4, "neither refused 31 at 6 sheet 101 102 103 104"),
        (TWO, ONE, 4, "neither refused 31 at 6 sheet 101 102 103 104"),
    ):
        cases.compare(first, second, (5,), (), wanted, numbered(places))


def unequal_sheets(cases):
    """What sheets hold where shapes are unequal: each key's numbers at its own coordinates, which nothing multiplies."""
    two = f"{P - 28} {P - 32} {P - 36}"
    for first, second, places, wanted in (
        (NONE, TWO, 7, f"same sheet 7 8 9 {two} 107"),
        (TWO, NONE, 7, f"same sheet 7 8 9 {two} 107"),
        (NONE, ONE, 4, "different sheet 5 10 15 104"),
        (ONE, NONE, 4, "different sheet 7 8 9 104"),
        (THREE, NONE, 9, "different sheet 7 8 9 0 0 0 5 10 15"),
        (NONE, THREE, 8, "neither refused 31 at 9 sheet 101 102 103 104 105 106 107 108"),
        (THREE, NONE, 8, "neither refused 31 at 9 sheet 101 102 103 104 105 106 107 108"),
    ):
        cases.compare(first, second, (5,), (), wanted, numbered(places))
    # A key of one column bit, at the column 5, with one of one row bit, at the row 7.
    two = f"{P - 42} {P - 48} {P - 54}"
    cases.compare(ACROSS, TWO, (7,), (5,), f"different sheet 7 8 9 {two} 107", numbered(7))
    cases.compare(TWO, ACROSS, (7,), (5,), f"different sheet 5 10 15 {two} 107", numbered(7))
    cases.compare(ACROSS, TWO, (7,), (5,), "neither refused 31 at 6", numbered(5))


def order_cases(cases):
    """Compare's order, for each fault alone, each two of them, and each with all behind it, on shapes that are equal and that
    are not.
    """
    wanted = (
        "first refused 13 at 7",
        "second refused 12 at 9",
        "neither refused 21 at 3",
        "neither refused 22 at 0",
        "neither refused 23 at 1",
        "neither refused 23 at 3",
        "neither refused 31 at 9",
    )
    pairs = itertools.combinations_with_replacement(range(7), 2)
    chosen = dict.fromkeys((*map(frozenset, pairs), *(frozenset(range(i, 7)) for i in range(7))))
    for faults, (one, other) in itertools.product(chosen, (("2 2", "2 2"), ("2 2", "2 1"), ("2 1", "1 2"))):
        first = f"head {one}, sparse {one}, end{', end' if 0 in faults else ''}"
        second = f"head {other}, 2 times sparse 0 0, {'' if 1 in faults else f'sparse {other}, '}end"
        rows = [3, P if 4 in faults else 4, *([5] if 2 in faults else [])]
        columns = [6, P if 5 in faults else 7][: 0 if 3 in faults else 2]
        cases.compare(first, second, rows, columns, wanted[min(faults)], numbered(8 if 6 in faults else 9))


def comparison_refusals(cases, draw):
    """Every refusal of compare with the key that it names, the order of faults, and sheets that fit one key or both."""
    key_fault_cases(cases)
    count_faults(cases, draw)
    sheet_cases(cases)
    unequal_sheets(cases)
    order_cases(cases)
