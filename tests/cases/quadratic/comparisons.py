"""The cases of compare over p²: what is said, the sheets, and every refusal with the key that it names."""

import itertools

from tests.draw.numbers import drawn_edges, drawn_point, numbered
from tests.model.fields import P, with_zeros
from tests.model.words import words

from ..keys import (
    ACROSS,
    CIRCUIT,
    FAULTY,
    NONE,
    ONE,
    REWRITTEN,
    THREE,
    TWO,
    keyed,
    last_place,
    of_cells,
    pair,
    part,
    single,
)
from ..products import HALF
from .shared import BOTH, I, MINUS_I, UNIT, ZERO, point_of


def same_cases(cases, draw):
    """One circuit that is written in several ways, and one cell more in A, in B and in C."""
    for i, arrays in enumerate(REWRITTEN):
        cases.compare(*pair(i % 2, keyed(CIRCUIT), keyed(arrays)), *point_of(draw, (2, 1)), "same")
    for place, which in itertools.product(((0, 0), (3, 0), (0, 1), (3, 1)), range(3)):
        other = keyed(f"{CIRCUIT}, {words('cell', (*place, *part(which, 1 + draw.below(P - 1))))}")
        cases.compare(*pair(which % 2, keyed(CIRCUIT), other), *point_of(draw, (2, 1)), "different")
    # Points over p: the old answers.
    for rows, columns in (drawn_point(draw, (2, 1)), drawn_edges(draw, (2, 1))):
        cases.compare(keyed(CIRCUIT), keyed(REWRITTEN[0]), with_zeros(rows), with_zeros(columns), "same")


def root_cases(cases):
    """1 + r·s against none, r and s being the two coordinates: the same exactly where r·s is -1."""
    zeros = (I, I), (MINUS_I, MINUS_I), (UNIT, (P - 1, 0)), ((P - 1, 0), UNIT)
    for bits, which in itertools.product(((2, 0), (1, 1), (0, 2)), range(3)):
        *others, last = itertools.product(*(range(2**n) for n in bits))
        cells = [*((place, part(which, 1)) for place in others), (last, part(which, 2))]
        keys = pair(which % 2, of_cells(bits, cells), of_cells(bits, []))
        for r, s in itertools.product((UNIT, I, MINUS_I, (P - 1, 0), BOTH), repeat=2):
            numbers, n = (*r, *s), 2 * bits[0]
            cases.compare(*keys, numbers[:n], numbers[n:], "same" if (r, s) in zeros else "different")
    # Values that differ in v alone: those of the cells 1 and 2, weighed by i.
    one, two = (single((1, 0), (1, 0), (0, value, 0)) for value in (1, 2))
    cases.compare(one, two, I, (), "different")
    cases.compare(one, two, ZERO, (), "same")


def unused_root_cases(cases):
    """1 in a key of no bits, weighed by (1 - r)(1 - s), against 1 and -1 at the last place of a larger one, weighed by r·s. At
    (1 + i)/2 the unused 1 - r is -i·r, and at (1 - i)/2 it is i·r: so at two points the products are equal, else opposite.
    """
    up, down = (HALF, HALF), (HALF, P - HALF)
    for bits, which in itertools.product(((2, 0), (1, 1), (0, 2)), range(3)):
        last, n = last_place(bits), 2 * bits[0]
        for r, s, value in itertools.product((up, down), (up, down), (1, P - 1)):
            keys = pair(which % 2, single((0, 0), (0, 0), part(which, 1)), single(bits, last, part(which, value)))
            wanted = "same" if (r != s) == (value == 1) else "different"
            cases.compare(*keys, (*r, *s)[:n], (*r, *s)[n:], wanted)


def compared_sheets(cases):
    """Number 31 for the key with more arrays, and what sheets hold: the second key's numbers, then those of the first."""
    for (one, arrays), (other, others) in itertools.product({ONE: 1, TWO: 2, THREE: 3}.items(), repeat=2):
        need = 6 * max(arrays, others)
        for length in sorted({0, need // 2, 6 * min(arrays, others), need - 1, need, need + 4}):
            wanted = f"neither refused 31 at {need}" if length < need else None
            cases.compare(one, other, (5, 7), (), wanted, numbered(length))
    first = f"{P - 28} {P - 49} {P - 32} {P - 56} {P - 36} {P - 63}"
    cases.compare(ONE, TWO, (5, 7), (), f"different sheet 7 0 8 0 9 0 {first} 113", numbered(13))
    cases.compare(TWO, ONE, (5, 7), (), f"different sheet 5 7 10 14 15 21 {first} 113", numbered(13))
    # Shapes that are unequal: each key's numbers at its own coordinates, which nothing multiplies.
    cases.compare(NONE, TWO, (5, 7), (), f"same sheet 7 0 8 0 9 0 {first} 113", numbered(13))
    cases.compare(TWO, NONE, (5, 7), (), f"same sheet 7 0 8 0 9 0 {first} 113", numbered(13))
    cases.compare(ONE, NONE, (5, 7), (), "different sheet 7 0 8 0 9 0 107", numbered(7))
    cases.compare(ONE, ACROSS, (5, 7), (2, 3), "different sheet 2 3 4 6 6 9 107", numbered(7))
    cases.compare(ACROSS, ONE, (5, 7), (2, 3), "different sheet 5 7 10 14 15 21 107", numbered(7))
    cases.compare(TWO, NONE, (5, 7), (), "neither refused 31 at 12", numbered(11))


def compare_orders(cases):
    """Compare's order, for each fault alone, each two of them, and each with all behind it, on shapes that are equal and that
    are not.
    """
    wanted = (
        "first refused 13 at 7",
        "second refused 12 at 9",
        "neither refused 21 at 5",
        "neither refused 22 at 2",
        "neither refused 23 at 3",
        "neither refused 23 at 7",
        "neither refused 31 at 18",
    )
    pairs = itertools.combinations_with_replacement(range(7), 2)
    chosen = dict.fromkeys((*map(frozenset, pairs), *(frozenset(range(i, 7)) for i in range(7))))
    for faults, (one, other) in itertools.product(chosen, (("2 2", "2 2"), ("2 2", "2 1"), ("2 1", "1 2"))):
        first = f"head {one}, sparse {one}, end{', end' if 0 in faults else ''}"
        second = f"head {other}, 2 times sparse 0 0, {'' if 1 in faults else f'sparse {other}, '}end"
        rows = [3, 4, 5, P if 4 in faults else 6, *([7] if 2 in faults else [])]
        columns = [8, 9, 10, P if 5 in faults else 11][: 2 if 3 in faults else 4]
        cases.compare(first, second, rows, columns, wanted[min(faults)], numbered(17 if 6 in faults else 18))


def key_faults(cases):
    """Check's numbers, in the first key and in the second."""
    for number, (text, place) in FAULTY.items():
        cases.compare(text, ONE, (3, 4), (), f"first refused {number} at {place}", numbered(12))
        cases.compare(ONE, text, (P,), (P,), f"second refused {number} at {place}", numbered(1))
