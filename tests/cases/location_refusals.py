"""The cases in which locate is refused, as compare is."""

import itertools

from tests.draw.numbers import drawn_point, numbered
from tests.model.fields import P

from .keys import FAULTY, ONE, SQUARE, TWO


def location_refusals(cases, draw):
    """What refuses locate, as compare: the keys' own numbers, 21 and 22 by the larger bits, 23 and 31, in this order."""
    for number, (text, place) in FAULTY.items():
        cases.locate(text, ONE, (P,), (), f"first refused {number} at {place}", [7])
        cases.locate(ONE, text, (P,), (), f"second refused {number} at {place}", [7])
    cases.locate(FAULTY[2][0], FAULTY[3][0], (), (), "first refused 2 at 27", [])
    for first, second in itertools.permutations((TWO, SQUARE)):
        for count in (0, 1, 3, 4):
            cases.locate(first, second, [P] * count, (), f"neither refused 21 at {count}", [7])
            cases.locate(first, second, [P] * 2, [P] * count, f"neither refused 22 at {count}", [7])
        for index in range(4):
            numbers = [P if i >= index else draw.below(P) for i in range(4)]
            cases.locate(first, second, numbers[:2], numbers[2:], f"neither refused 23 at {index}", [7])
        for length in range(8):
            point = drawn_point(draw, (2, 2))
            wanted = "neither refused 31 at 6" if length < 6 else None
            cases.locate(first, second, *point, wanted, numbered(length))
