"""Cases of edition 1 that are told once more in edition 2, where every call has factor 1: what is answered stays, and places
in a key are those of its longer calls.
"""

import re

from tests.model.records import Refusal, record_at
from tests.model.words import key

from ..keys import scaled


def later(text, place):
    """A place in a key of edition 1 in words, in that key in edition 2: each call before it has four bytes more."""
    data, at, calls = key(text), 0, 0
    try:
        while at < place:
            name, _, at = record_at(data, at)
            calls += name == "call"
    except Refusal:
        pass
    return place + 4 * calls


def moved_refusal(wanted, *texts):
    """What is worded of keys of edition 1, of those keys in edition 2: places in a key are moved."""
    if not isinstance(wanted, str):
        return wanted

    def moved(found):
        which, number, place = found[1] or "", int(found[2]), int(found[3])
        if 2 <= number <= 13:
            place = later(texts[which == "second "], place)
        return f"{which}refused {number} at {place}"

    return re.sub(r"^(first |second )?refused (\d+) at (\d+)", moved, wanted)


def fits(*texts):
    """Whether some key has a call, and each is as short in edition 2 as a key may be or too long in edition 1."""
    lengths = [(len(key(text)), len(key(scaled(text)))) for text in texts]
    return any(x != y for x, y in lengths) and all(x > 65536 or y <= 65536 for x, y in lengths)


class InEditionTwo:
    """The cases of keys that have calls, in edition 2; as `Cases` has them in edition 1."""

    def __init__(self, cases):
        self.cases = cases

    def check(self, text, wanted=None):
        """A check."""
        if fits(text):
            self.cases.check(scaled(text), moved_refusal(wanted, text))

    def evaluate(self, text, rows, columns, wanted=None, sheet=None, unroll=True, name=None, factors=None):
        """An evaluation."""
        if fits(text):
            name, wanted = name and f"{name} in edition 2", moved_refusal(wanted, text)
            self.cases.evaluate(scaled(text), rows, columns, wanted, sheet, unroll, name, factors)

    def cell(self, text, row, column, wanted=None, sheet=None, unroll=True, name=None, factors=None):
        """A cell."""
        if fits(text):
            name, wanted = name and f"{name} in edition 2", moved_refusal(wanted, text)
            self.cases.cell(scaled(text), row, column, wanted, sheet, unroll, name, factors)

    def price(self, text, rates, wanted=None):
        """A price."""
        if fits(text):
            self.cases.price(scaled(text), rates, moved_refusal(wanted, text))

    def compare(self, first, second, rows, columns, wanted=None, *others, **named):
        """A comparison: of both keys in edition 2, and of one in each."""
        if fits(first, second):
            moved = moved_refusal(wanted, first, second)
            self.cases.compare(scaled(first), scaled(second), rows, columns, moved, *others, **named)
            if not (isinstance(wanted, str) and "refused" in wanted):
                self.cases.compare(scaled(first), second, rows, columns, wanted, *others, **named)
