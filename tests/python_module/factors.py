"""The count of factors in answers: what it is at its edges, and that a refused call has none."""

import itertools
import unittest.mock

from tests.model.words import key

from . import samples
from .subject import morgana

# The most calls that a key has room for, of an array without bits: no key has more factors.
MOST = key("head 30 30, sparse 0 0, recursive 30 30, 5956 times call 0 5 7, end")

# Keys with their bits and the factors of their cells and calls.
KEYS = (
    (samples.OLD, (1, 1), 1 + 2 * 1),
    (samples.SCALED, (1, 1), 1 + 2 * 1),
    (samples.DOUBLED, (1, 1), 1 + 1),
    (samples.NEW, (1, 1), 2),
    (samples.SHORTEST, (0, 0), 0),
    (samples.LONGEST, (0, 0), 0),
    (samples.MOST_ARRAYS, (0, 0), 0),
    (samples.MOST_CALLS, (1, 0), 1),
    (samples.GREATEST, (30, 30), 60),
    (key("head 2 1, sparse 1 1, 3 times cell 1 1 1 2 3, sparse 2 1, end"), (2, 1), 3 * 2),
    (key("head 3 3, sparse 1 0, recursive 2 3, 4 times call 0 1 7, sparse 3 3, end"), (3, 3), 16),
    (MOST, (30, 30), 5956 * 60),
)

# Calls that are refused, each with what it is refused for and the key that it names.
REFUSED = (
    (morgana.evaluate, (samples.CUT, [3], [4]), 2, 0),
    (morgana.evaluate, (samples.OLD, [3], []), 22, 0),
    (morgana.evaluate_quadratic, (samples.OLD, [3, 2], [4, morgana.P]), 23, 0),
    (morgana.cell, (samples.OLD, 0, 2), 24, 0),
    (morgana.compare, (samples.CUT, samples.OLD, [3], [4]), 2, 1),
    (morgana.compare, (samples.OLD, samples.CUT, [3], [4]), 2, 2),
    (morgana.compare, (samples.OLD, samples.SHORTEST, [3], []), 22, 0),
    (morgana.compare_quadratic, (samples.OLD, samples.OLD, [3], [4]), 21, 0),
)


def points(bits):
    """Points of a key of these bits over p, and over p*p."""
    yield morgana.evaluate, morgana.compare, [[0] * n for n in bits]
    for quadratic in (False, True):
        suffix = "_quadratic" if quadratic else ""
        calls = (getattr(morgana, name + suffix) for name in ("evaluate", "compare"))
        yield *calls, morgana.random_point(*bits, quadratic)


def hold_counts(hold):
    """A key has as many factors at every point and place."""
    for data, bits, factors in KEYS:
        hold.equal("cell", factors, morgana.cell(data, 0, 0).factors)
        hold.equal("its type", int, type(morgana.cell(data, 0, 0).factors))
        for evaluate, _, point in points(bits):
            hold.equal("evaluate", factors, evaluate(data, *point).factors)


def hold_pairs(hold):
    """Two keys have the factors of both and one for each bit that only one of them has, within the limit."""
    for (data, bits, factors), (other, others_bits, others) in itertools.product(KEYS, KEYS):
        unused = sum(abs(n - k) for n, k in zip(bits, others_bits, strict=True))
        shape = [*map(max, bits, others_bits)]
        for _, compare, point in points(shape):
            got = compare(data, other, *point).factors
            hold.equal("compare", factors + others + unused, got)
        counts = morgana.check(data), morgana.check(other)
        limit = sum(shape) * (sum(each.cells + each.calls for each in counts) + 2)
        hold.true("the limit", factors + others + unused <= limit)


def hold_verdicts(hold):
    """Compare counts the same for keys that are the same and for keys that are different."""
    for second, same in ((samples.NEW, True), (samples.WRONG, False)):
        wanted = morgana.Compared(same=same, factors=5)
        for pair in ((samples.OLD, second), (second, samples.OLD)):
            hold.equal("over p", wanted, morgana.compare(*pair, [3], [4]))
            hold.equal("over p*p", wanted, morgana.compare_quadratic(*pair, *samples.PARTS))


def replied(call, arguments):
    """The library's reply to a call, which may refuse it."""
    accepted = unittest.mock.Mock(side_effect=morgana._accepted)
    with unittest.mock.patch.object(morgana, "_accepted", accepted):
        try:
            call(*arguments)
        except morgana.Refused:
            pass
    return accepted.call_args.args[0]


def hold_refusals(hold):
    """Of a refused call every field is 0, but for the number, the place and the key."""
    for call, arguments, number, named in REFUSED:
        reply = replied(call, arguments)
        fields = {name: getattr(reply, name) for name, _ in reply._fields_}
        hold.equal("the number", number, fields.pop("number"))
        hold.equal("the key", named, fields.pop("key", 0))
        del fields["place"]
        hold.true("factors among the rest", "factors" in fields)
        hold.equal("the rest", dict.fromkeys(fields, 0), fields)


def hold_all(hold):
    """Everything of this file."""
    hold_counts(hold)
    hold_pairs(hold)
    hold_verdicts(hold)
    hold_refusals(hold)
