"""Drawn pairs of keys of any shapes, of which both models hand back the shorter."""

import itertools

from tests.draw.numbers import numbered, spoiled
from tests.model.fields import PRIME
from tests.model.shorter import handed_back, shorter
from tests.model.words import outcome
from tests.unroll.fields import F_P
from tests.unroll.keys import HEADS, check
from tests.unroll.shorter import shorter_on

from .holding import hold
from .pairs import NAMED, SHAPES, differing, drawn_counts, hold_drawn_pairs, others, unrolled_comparison

# What must occur, with the least number of times: the refusals of either key; for each difference of shapes the answers and the
# refusals of neither key; and the keys that are handed back for each edition of either key. A tie is of two keys of one length.
KEPT = "first", "second", "tie"
ANSWERED = {*itertools.product(SHAPES, (*KEPT, "different"))}
JUDGED = {*itertools.product(SHAPES, (21, 22, 23, 31))}
EDITIONS = {*itertools.product(HEADS, HEADS, KEPT)}
OUTCOMES = (NAMED, 1), (ANSWERED, 10), (JUDGED, 1), (EDITIONS, 10)


def unrolled_shorter(keys, rows, columns, sheet):
    """What tests/unroll answers, as tests/model words it, by which of the two lent keys it is."""
    kept, after = shorter_on(*keys, rows, columns, sheet)
    which = [i for i, key in enumerate(keys, 1) if kept and kept is key] or [0]
    return outcome(handed_back(which[0], len(kept)), after)


def kind_of(keys, said):
    """The kind of outcome, by what comparing two keys says: a refusal's number, "different", or which key is the shorter."""
    one, other = map(len, keys)
    return said if said != "same" else "tie" if one == other else "first" if one < other else "second"


def count_outcome(counts, keys, kind, which):
    """Counts a kind of outcome: for the key that a refusal names, or for the two shapes and for the two editions."""
    if which != "neither":
        counts[which, kind] += 1
        return
    one, other = map(check, keys)
    counts[differing(one, other), kind] += 1
    counts[one.head, other.head, kind] += 1


def hold_kept(keys, answer, kind, compared, about):
    """Raises Failed unless an answer hands back what a kind of outcome says, on the sheet as compare leaves it."""
    key = {"first": 1, "tie": 1, "second": 2}.get(kind, 0)
    length = len(keys[key - 1]) if key else 0
    hold("the key", answer, handed_back(key, length) + compared[compared.index(" sheet") :], about)


def hold_pair(draw, pair, make_point, counts):
    """Asks both models for the shorter of two keys, each its bytes and its head's bits, in either order, at a point, which may
    be spoiled.
    """
    keys, heads = zip(*pair)
    point = make_point(draw, drawn_counts(draw, heads, PRIME))
    rows, columns = point if draw.below(3) else (spoiled(draw, side) for side in point)
    sheet = numbered(draw.below(24) + 3)
    for both in (keys, keys[::-1]):
        about = f"{both[0].hex()} with {both[1].hex()} at {rows} {columns} on {len(sheet)} places"
        answer = shorter(*both, rows, columns, sheet)
        hold("shorter", answer, unrolled_shorter(both, rows, columns, sheet), about)
        compared, said, which = unrolled_comparison(*both, rows, columns, sheet, F_P)
        kind = kind_of(both, said)
        hold_kept(both, answer, kind, compared, about)
        count_outcome(counts, both, kind, which)


def hold_shorters():
    """Holds all drawn pairs, and returns how many there were."""
    return hold_drawn_pairs("shorter", others, hold_pair, OUTCOMES)
