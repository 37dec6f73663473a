"""Drawn pairs of keys of both editions and of any two shapes, points and sheets, whole and faulty, of which the module and
tests/model hand back the shorter.
"""

import collections
import itertools

from tests.draw.changes import damaged, grown, rewritten
from tests.draw.keys import drawn_key, encoded
from tests.draw.numbers import Draw, numbered
from tests.model.calls import compare
from tests.model.pairs import most_bits
from tests.model.shorter import handed_back, shorter
from tests.model.words import outcome

from . import forms
from .drawn import KEY_FAULTS, SHAPES, any_point, beyond, compared, differing, hold_often, kind_of
from .subject import morgana

KEYS = 600

# What must occur: the refusals of the keys; for each difference of shapes the key that is handed back, where a tie is of two keys
# of one length, and what else compare may say; and the key that is handed back for the kinds of either key's head.
KEPT = "first", "second", "tie"
OUTCOMES = {
    *KEY_FAULTS,
    *itertools.product(SHAPES, (*KEPT, "different", 21, 22, 23, 31)),
    *itertools.product((1, 7), (1, 7), KEPT),
}


def larger(draw, records):
    """Keys of the circuit of a drawn one in larger shapes: of one length, and longer."""
    alike = [grown(records, more) for more in ((1, 0), (0, 1), (2, 1))]
    return [*alike, *(rewritten(draw, each) for each in alike)]


def in_words(keys, got, sheet):
    """What the module answers, by which of the keys that were given it is, as tests/model words it."""
    length = memoryview(got).nbytes
    which = next((i for i, key in enumerate(keys, 1) if got is key), 0) if length else 0
    return outcome(handed_back(which, length), list(sheet))


def kind(keys, said):
    """The kind of outcome, by what comparing two keys says."""
    one, other = map(len, keys)
    verdict = kind_of(said)
    return verdict if verdict != "same" else "tie" if one == other else "first" if one < other else "second"


def count_outcome(counts, keys, what):
    """Counts a kind of outcome: as it is for what is wrong with a key, and else for the two shapes and the two heads."""
    if what in KEY_FAULTS:
        counts[what] += 1
        return
    counts[differing(*((data[1], data[2]) for data in keys)), what] += 1
    if what in KEPT:
        counts[keys[0][0], keys[1][0], what] += 1


def hold_pair(hold, draw, pair, counts):
    """Asks for the shorter of two keys, each its bytes and its head's bits, in either order, at a point that has the larger bits
    or, one time in eight, those of one of them; on a sheet, and then on the module's own.
    """
    keys, heads = zip(*pair[:: 1 - 2 * draw.below(2)])
    point = any_point(draw, (*heads, *[most_bits(*heads)] * 14)[draw.below(16)])
    sheet = numbered(draw.below(18))
    wanted, what = shorter(*keys, *point, sheet), kind(keys, compare(*keys, *point, sheet))
    about = f"shorter {keys[0].hex()} {keys[1].hex()} at {point} on {sheet}"
    given = [forms.one_of(draw, forms.KEYS, data) for data in keys]
    lent = forms.one_of(draw, forms.SHEETS, sheet)
    got = morgana.shorter(*given, *(forms.one_of(draw, forms.POINTS, side) for side in point), lent)
    hold.equal(about, wanted, in_words(given, got, lent))
    if what != 31:
        got = morgana.shorter(*given, *point)
        hold.equal(f"{about}, without a sheet", wanted.partition(" sheet")[0], in_words(given, got, []).partition(" sheet")[0])
    count_outcome(counts, keys, what)


def hold_all(hold):
    """Everything of this file."""
    draw, counts = Draw(), collections.Counter()
    for _ in range(KEYS):
        records = drawn_key(draw, 4, draw.below(2))
        others = [(encoded(each), each[0][1]) for each in (*compared(draw, records), *larger(draw, records))]
        whole, bits = others[0]
        for data in (whole, *damaged(draw, records), *beyond(draw, records)):
            one, other = (others[draw.below(len(others))] for _ in range(2))
            hold_pair(hold, draw, [(data, bits) if draw.below(3) else one, other], counts)
    hold_often(OUTCOMES, counts)
