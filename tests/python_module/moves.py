"""A key moved into the other edition: the copy, what refuses it, and keys of both editions in every
call.
"""

import dataclasses

from tests.model.words import key

from . import forms, samples
from .subject import morgana

P = morgana.P

# Keys of many calls: moved, the first has 65,536 bytes, and the second 65,539.
FULL = key("head 0 0, 3 times sparse 0 0, recursive 0 0, 4368 times call 0 0 0, end")
LONGER = key("head 0 0, 4 times sparse 0 0, recursive 0 0, 4368 times call 0 0 0, end")


def hold_copies(hold):
    """There and back, in every form of a key, and of keys without calls and with the most."""
    for form in forms.KEYS:
        hold.equal(f"moved {form}", samples.SCALED, morgana.moved(form(samples.OLD)))
        hold.equal(f"moved back {form}", samples.OLD, morgana.moved(form(samples.SCALED)))
    hold.equal("the type", bytes, type(morgana.moved(bytearray(samples.OLD))))
    most = samples.GREATEST, samples.MOST_ARRAYS, samples.LONGEST
    for plain in (samples.NEW, samples.SHORTEST, *most):
        copy = b"\7" + plain[1:]
        hold.equal("a key without calls", copy, morgana.moved(plain))
        hold.equal("and back", plain, morgana.moved(copy))
    copy = morgana.moved(FULL)
    hold.equal("the longest copy", morgana.KEY_LIMIT, len(copy))
    hold.equal("and back", FULL, morgana.moved(copy))
    hold.equal("its counts", morgana.check(FULL), morgana.check(copy))


def hold_refusals(hold):
    """The key's own numbers, then 55 at the first call whose factor is not 1, then 56."""
    hold.refused("a cut key", 2, 30, morgana.moved, samples.CUT)
    hold.refused("an empty key", 2, 0, morgana.moved, b"")
    hold.refused("a longer key", 1, 65536, morgana.moved, samples.LONGEST + b"\6")
    hold.refused("a factor", 55, 30, morgana.moved, samples.DOUBLED)
    hold.refused("a factor in a cut key", 2, 45, morgana.moved, samples.DOUBLED[:-1])
    for factor in (0, 2, P - 1):
        second = samples.SCALED[:-5] + factor.to_bytes(4, "little") + b"\6"
        hold.refused("the second factor", 55, 45, morgana.moved, second)
    hold.refused("a longer copy", 56, 65539, morgana.moved, LONGER)
    hold.refused("the most calls", 56, 5900 * 15 + 31, morgana.moved, samples.MOST_CALLS)
    kept = hold.refused("its name", 56, 65539, morgana.moved, LONGER)
    hold.true("the number", kept.number is morgana.Number.MOVED_TOO_LONG)
    kept = hold.refused("its name", 55, 30, morgana.moved, samples.DOUBLED)
    hold.true("the number", kept.number is morgana.Number.FACTOR_NOT_ONE)


def hold_both(hold):
    """Keys of edition 2 in every call, and one of each edition in compare."""
    for one, factors in ((samples.SCALED, 3), (samples.DOUBLED, 2)):
        for call, rest in (
            (morgana.evaluate, ([3], [4])),
            (morgana.cell, (0, 1)),
            (morgana.evaluate_quadratic, samples.PARTS),
        ):
            wanted = dataclasses.replace(call(samples.OLD, *rest), factors=factors)
            hold.equal(call.__name__, wanted, call(one, *rest))
        for other, same in ((samples.OLD, True), (samples.NEW, True), (samples.WRONG, False)):
            for pair in ((one, other), (other, one)):
                hold.equal("compare", same, morgana.compare(*pair, [3], [4]).same)
                hold.equal("over p*p", same, morgana.compare_quadratic(*pair, *samples.PARTS).same)
    mixed = samples.OLD[:30] + samples.DOUBLED[30:]
    hold.refused("a call of edition 2 in edition 1", 4, 30, morgana.check, mixed)
    wrong = samples.DOUBLED[:41] + b"\xff\xff\xff\x7f\6"
    hold.refused("a factor of p", 8, 30, morgana.check, wrong)


def hold_all(hold):
    """Every edge of this file."""
    hold_copies(hold)
    hold_refusals(hold)
    hold_both(hold)
