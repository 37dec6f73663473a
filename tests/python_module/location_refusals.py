"""What refuses locate, and in which order, and the replies of the library to it."""

import array
import ctypes

from tests.cases.keys import FAULTY
from tests.model.words import key

from . import samples
from .factors import replied
from .subject import morgana

P = morgana.P
OFFSETS = dict(zip(
    ["number", "place", "key", "same", "row", "column"]
    + [f"{which}_{part}" for which in ("first", "second") for part in "abc"],
    [0, 8, *range(16, 56, 4)],
))


def hold_key_refusals(hold):
    """Each number of check for either key, the first before the second, and before every other number; the sheet stays."""
    whole = key("head 1 0, sparse 1 0, cell 1 0 1 2 3, end")
    for number, (text, place) in FAULTY.items():
        faulty, sheet = key(text), array.array("I", [9])
        for point in (([5], []), ([5, 5], [P])):
            hold.refused("first", number, place, morgana.locate, faulty, whole, *point, sheet, key=1)
            hold.refused("second", number, place, morgana.locate, whole, faulty, *point, sheet, key=2)
            hold.refused("both", number, place, morgana.locate, faulty, samples.CUT, *point, sheet, key=1)
        hold.equal("the sheet", [9], list(sheet))


def hold_point_refusals(hold):
    """21 and 22 by the larger bits, 23 at its index and 31 by the key with more arrays, in this order; the sheet stays."""
    for pair in ((samples.TALL, samples.WIDE), (samples.WIDE, samples.TALL)):
        short = array.array("I", [9] * 5)
        for count in (0, 1, 3, 4, 30, 61):
            hold.refused("rows", 21, count, morgana.locate, *pair, [P] * count, [], short)
        for count in (0, 1, 2, 4, 6, 61):
            hold.refused("columns", 22, count, morgana.locate, *pair, [P] * 2, [P] * count, short)
        for index in range(5):
            numbers = [5] * index + [P] + [2**40] * (4 - index)
            hold.refused("a coordinate", 23, index, morgana.locate, *pair, numbers[:2], numbers[2:], short)
        for length in range(6):
            sheet = array.array("I", [9] * length)
            hold.refused(f"{length} places", 31, 6, morgana.locate, *pair, [5, 6], [7, 8, 9], sheet)
            hold.equal("a short sheet", [9] * length, list(sheet))
        hold.equal("the sheet", [9] * 5, list(short))


def hold_replies(hold):
    """The reply's fields stand where the header says, and those that an answer does not have are zero."""
    reply = morgana._LocateReply
    hold.equal("the size of a reply", 56, ctypes.sizeof(reply))
    hold.equal("its fields", OFFSETS, {name: getattr(reply, name).offset for name, _ in reply._fields_})
    for arguments, wanted in (
        ((samples.OLD, samples.NEW, [3], [4]), {"same": 1}),
        ((samples.CUT, samples.OLD, [3], [4]), {"number": 2, "place": 30, "key": 1}),
        ((samples.OLD, samples.CUT, [3], [4]), {"number": 2, "place": 30, "key": 2}),
        ((samples.OLD, samples.WRONG, [3], [P]), {"number": 23, "place": 1}),
        (
            (samples.OLD, samples.WRONG, [3], [4]),
            {"column": 1, "first_a": 10, "first_b": 14, "second_a": 10, "second_b": 15},
        ),
    ):
        got = replied(morgana.locate, arguments)
        fields = {name: getattr(got, name) for name in OFFSETS}
        hold.equal("the reply", dict.fromkeys(OFFSETS, 0) | wanted, fields)


def hold_all(hold):
    """Everything of this file."""
    hold_key_refusals(hold)
    hold_point_refusals(hold)
    hold_replies(hold)
