"""What shorter leaves on a sheet, what makes it answer neither key, and the replies of the library to it."""

import array
import itertools

from tests.cases.keys import FAULTY
from tests.model.words import key

from . import samples
from .shorters import AT_1_1, AT_2_3, CASES, LONGEST_ZERO, hold_kept
from .subject import morgana

P = morgana.P
ONE = key("head 1 0, sparse 1 0, cell 1 0 1 2 3, end")


def compared(*arguments):
    """Whether compare says that two keys are the same; it may refuse."""
    try:
        return morgana.compare(*arguments).same
    except morgana.Refused:
        return False


def hold_as_compare(hold):
    """The sheet is as compare leaves it, whatever it says, and what is answered is empty exactly where it does not say same."""
    for (one, other, point, _), length in itertools.product(CASES, (0, 2, 3, 5, 6, 7, 9, 12, 2531, 2532, 2600)):
        for pair in ((one, other), (other, one)):
            sheets = [array.array("I", range(100, 100 + length)) for _ in range(2)]
            same = compared(*pair, *point, sheets[0])
            got = morgana.shorter(*pair, *point, sheets[1])
            hold.equal("same", same, len(got) > 0)
            hold.equal("the sheet", *map(list, sheets))


def hold_sheets(hold):
    """The numbers of the second key over those of the first, whichever is answered; what is behind them stays."""
    new = [10 * 4 * (1 - 3) % P, 14 * 4 * (1 - 3) % P, 0]
    wrong = [new[0], 15 * 4 * (1 - 3) % P, 0]
    for pair, wanted in (
        ((samples.OLD, samples.NEW), [*new, *samples.TRIPLES[3:]]),
        ((samples.NEW, samples.OLD), samples.TRIPLES),
        ((samples.OLD, samples.WRONG), [*wrong, *samples.TRIPLES[3:]]),
        ((samples.WRONG, samples.OLD), samples.TRIPLES),
        ((samples.NEW, samples.WRONG), [*wrong, 9, 9, 9]),
        ((samples.CUT, samples.OLD), [9] * 6),
        ((samples.OLD, samples.CUT), [9] * 6),
    ):
        sheet = array.array("I", [9] * 8)
        morgana.shorter(*pair, *AT_1_1, sheet)
        hold.equal("the sheet", [*wanted, 9, 9], list(sheet))


def hold_neither(hold, keys, point, sheet):
    """Compare refuses, and shorter answers the empty beginning of the first; both leave the sheet."""
    before = list(sheet)
    hold.raises("compare", morgana.Refused, morgana.compare, *keys, *point, sheet)
    for first, second in (keys, map(bytearray, keys), map(memoryview, keys)):
        hold_kept(hold, (first, second), 0, morgana.shorter(first, second, *point, sheet))
    hold.equal("the sheet", before, list(sheet))


def hold_refused(hold):
    """Each refusal of compare, for keys that are the same where nothing refuses: those of either key, 21, 22, 23 and 31."""
    for text, _ in FAULTY.values():
        for keys in ((key(text), ONE), (ONE, key(text)), (key(text), samples.CUT)):
            for point in (([5], []), ([5, 5], [P])):
                hold_neither(hold, keys, point, array.array("I", [9] * 3))
    for keys in ((samples.TALL, samples.WIDE), (samples.WIDE, samples.TALL)):
        hold.equal("nothing refuses", samples.TALL, morgana.shorter(*keys, *AT_2_3))
        for count in {*range(6), 30, 61}:
            if count != 2:
                hold_neither(hold, keys, ([5] * count, [7, 8, 9]), array.array("I", [9] * 6))
            if count != 3:
                hold_neither(hold, keys, ([5, 6], [7] * count), array.array("I", [9] * 6))
        for index, number in itertools.product(range(5), (P, 2**32 - 1, 2**40)):
            numbers = [*range(5, 5 + index), number, *range(5 + index, 9)]
            hold_neither(hold, keys, (numbers[:2], numbers[2:]), array.array("I", [9] * 6))
        for length in range(6):
            hold_neither(hold, keys, AT_2_3, array.array("I", [9] * length))


def replied(keys, point, sheet=None):
    """The key and the length of the library's reply."""
    function = morgana._library.morgana_shorter
    reply = morgana._at_point(function, keys, *point, sheet, morgana.SHEET)
    return reply.key, reply.length


def hold_replies(hold):
    """The reply's fields stand where the header says; the length is that of the key, and 0 with none."""
    hold.laid_out(morgana._ShorterReply, 16, {"key": 0, "length": 8})
    for one, other, point, which in CASES:
        wanted = which, len((b"", one, other)[which])
        hold.equal("the reply", wanted, replied([one, other], point))
    hold.equal("the longest", (1, 65536), replied([samples.LONGEST, LONGEST_ZERO], ([], [])))
    short = array.array("I", [9] * 5)
    hold.equal("a short sheet", (0, 0), replied([samples.OLD, samples.NEW], AT_1_1, short))


def hold_all(hold):
    """Everything of this file."""
    hold_as_compare(hold)
    hold_sheets(hold)
    hold_refused(hold)
    hold_replies(hold)
