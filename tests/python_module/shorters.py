"""The shorter of two keys: the very object that was given where they are the same, the first on a tie, and else the empty
beginning of the first, in the forms that a caller may have keys in.
"""

import array
import itertools
import mmap
import tempfile

from tests.model.words import key

from . import forms, samples
from .subject import morgana

P = morgana.P
HALF = (P + 1) // 2
FIRST, SECOND, NEITHER = 1, 2, 0

# NEW in edition 2, and with four arrays that nobody calls: 40 bytes, or ten items of four bytes.
NEW_SCALED = key("scaled_head 1 1, sparse 1 1, cell 0 1 10 14 0, end")
NEW_PADDED = key("head 1 1, 4 times sparse 0 0, sparse 1 1, cell 0 1 10 14 0, end")

# The circuit of NEW by a call, with an array that nobody calls, 45 bytes; and by a call of edition 2, 46 bytes.
BY_CALL = key("head 1 1, sparse 1 1, cell 0 1 10 14 0, sparse 0 0, recursive 1 1, call 0 0 0, end")
BY_SCALED_CALL = key("scaled_head 1 1, sparse 1 1, cell 0 1 10 14 0, recursive 1 1, scaled_call 0 0 0 1, end")

# As many bytes as a key may have, and the circuit of samples.LONGEST, whose last array is empty.
LONGEST_ZERO = key("head 0 0, recursive 0 0, 843 times sparse 0 0, 3000 times cell 0 0 0 0 0, end")

AT_1_1, AT_2_1, AT_1_3, AT_2_3 = ([3], [4]), ([3, 5], [4]), ([3], [4, 6, 7]), ([3, 5], [4, 6, 7])

# Two keys, a point, and which of them is the answer.
CASES = (
    # A tie, and equal keys.
    (samples.OLD, samples.OLD, AT_1_1, FIRST),
    (samples.NEW, NEW_SCALED, AT_1_1, FIRST),
    (NEW_SCALED, samples.NEW, AT_1_1, FIRST),
    (samples.NEW, samples.TALL, AT_2_1, FIRST),
    (samples.TALL, samples.NEW, AT_2_1, FIRST),
    (samples.SHORTEST, samples.SHORTEST, ([], []), FIRST),
    (samples.LONGEST, LONGEST_ZERO, ([], []), FIRST),
    # One shorter than the other, in both editions and in unequal shapes.
    (samples.OLD, samples.NEW, AT_1_1, SECOND),
    (samples.OLD, samples.SCALED, AT_1_1, FIRST),
    (samples.OLD, samples.DOUBLED, AT_1_1, SECOND),
    (samples.SCALED, samples.DOUBLED, AT_1_1, SECOND),
    (BY_CALL, BY_SCALED_CALL, AT_1_1, FIRST),
    (samples.OLD, samples.TALL, AT_2_1, SECOND),
    (samples.OLD, samples.WIDE, AT_1_3, SECOND),
    (samples.OLD, samples.LARGER, AT_2_3, SECOND),
    (samples.TALL, samples.LARGER, AT_2_3, FIRST),
    (samples.WIDE, samples.TALL, AT_2_3, SECOND),
    (samples.LONGEST, samples.SHORTEST, ([], []), SECOND),
    # Different, of one length and not, and of unequal shapes.
    (samples.NEW, samples.WRONG, AT_1_1, NEITHER),
    (samples.OLD, samples.WRONG, AT_1_1, NEITHER),
    (samples.TALL, samples.WRONG, AT_2_1, NEITHER),
    (samples.SHORTEST, samples.OLD, AT_1_1, NEITHER),
    (samples.DISPLACED, samples.OLD, AT_2_3, NEITHER),
    # Keys that differ, at points where compare says that they are the same.
    (samples.NEW, samples.WRONG, ([1], [4]), FIRST),
    (samples.OLD, samples.WRONG, ([3], [0]), SECOND),
    (samples.OLD, samples.DISPLACED, ([3, HALF], [4, 6, 7]), SECOND),
    # Refused.
    (samples.OLD, samples.CUT, AT_1_1, NEITHER),
    (samples.OLD, b"", AT_1_1, NEITHER),
    (samples.LONGEST + b"\6", samples.SHORTEST, ([], []), NEITHER),
    (samples.OLD, samples.NEW, AT_2_1, NEITHER),
    (samples.OLD, samples.NEW, AT_1_3, NEITHER),
    (samples.OLD, samples.NEW, ([3], [P]), NEITHER),
)


def exchanged(first, second, which):
    """Which key is the answer where the two are exchanged."""
    return FIRST if which and len(first) == len(second) else (NEITHER, SECOND, FIRST)[which]


def hold_kept(hold, keys, which, got):
    """What is got is one of the keys itself, or the empty beginning of the first, in its form."""
    if which != NEITHER:
        hold.true("the object that was given", got is keys[which - 1])
        return
    hold.equal("the form of the empty beginning", type(keys[0][:0]), type(got))
    hold.equal("the empty beginning", b"", bytes(got))


def hold_answers(hold):
    """Each case in either order, each key in each form, with a sheet and without."""
    for (one, other, point, which), *both in itertools.product(CASES, forms.KEYS, forms.KEYS):
        for keys, wanted in (((one, other), which), ((other, one), exchanged(one, other, which))):
            given = [form(data) for form, data in zip(both, keys)]
            hold_kept(hold, given, wanted, morgana.shorter(*given, *point))
            sheet = array.array("I", [9] * morgana.SHEET)
            hold_kept(hold, given, wanted, morgana.shorter(*given, *point, sheet))
            hold.equal("the keys", keys, tuple(map(bytes, given)))


def hold_objects(hold):
    """Of two objects of equal bytes it is the first, and of one object it is that; other forms, and lengths in bytes."""
    one, other = bytearray(samples.OLD), bytearray(samples.OLD)
    hold.true("the first", morgana.shorter(one, other, *AT_1_1) is one)
    hold.true("the first, exchanged", morgana.shorter(other, one, *AT_1_1) is other)
    hold.true("one object", morgana.shorter(one, one, *AT_1_1) is one)
    # Fewer items, but more bytes.
    items = array.array("I", NEW_PADDED)
    hold.equal("items", [10, 40], [len(items), len(NEW_PADDED)])
    hold.true("fewer bytes", morgana.shorter(items, samples.NEW, *AT_1_1) is samples.NEW)
    hold.true("fewer bytes", morgana.shorter(samples.NEW, items, *AT_1_1) is samples.NEW)
    hold.true("fewer items", morgana.shorter(samples.OLD, items, *AT_1_1) is items)
    hold.equal("no items", array.array("I"), morgana.shorter(items, samples.WRONG, *AT_1_1))
    with tempfile.TemporaryFile() as file:
        file.write(samples.NEW)
        file.flush()
        with mmap.mmap(file.fileno(), 0, access=mmap.ACCESS_READ) as mapped:
            hold.true("mmap", morgana.shorter(samples.OLD, mapped, *AT_1_1) is mapped)
            hold.equal("the empty beginning", b"", morgana.shorter(mapped, samples.WRONG, *AT_1_1))


def hold_release(hold):
    """A key that is answered, or of which the empty beginning is, can be made longer, and so can the sheet."""
    one, sheet = bytearray(samples.NEW), array.array("I", [9] * 6)
    for other, data in ((samples.OLD, samples.NEW), (samples.WRONG, b"")):
        kept = morgana.shorter(one, other, *AT_1_1, sheet)
        hold.equal("what is kept", data, bytes(kept))
        one.append(6)
        one.pop()
        sheet.append(9)
    part = morgana.shorter(one, samples.WRONG, *AT_1_1)
    part.append(1)
    hold.equal("the first", samples.NEW, bytes(one))


def hold_all(hold):
    """Everything of this file."""
    hold_answers(hold)
    hold_objects(hold)
    hold_release(hold)
