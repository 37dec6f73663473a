"""The edges of keys: the forms that a caller has them in, what is no key, and long ones."""

import array
import ctypes
import mmap
import tempfile

from . import forms, samples
from .subject import morgana

CHECKED = morgana.Counts(arrays=2, cells=1, calls=2, rows=1, columns=1)


def hold_forms(hold):
    """A key is the same in each form."""
    for form in forms.KEYS:
        hold.equal(f"check of {form}", CHECKED, morgana.check(form(samples.OLD)))
    view = memoryview(samples.OLD)
    hold.equal("two axes", CHECKED, morgana.check(view.cast("B", shape=[53, 1])))
    hold.equal("signed bytes", CHECKED, morgana.check(view.cast("b")))
    hold.equal("ctypes", CHECKED, morgana.check(ctypes.create_string_buffer(samples.OLD, 53)))
    longer = array.array("I", samples.NEW)
    hold.equal("items of four bytes", morgana.check(samples.NEW), morgana.check(longer))
    with tempfile.TemporaryFile() as file:
        file.write(samples.OLD)
        file.flush()
        with mmap.mmap(file.fileno(), 0, access=mmap.ACCESS_READ) as mapped:
            hold.equal("mmap", CHECKED, morgana.check(mapped))


def hold_no_keys(hold):
    """What has no buffer is no key, in each call and at each of its places."""
    for thing in ("01", None, 1, [1, 1, 1], object(), iter(samples.OLD)):
        hold.raises(f"check of {thing!r}", TypeError, morgana.check, thing)
        hold.raises(f"moved of {thing!r}", TypeError, morgana.moved, thing)
        hold.raises(f"cell of {thing!r}", TypeError, morgana.cell, thing, 0, 0)
        hold.raises(f"price of {thing!r}", TypeError, morgana.price, thing, 0, 0, 0)
        for call in (morgana.evaluate, morgana.evaluate_quadratic):
            hold.raises(f"{call} of {thing!r}", TypeError, call, thing, [3], [4])
        for call in (morgana.compare, morgana.locate, morgana.shorter, morgana.compare_quadratic):
            hold.raises(f"{call} of {thing!r}", TypeError, call, thing, samples.OLD, [3], [4])
            hold.raises(f"{call} with {thing!r}", TypeError, call, samples.OLD, thing, [3], [4])


def hold_lengths(hold):
    """Empty keys, keys of the greatest length, and longer ones."""
    for empty in (b"", bytearray(), memoryview(b"\1")[:0], memoryview(b"\1\1")[:0:2]):
        hold.refused("an empty key", 2, 0, morgana.check, empty)
    hold.equal("the length of the longest key", morgana.KEY_LIMIT, len(samples.LONGEST))
    hold.equal("the longest key", 844, morgana.check(samples.LONGEST).arrays)
    longer = samples.LONGEST + b"\6"
    for key in (longer, forms.gapped(longer), bytes(10_000_000), memoryview(bytes(10**7))[::3]):
        hold.refused(f"a key of {len(key)} bytes", 1, 65536, morgana.check, key)
    wide = array.array("Q", bytes(65544))
    hold.refused("a key of 65,544 bytes, of fewer items", 1, 65536, morgana.check, wide)
    for call in (morgana.compare, morgana.locate, morgana.compare_quadratic):
        hold.refused("the second too long", 1, 65536, call, samples.NEW, longer, [], [], key=2)


def hold_release(hold):
    """A key can be made longer as soon as the call has ended, also where its refusal is kept."""
    key = bytearray(samples.CUT)
    kept = hold.refused("a cut key", 2, 30, morgana.check, key)
    key.extend(samples.OLD[40:])
    hold.equal("a key made longer", CHECKED, morgana.check(key))
    hold.true("a refusal that is kept", kept.__traceback__)


def hold_all(hold):
    """Every edge of this file."""
    hold_forms(hold)
    hold_no_keys(hold)
    hold_lengths(hold)
    hold_release(hold)
