"""The edges of sheets: the forms that a caller has them in, what is no sheet, lengths, and what is
left alone.
"""

import array
import ctypes
import itertools

from . import forms, samples
from .subject import morgana

POINT = [3], [4]
CALLS = (
    (morgana.evaluate, (samples.OLD, *POINT)),
    (morgana.cell, (samples.OLD, 0, 1)),
    (morgana.compare, (samples.OLD, samples.NEW, *POINT)),
    (morgana.locate, (samples.OLD, samples.NEW, *POINT)),
    (morgana.locate, (samples.OLD, samples.WRONG, *POINT)),
    (morgana.evaluate_quadratic, (samples.OLD, *samples.PARTS)),
    (morgana.compare_quadratic, (samples.OLD, samples.NEW, *samples.PARTS)),
)
SHORTER = morgana.shorter, (samples.OLD, samples.NEW, *POINT)


def flat(view):
    """The numbers of a sheet with any number of axes."""
    return list(array.array("I", bytes(view)))


def hold_forms(hold):
    """A sheet is the same in each form; the places behind the last array's stay."""
    for form, longer in itertools.product(forms.SHEETS, (0, 1, 1000)):
        sheet = form([9] * (6 + longer))
        morgana.evaluate(samples.OLD, *POINT, sheet)
        hold.equal(f"the sheet {form}", samples.TRIPLES + [9] * longer, list(sheet))
        sheet = form([9] * (12 + longer))
        morgana.evaluate_quadratic(samples.OLD, *samples.PARTS, sheet)
        hold.equal(f"the sheet {form}", samples.SIXES + [9] * longer, list(sheet))
    block = memoryview(bytearray(24)).cast("I", shape=[2, 3])
    table = ((ctypes.c_uint32 * 3) * 2)()
    long = memoryview(bytearray(24)).cast("B").cast("I")
    for sheet in (block, table, long):
        morgana.evaluate(samples.OLD, *POINT, sheet)
        hold.equal("a sheet of two axes", samples.TRIPLES, flat(sheet))


def hold_neighbours(hold):
    """A part of an array is a sheet, and what stands around it is left alone."""
    around = array.array("I", range(100, 120))
    morgana.evaluate(samples.OLD, *POINT, memoryview(around)[4:14])
    wanted = [*range(100, 104), *samples.TRIPLES, *range(110, 120)]
    hold.equal("the array around a sheet", wanted, list(around))


def no_sheets():
    """What is no sheet, with room enough."""
    yield from ("sheet", b"\0" * 80, bytearray(80), [0] * 20, (0,) * 20, 20, 0, object(), True)
    yield from (array.array(code, [1] * 20) for code in "bBhHilLqQfd")
    yield (ctypes.c_int32 * 20)()
    yield (ctypes.c_uint64 * 20)()
    yield (ctypes.c_uint32.__ctype_be__ * 20)()
    yield memoryview(array.array("I", [1] * 20)).toreadonly()
    yield memoryview(b"\0" * 80).cast("I")
    yield memoryview(b"").cast("I")
    yield memoryview(array.array("I", [1] * 40))[::2]
    yield memoryview(array.array("I", [1] * 20))[::-1]
    yield memoryview(array.array("I", [1] * 20)).cast("B").cast("i")
    for start in (1, 2, 3):
        yield memoryview(bytearray(84))[start : start + 80].cast("I")


def contents(thing):
    """The bytes of a buffer, or the thing in words."""
    try:
        return memoryview(thing).tobytes()
    except TypeError:
        return repr(thing)


def hold_no_sheets(hold):
    """What is no sheet raises TypeError, and is left alone."""
    for sheet in no_sheets():
        before = contents(sheet)
        for call, arguments in (*CALLS, SHORTER):
            hold.raises(f"{call} on {sheet!r}", TypeError, call, *arguments, sheet)
        hold.equal(f"{sheet!r} afterwards", before, contents(sheet))


def hold_lengths(hold):
    """A sheet that is too short is refused with the length needed, and left alone."""
    for (call, arguments), form in itertools.product(CALLS, forms.SHEETS):
        needed = 12 if "quadratic" in call.__name__ else 6
        for length in range(needed):
            sheet = form([9] * length)
            hold.refused(f"{length} places", 31, needed, call, *arguments, sheet)
            hold.equal("a short sheet", [9] * length, list(sheet))
        hold.true("long enough", call(*arguments, form([9] * needed)) == call(*arguments))


def hold_own(hold):
    """The module's own sheet is long enough for a key of the most arrays."""
    key, values = samples.MOST_ARRAYS, morgana.Values(a=1, b=2, c=3, factors=0)
    pairs = [morgana.Quadratic(number, 0) for number in (1, 2, 3)]
    hold.equal("the most arrays", morgana.MOST_ARRAYS, morgana.check(key).arrays)
    hold.equal("evaluate", values, morgana.evaluate(key, [], []))
    hold.equal("cell", values, morgana.cell(key, 0, 0))
    got = morgana.evaluate_quadratic(key, [], [])
    hold.equal("evaluate over p*p", pairs, [got.a, got.b, got.c])
    hold.true("compare", morgana.compare(key, key, [], []).same)
    hold.true("compare over p*p", morgana.compare_quadratic(key, key, [], []).same)
    hold.equal("no cell", None, morgana.locate(key, key, [], []))
    hold.true("a cell", morgana.locate(key, samples.SHORTEST, [], []).first == values)
    hold.true("the first", morgana.shorter(key, key, [], []) is key)
    for places, call in (
        (3072, morgana.compare), (3072, morgana.locate), (6144, morgana.compare_quadratic),
    ):
        short = array.array("I", [0]) * (places - 1)
        hold.refused("one place fewer", 31, places, call, key, key, [], [], short)


def hold_release(hold):
    """A sheet can be made longer as soon as the call has ended, also where its refusal is kept."""
    sheet = array.array("I", [9] * 5)
    kept = hold.refused("a short sheet", 31, 6, morgana.evaluate, samples.OLD, *POINT, sheet)
    sheet.append(9)
    morgana.evaluate(samples.OLD, *POINT, sheet)
    sheet.append(9)
    hold.equal("a sheet made longer", [*samples.TRIPLES, 9], list(sheet))
    hold.true("a refusal that is kept", kept.__traceback__)


def hold_overlaps(hold):
    """Keys and points are copied before the call, so that they may stand on the sheet itself."""
    words = array.array("I", samples.NEW)
    got = morgana.evaluate(words, *POINT, words)
    hold.equal("a key on its sheet", morgana.evaluate(samples.NEW, *POINT), got)
    hold.equal("the sheet", [got.a, got.b, got.c], list(words)[:3])
    numbers = array.array("I", [3, 4, 0, 0, 0, 0])
    sides = memoryview(numbers)[:1], memoryview(numbers)[1:2]
    got = morgana.evaluate(samples.OLD, *sides, numbers)
    hold.equal("a point on its sheet", morgana.evaluate(samples.OLD, *POINT), got)
    hold.equal("the sheet", samples.TRIPLES, list(numbers))


def hold_all(hold):
    """Every edge of this file."""
    hold_forms(hold)
    hold_neighbours(hold)
    hold_no_sheets(hold)
    hold_lengths(hold)
    hold_own(hold)
    hold_release(hold)
    hold_overlaps(hold)
