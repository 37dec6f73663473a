"""Morgana circuit keys: checked, evaluated at a point, asked for single cells,
compared, with a cell in which they differ or the shorter of the two, moved into
the other edition, and priced.

The module calls the proved library libmorgana.so by ctypes. Its calls are
those of morgana.h. A key is bytes, in any object that has the buffer protocol
(bytes, bytearray, memoryview, mmap). This one opens a sparse array with one
cell, and a recursive array that calls it twice:

>>> import morgana
>>> old = bytes.fromhex(
...     "01 0101"
...     "02 0001"
...     "04 00000000 01000000 05000000 07000000 00000000"
...     "03 0101"
...     "05 0000 00000000 00000000"
...     "05 0000 00000000 00000000"
...     "06")
>>> morgana.check(old)
Counts(arrays=2, cells=1, calls=2, rows=1, columns=1)

Points. It has one row bit and one column bit, so that a point is one row and
one column coordinate below p. Coordinates, rows and columns are integers of
any type that operator.index takes, as those of Sage and numpy; a negative one
raises ValueError, and what is no integer raises TypeError.

>>> morgana.evaluate(old, [3], [4])
Values(a=2147483567, b=2147483535, c=0, factors=3)
>>> morgana.cell(old, 0, 1)
Values(a=10, b=14, c=0, factors=3)

For the calls whose names end in _quadratic a coordinate is an element u + v*i
of the field of p*p elements, where i*i is -1: two numbers, u first. A random
point tells keys that differ apart, but for a small likelihood:

>>> new = bytes.fromhex(
...     "010101 020101 04 00000000 01000000 0a000000 0e000000 00000000 06")
>>> rows, columns = morgana.random_point(1, 1, quadratic=True)
>>> morgana.compare_quadratic(old, new, rows, columns)
Compared(same=True, factors=5)
>>> float(morgana.likelihood(2, quadratic=True)) < 5e-19
True

Comparing. Any two accepted keys can be compared, also of different shapes. N
is the larger of their row bits and N' the larger of their column bits, and the
point has N row and N' column coordinates. The matrices of a key with fewer bits
are read as filled with zeros up to 2^N rows and 2^N' columns, their own places
being the first. This is the circuit of `new` with two rows more:

>>> grown = bytes.fromhex(
...     "010201 020201 04 00000000 01000000 0a000000 0e000000 00000000 06")
>>> shape = morgana.check(old).larger_shape(morgana.check(grown))
>>> shape
(2, 1)
>>> morgana.compare(old, grown, *morgana.random_point(*shape))
Compared(same=True, factors=7)

So each key is evaluated at the first n and the first n' coordinates, by its own
head, and its A, B and C are multiplied by 1 - r for each coordinate r that it
does not use. These are what is compared; a sheet has what was evaluated, not
multiplied.

Differences. At a point where two keys are different, locate answers a cell of
the dense matrices in which they are, and both keys' A, B and C there. At a
point where they are the same it answers None. `wrong` has 15 for the 14 of
`new`:

>>> wrong = new.replace(b"\x0e", b"\x0f")
>>> found = morgana.locate(old, wrong, [3], [4])
>>> found.row, found.column
(0, 1)
>>> found.first.b, found.second.b
(14, 15)
>>> found.first == morgana.cell(old, found.row, found.column)
True

Shorter keys. At a point where two keys are the same, shorter answers the one
that has fewer bytes, of two of one length the first: the very object that was
given. Where they are different, or compare refuses, it answers the empty
beginning of the first:

>>> len(old), len(new)
(53, 28)
>>> morgana.shorter(old, new, [3], [4]) is new
True
>>> morgana.shorter(old, wrong, [3], [4])
b''

Factors. These answers count the factors of the weights that a key's cells and
calls have, one for each coordinate: k + k' for a cell of an array of k row and
k' column bits, and (k - K) + (k' - K') for a call from such an array of one of
K and K' bits. The sum is over all arrays, called or not. It is the same at
every point and over both fields, and at most (n + n') * (cells + calls). Two
keys that are compared have the sum of both: the cell and both calls of `old`
count 1 each, and the cell of `new` counts 2. Each coordinate that a key does
not use counts one more, as the second row coordinate for `old` above. So it is
at most (N + N') * (cells + calls of both keys) + 2 * (N + N').

Prices. What evaluating a key costs depends on no point: price takes rates per
cell, per call and per factor, in hundredths of a penny, each an integer as
coordinates are and at most 1,000,000. The total is divided by 100 once, half a
penny is rounded upwards, and the answer is in pence. `old` has one cell, two
calls and three factors, and costs 150 + 2 * 75 + 3 * 3 = 309 hundredths of a
penny here:

>>> morgana.price(old, 150, 75, 3)
3
>>> morgana.price(old, 0, 0, 100) == morgana.evaluate(old, [3], [4]).factors
True

Sheets. A call works on a sheet of 32-bit numbers and leaves every array's
numbers there. Where none is given, the module lends its own. A caller's sheet
is a writable, contiguous buffer of 32-bit unsigned items (array.array("I"),
numpy uint32, a ctypes array, a cast memoryview); any other raises TypeError.

>>> import array
>>> sheet = array.array("I", [0] * 6)
>>> values = morgana.evaluate(old, [3], [4], sheet)
>>> list(sheet)
[20, 28, 0, 2147483567, 2147483535, 0]

Editions. This key is of edition 1: its head is of kind 01, and its calls are
of kind 05. In edition 2 the head is of kind 07, and calls are of kind 08 and
have a factor below p, by which the called matrices are multiplied and which
does not count among the factors above. Every call takes keys of both, and
moved answers a key in the edition that it is not of:

>>> there = morgana.moved(old)
>>> there[0], len(old), len(there)
(7, 53, 61)
>>> morgana.moved(there) == old
True

Refusals. What the library refuses raises Refused, in every call but shorter,
and leaves the sheet:

>>> morgana.check(old[:40])
Traceback (most recent call last):
    ...
morgana.Refused: refused 2 at 30: record missing or cut off

Threads. Other threads run during a call. Keys and points are copied before
it; a caller's sheet must not be shared between simultaneous calls.

The library is loaded on import: the one whose path the environment variable
MORGANA_LIBRARY names. Without that variable it is the one in FOLDER, which
`make install` writes into the installed module, and where FOLDER is empty the
one that the system's loader finds. ImportError is raised where there is none,
or one of another major or minor version.
"""

import ctypes
import dataclasses
import enum
import fractions
import operator
import os
import secrets
import typing

__all__ = [
    "check", "evaluate", "cell", "compare", "locate", "shorter", "evaluate_quadratic",
    "compare_quadratic", "moved", "price", "version", "random_point", "likelihood", "Counts",
    "Values", "Quadratic", "Compared", "DifferingCell", "Refused", "Number", "P", "KEY_LIMIT",
    "MOST_ARRAYS", "MOST_BITS", "MOST_RATE", "SHEET", "SHEET_QUADRATIC", "FOLDER",
]

__version__ = "0.7.0"

# The folder of the installed library; empty in a module that is not installed.
FOLDER = ""

# The prime p, the most bytes of a key, arrays of a key and bits of an axis, the greatest rate of a
# price, and the places of a sheet that is long enough for every key, over p and over p*p.
P = 2147483647
KEY_LIMIT = 65536
MOST_ARRAYS = 1024
MOST_BITS = 30
MOST_RATE = 1_000_000
SHEET = 3 * MOST_ARRAYS
SHEET_QUADRATIC = 6 * MOST_ARRAYS

# Versions that differ in the patch alone have one interface, and one name for the loader.
_INTERFACE = __version__.rpartition(".")[0]
_SONAME = f"libmorgana.so.{_INTERFACE}"
_MOST_POINTS = 1000
_TOP = 2**32 - 1


class Number(enum.IntEnum):
    """The numbers of refusals that the calls can give, each with its sentence."""

    KEY_TOO_LONG = 1, "key over 65,536 bytes"
    RECORD_INCOMPLETE = 2, "record missing or cut off"
    KIND_UNKNOWN = 3, "unknown kind"
    RECORD_MISPLACED = 4, "record not allowed at this point, or end before any array"
    BITS_TOO_MANY = 5, "head bits over 30, or array bits over the head's"
    ARRAYS_TOO_MANY = 6, "a 1,025th array"
    CELL_OUTSIDE = 7, "cell address outside its array"
    VALUE_TOO_GREAT = 8, "cell value or factor p or more"
    CALLED_NOT_EARLIER = 9, "called id not earlier"
    CALLED_TOO_LARGE = 10, "called array larger in rows or columns"
    POSITION_TOO_GREAT = 11, "call position too great"
    LAST_SHAPE_WRONG = 12, "last array not of the head's shape"
    BYTES_AFTER_END = 13, "bytes after the end"
    ROW_COUNT_WRONG = 21, "row count not n (N for two keys, twice that over p²)"
    COLUMN_COUNT_WRONG = 22, "column count not n' (N' for two keys, twice that over p²)"
    COORDINATE_TOO_GREAT = 23, "coordinate p or more"
    ADDRESS_OUTSIDE = 24, "row or column outside the last array"
    SHEET_TOO_SHORT = 31, "sheet below 3·arrays, or 6·arrays over p²"
    BUFFER_TOO_SHORT = 32, "copy doesn't fit the buffer"
    FACTOR_NOT_ONE = 55, "a factor other than 1 on the way back"
    MOVED_TOO_LONG = 56, "moved key over 65,536 bytes"
    RATE_TOO_GREAT = 62, "a rate over 1,000,000"

    def __new__(cls, number, sentence):
        member = int.__new__(cls, number)
        member._value_, member.sentence = number, sentence
        return member


class Refused(Exception):
    """A call is refused.

    number    the condition that was met, a Number
    place     where: for 1 to 13 an offset in the key; for 21 and 22 the count
              of numbers received; for 23 the number's index, rows first; for
              24 0 for the row and 1 for the column; for 31 the length needed;
              for 32 the copy's length; for 55 the offset of the call; for
              56 the moved key's length; for 62 0 for the rate per cell, 1 for
              that per call and 2 for that per factor
    key       the key that a refused comparison names, 1 or 2, else None
    sentence  the condition in words
    """

    def __init__(self, number, place, key=None):
        super().__init__(number, place, key)
        self.number = Number(number)
        self.place = place
        self.key = key

    @property
    def sentence(self):
        """The condition that the number stands for."""
        if self.number == Number.ADDRESS_OUTSIDE:
            return f"{'column' if self.place else 'row'} outside the last array"
        return self.number.sentence

    def __str__(self):
        named = {1: "; first key", 2: "; second key"}.get(self.key, "")
        return f"refused {self.number:d} at {self.place}: {self.sentence}{named}"


# Answers are made by keyword alone, as later versions may add fields to them.
_answer = dataclasses.dataclass(frozen=True, kw_only=True)


@_answer
class Counts:
    """An accepted key: how many arrays, cells and calls it has, and the row
    bits n and the column bits n' of its head.
    """

    arrays: int
    cells: int
    calls: int
    rows: int
    columns: int

    def larger_shape(self, other):
        """Answers N and N' of two keys that are compared: the larger of their
        row bits and the larger of their column bits. They are what random_point
        takes, and their sum is the m of likelihood.
        """
        return max(self.rows, other.rows), max(self.columns, other.columns)


class Quadratic(typing.NamedTuple):
    """An element u + v*i of the field of p*p elements, where i*i is -1."""

    u: int
    v: int


@_answer
class Values:
    """A, B and C of a key's last array: numbers below p, or over p*p a
    Quadratic each; and how many factors the weights of the key's cells and
    calls have, one for each coordinate, or None in what locate answers, which
    counts none. Two are equal where A, B and C are, whatever the keys' counts.
    """

    a: int | Quadratic
    b: int | Quadratic
    c: int | Quadratic
    factors: int | None = dataclasses.field(default=None, compare=False)


class DifferingCell(typing.NamedTuple):
    """A cell in which the dense matrices of two keys' last arrays differ, in A,
    in B or in C: its row and its column, and the Values of the first key and of
    the second there. They are zero beyond a key's own 2^n rows and 2^n' columns.
    """

    row: int
    column: int
    first: Values
    second: Values


@_answer
class Compared:
    """What is found of two keys at a point, and how many factors both have
    together, as Values counts them, and one for each coordinate that a key does
    not use; two are equal where `same` is. It has no truth value of its own:
    `same` is the field to ask.
    """

    same: bool
    factors: int = dataclasses.field(compare=False)

    def __bool__(self):
        raise TypeError("Compared has no truth value: use .same")


def _reply(name, *fields, last=None):
    """The structure that a call answers: number, place, then these fields, of 32 bits each, and
    then the last one, of 64 bits, where there is one.
    """
    types = [("number", ctypes.c_uint32), ("place", ctypes.c_uint64)]
    types += [(field, ctypes.c_uint32) for field in fields]
    types += [(last, ctypes.c_uint64)] if last else []
    return type(name, (ctypes.Structure,), {"_fields_": types})


class _ShorterReply(ctypes.Structure):
    """What morgana_shorter answers: the key that is handed back whole, 1 or 2, and its length; 0
    and 0 for the empty beginning of the first.
    """

    _fields_ = [("key", ctypes.c_uint32), ("length", ctypes.c_uint64)]


_SIX = "a_u", "a_v", "b_u", "b_v", "c_u", "c_v"
_BOTH = "first_a", "first_b", "first_c", "second_a", "second_b", "second_c"

_CheckReply = _reply("_CheckReply", "arrays", "cells", "calls", "rows", "columns")
_EvaluateReply = _reply("_EvaluateReply", "a", "b", "c", last="factors")
_QuadraticReply = _reply("_QuadraticReply", *_SIX, last="factors")
_CompareReply = _reply("_CompareReply", "key", "same", last="factors")
_LocateReply = _reply("_LocateReply", "key", "same", "row", "column", *_BOTH)
_MoveReply = _reply("_MoveReply", last="length")
_PriceReply = _reply("_PriceReply", last="pence")

_KEY = (ctypes.c_char_p, ctypes.c_size_t)
_BUFFER = (ctypes.c_char_p, ctypes.c_size_t)
_PLACE = (ctypes.c_uint32, ctypes.c_uint32)
_RATES = (ctypes.c_uint32, ctypes.c_uint32, ctypes.c_uint32)
_NUMBERS = (ctypes.POINTER(ctypes.c_uint32), ctypes.c_size_t)

# The functions of the library: what each answers, and what it takes.
_FUNCTIONS = {
    "morgana_version": (ctypes.c_uint32, ()),
    "morgana_check": (_CheckReply, _KEY),
    "morgana_evaluate": (_EvaluateReply, _KEY + 3 * _NUMBERS),
    "morgana_cell": (_EvaluateReply, _KEY + _PLACE + _NUMBERS),
    "morgana_compare": (_CompareReply, 2 * _KEY + 3 * _NUMBERS),
    "morgana_locate": (_LocateReply, 2 * _KEY + 3 * _NUMBERS),
    "morgana_shorter": (_ShorterReply, 2 * _KEY + 3 * _NUMBERS),
    "morgana_evaluate_quadratic": (_QuadraticReply, _KEY + 3 * _NUMBERS),
    "morgana_compare_quadratic": (_CompareReply, 2 * _KEY + 3 * _NUMBERS),
    "morgana_move": (_MoveReply, _KEY + _BUFFER),
    "morgana_price": (_PriceReply, _KEY + _RATES),
}


def _chosen():
    """Which library is loaded: its path, or its name alone for the system's loader."""
    named = os.environ.get("MORGANA_LIBRARY")
    return os.path.abspath(named) if named else os.path.join(FOLDER, _SONAME)


def _version_text(number):
    """The version that one number stands for, as 0.7.0."""
    return f"{number // 1_000_000}.{number // 1_000 % 1_000}.{number % 1_000}"


def _loaded():
    """The library, of this module's interface, with its functions declared."""
    path = _chosen()
    try:
        library = ctypes.CDLL(path)
        found = _version_text(library.morgana_version())
        if found.rpartition(".")[0] != _INTERFACE:
            raise ImportError(f"morgana.py is version {__version__}, but {path} is version {found}")
        for name, (answer, arguments) in _FUNCTIONS.items():
            function = getattr(library, name)
            function.restype, function.argtypes = answer, arguments
    except (OSError, AttributeError) as error:
        tried = f"no Morgana library: tried {path} ({error}); MORGANA_LIBRARY can name another"
        raise ImportError(tried) from None
    return library


_library = _loaded()


def _bytes(key):
    """A key's bytes and their number, copied."""
    with memoryview(key) as view:
        # A longer key is refused with 1 whatever stands in it, so that zeros serve for it.
        data = bytes(KEY_LIMIT + 1) if view.nbytes > KEY_LIMIT else view.tobytes()
    return data, len(data)


def _number(name, number):
    """A number as the library takes it, in 32 bits."""
    number = operator.index(number)
    if number < 0:
        raise ValueError(f"{name}: negative number")
    # As a coordinate, a row, a column or a rate every number from p on is refused alike, with 23,
    # 24 or 62 at the same place, so that the greatest number of 32 bits serves for all above it.
    return min(number, _TOP)


def _numbers(name, numbers):
    """Numbers as the library takes them, and how many they are."""
    listed = [_number(name, number) for number in numbers]
    return (ctypes.c_uint32 * len(listed))(*listed), len(listed)


def _serves(view):
    """Whether a buffer is a sheet: 32-bit unsigned items in the order of this machine's bytes,
    writable and without gaps.
    """
    unsigned = view.itemsize == 4 and view.format.lstrip("@=<") in ("I", "L")
    return unsigned and view.c_contiguous and not view.readonly


def _lent(sheet, places):
    """A sheet as the library takes it, and its length: the caller's, or one of so many places."""
    if sheet is None:
        return (ctypes.c_uint32 * places)(), places
    with memoryview(sheet) as view:
        if not _serves(view):
            raise TypeError("sheet: no writable, contiguous buffer of 32-bit unsigned items")
        length = view.nbytes // 4
    if length == 0:
        return None, 0
    lent = (ctypes.c_uint32 * length).from_buffer(sheet)
    if ctypes.addressof(lent) % ctypes.alignment(lent):
        raise TypeError("sheet: not aligned as 32-bit items are")
    return lent, length


def _at_point(function, keys, rows, columns, sheet, places):
    """The reply of a function to keys, a point and a sheet."""
    # Nothing here outlives the call, so that a refusal that is kept holds no lent sheet.
    bytes_of_keys = [argument for key in keys for argument in _bytes(key)]
    point = *_numbers("rows", rows), *_numbers("columns", columns)
    return function(*bytes_of_keys, *point, *_lent(sheet, places))


def _accepted(reply):
    """A reply that refuses nothing; any other raises Refused."""
    if reply.number:
        raise Refused(reply.number, reply.place, getattr(reply, "key", 0) or None)
    return reply


def _values(reply):
    """The Values of a reply over p."""
    return Values(a=reply.a, b=reply.b, c=reply.c, factors=reply.factors)


def _compared(reply):
    """What a reply to a comparison says."""
    return Compared(same=reply.same == 1, factors=reply.factors)


def _located(reply):
    """The cell that a reply gives, or None where it says that the keys are the same."""
    if reply.same == 1:
        return None
    first = Values(a=reply.first_a, b=reply.first_b, c=reply.first_c)
    second = Values(a=reply.second_a, b=reply.second_b, c=reply.second_c)
    return DifferingCell(reply.row, reply.column, first, second)


def version():
    """The library's version as one number: 1,000,000 for each major, 1,000 for
    each minor and 1 for each patch version.
    """
    return _library.morgana_version()


def check(key):
    """Answers the Counts of an accepted key.

    Refuses with 1; then record by record with 2 for no byte, 3, 2 for a cut
    body, 4, 6, 5, 7 to 12 by number; then with 13. A call of the other edition
    than the head's is refused with 4, and a factor of p or more with 8.
    """
    reply = _accepted(_library.morgana_check(*_bytes(key)))
    names = "arrays", "cells", "calls", "rows", "columns"
    return Counts(**{name: getattr(reply, name) for name in names})


def evaluate(key, rows, columns, sheet=None):
    """Answers the Values of a key at a point of n row and n' column
    coordinates. The sheet then has array i's A, B and C from place 3i on, and
    its places behind the last array's are as they were.

    Refuses as check does; then with 21, 22, 23; then with 31 for a sheet of
    fewer than 3 places an array.
    """
    function = _library.morgana_evaluate
    reply = _accepted(_at_point(function, [key], rows, columns, sheet, SHEET))
    return _values(reply)


def cell(key, row, column, sheet=None):
    """Answers the Values of a key at one row and column of its dense matrices.
    The sheet is then as after evaluate at the point whose coordinates are the
    bits of row and column, lowest first.

    Refuses as check does; then with 24; then with 31 as evaluate does.
    """
    place = _number("row", row), _number("column", column)
    reply = _accepted(_library.morgana_cell(*_bytes(key), *place, *_lent(sheet, SHEET)))
    return _values(reply)


def compare(first, second, rows, columns, sheet=None):
    """Answers whether two keys have the same A, B and C at a point of N row and
    N' column coordinates, each read as filled with zeros, as Compared.
    Any two accepted keys are taken; N and N' are what Counts.larger_shape
    answers. The sheet is then as after evaluating the first key at its own
    first n and n' coordinates and then the second at its own.

    Refuses as check does for the first key, then for the second, and names the
    key; then with 21 and 22 by N and N'; then with 23; then with 31 for the key
    with more arrays.
    """
    function = _library.morgana_compare
    reply = _accepted(_at_point(function, [first, second], rows, columns, sheet, SHEET))
    return _compared(reply)


def locate(first, second, rows, columns, sheet=None):
    """Answers a cell in which two keys differ, as a DifferingCell, where they
    are different at a point, as compare takes it; None where they are the same
    there. That the answered cell differs is certain. Cells before it may differ
    too. The sheet is then as after compare at the point, or, where a cell is
    answered, at the point of the bits of its row and of its column, lowest
    first.

    The keys are compared at the point, and then once for each of its
    coordinates, from the first of the rows to the last of the columns: it is
    set to 0, or to 1 where the keys are the same with 0, and kept so.

    Refuses as compare does.
    """
    function = _library.morgana_locate
    reply = _accepted(_at_point(function, [first, second], rows, columns, sheet, SHEET))
    return _located(reply)


def shorter(first, second, rows, columns, sheet=None):
    """Answers the shorter of two keys, the very object that was given, where
    they are the same at a point, as compare takes it; of two of one length the
    first. Where they are different there, or compare refuses, it answers the
    empty beginning of the first, first[:0], as its own slicing gives it. No
    accepted key is empty, so that what is answered is empty exactly where
    compare does not say same. The sheet is as compare leaves it.

    Raises no Refused: compare tells the number, the place and the key.
    """
    function = _library.morgana_shorter
    reply = _at_point(function, [first, second], rows, columns, sheet, SHEET)
    if reply.key == 0:
        return first[:0]
    return first if reply.key == 1 else second


def evaluate_quadratic(key, rows, columns, sheet=None):
    """Answers the Values of a key, each a Quadratic, at a point over p*p:
    2n numbers for the rows and 2n' for the columns, u before v. The sheet then
    has array i's six numbers from place 6i on, u and v of A, of B and of C.

    Refuses as evaluate does, with counts and places of numbers; 31 is for a
    sheet of fewer than 6 places an array.
    """
    function = _library.morgana_evaluate_quadratic
    reply = _accepted(_at_point(function, [key], rows, columns, sheet, SHEET_QUADRATIC))
    return Values(
        a=Quadratic(reply.a_u, reply.a_v),
        b=Quadratic(reply.b_u, reply.b_v),
        c=Quadratic(reply.c_u, reply.c_v),
        factors=reply.factors,
    )


def compare_quadratic(first, second, rows, columns, sheet=None):
    """Answers what compare does at a point over p*p: 2N numbers for the rows and
    2N' for the columns, u before v. The sheet is then as after
    evaluate_quadratic of the first key at its own coordinates and then of the
    second at its own.

    Refuses as compare does, with counts and places as evaluate_quadratic.
    """
    function = _library.morgana_compare_quadratic
    reply = _accepted(_at_point(function, [first, second], rows, columns, sheet, SHEET_QUADRATIC))
    return _compared(reply)


def moved(key):
    """Answers the bytes of a key in the edition that its head is not of: heads
    change between 01 and 07 and calls between 05 and 08, which have factor 1;
    all else is the same. So it has the same counts and matrices, and moving it
    gives the first bytes again.

    Refuses as check does; then with 55 for the first call of edition 2 whose
    factor is not 1; then with 56 where it would be too long.
    """
    # As long as a key may be, so that 32 does not come.
    buffer = ctypes.create_string_buffer(KEY_LIMIT)
    reply = _accepted(_library.morgana_move(*_bytes(key), buffer, KEY_LIMIT))
    return buffer[:reply.length]


def price(key, per_cell, per_call, per_factor):
    """Answers what evaluating a key costs, in pence, at rates in hundredths of a
    penny: its cells times the rate per cell, its calls times that per call and
    its factors times that per factor, the sum of these divided by 100, and half
    a penny rounded upwards. Cells and calls are as check counts them, factors as
    evaluate does: over all arrays, called or not. With the rates 0, 0 and 100 it
    is the count of factors itself.

    Refuses as check does; then with 62 for the first rate over MOST_RATE.
    """
    named = ("per_cell", per_cell), ("per_call", per_call), ("per_factor", per_factor)
    rates = [_number(*each) for each in named]
    return _accepted(_library.morgana_price(*_bytes(key), *rates)).pence


def _between(name, number, least, most):
    """The number, where it is in its range; any other raises ValueError."""
    number = operator.index(number)
    if not least <= number <= most:
        raise ValueError(f"{name}: not from {least} to {most}")
    return number


def random_point(rows, columns, quadratic=False):
    """Answers row and column coordinates, two lists of numbers, for a key with
    these row bits n and column bits n', as check answers them, or for two keys
    with N and N', as Counts.larger_shape answers them. Each point is as likely
    as any other; the numbers come from the system's secure source.

    Raises ValueError for bits that are negative or over 30.
    """
    bits = _between("rows", rows, 0, MOST_BITS), _between("columns", columns, 0, MOST_BITS)
    size = 2 if quadratic else 1
    return tuple([secrets.randbelow(P) for _ in range(size * count)] for count in bits)


def likelihood(m, points=1, quadratic=False):
    """Answers, as an exact Fraction, an upper bound on the probability that
    keys that differ in a cell, the smaller filled with zeros, are found the
    same at so many independent random points:
    (1 - ((q - 1) / q)**m)**points, where q is p, or p*p if quadratic, and m is
    N + N', the larger row bits and the larger column bits of the two keys.

    >>> likelihood(2)
    Fraction(4294967293, 4611686014132420609)

    Raises ValueError unless m is 0 to 60 and points is 1 to 1,000. Of many
    points the fraction has more digits than Python prints, as for m = 60 and 8
    points: `float` gives a number to print, which may be too small by a rounding,
    and is 0.0 where no float is as small.
    """
    m = _between("m", m, 0, 2 * MOST_BITS)
    points = _between("points", points, 1, _MOST_POINTS)
    q = P**2 if quadratic else P
    return (1 - fractions.Fraction(q - 1, q) ** m) ** points
