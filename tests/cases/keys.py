"""The keys in words that several lists of cases are about, and short words for others."""

import itertools
import operator
import re

from tests.draw.changes import grown
from tests.draw.keys import encoded
from tests.model.fields import P
from tests.model.records import records_in
from tests.model.words import joined, key, key_words, words

# 01, 'The keysheet program and the host': the key of the sample input.
SAMPLE = bytes.fromhex(
    "010101 020001 04 00000000 01000000 05000000 07000000 00000000 030101"
    "05 0000 00000000 00000000 05 0000 00000000 00000000 06"
)

# A key whose arrays have several shapes, all but the last smaller than the head's in rows or in columns.
NESTED = (
    "head 3 2, sparse 1 1, cell 0 1 2 3 5, cell 1 0 7 11 13, sparse 0 2, cell 0 3 17 19 23, "
    "recursive 2 1, call 0 1 0, call 0 0 0, recursive 1 2, call 0 0 1, call 1 0 0, call 1 1 0, "
    "recursive 3 2, call 2 1 1, call 3 3 0, call 0 3 1, call 1 7 0, end"
)

# Arrays in which something overlaps, is repeated or is empty; the last has three row bits and one column bit.
PATTERNS = (
    "sparse 3 1, cell 0 0 1 2 3, cell 7 1 4 5 6, cell 0 0 7 8 9, cell 7 1 10 11 12, cell 0 0 13 14 15",
    "sparse 3 1, 3 times cell 5 1 1 2 3, cell 5 0 4 5 6, 2 times cell 5 1 7 8 9",
    "sparse 2 1, cell 1 1 1 2 3, cell 3 0 4 5 6, recursive 3 1, 3 times call 0 1 0",
    "sparse 2 1, cell 1 1 1 2 3, recursive 3 1, call 0 0 0, call 0 1 0, call 0 0 0",
    "sparse 2 0, cell 2 0 1 2 3, sparse 1 1, cell 0 1 4 5 6, recursive 3 1, call 0 0 0, call 1 1 0, call 0 0 1",
    "sparse 0 1, cell 0 1 1 2 3, sparse 0 1, cell 0 1 4 5 6, recursive 3 1, call 0 6 0, call 1 6 0, call 0 6 0",
    "sparse 3 1, cell 6 1 1 2 3, recursive 3 1, call 0 0 0, recursive 3 1, call 0 0 0, 3 times call 1 0 0",
    "sparse 3 1",
    "recursive 3 1",
    "sparse 0 0, recursive 3 1, 4 times call 0 7 1",
    "recursive 2 0, sparse 1 1, cell 1 1 1 2 3, recursive 3 1, call 0 1 1, call 1 3 0, call 0 0 0",
    "sparse 1 1, cell 1 1 1 2 3, recursive 2 1, call 0 1 0, recursive 3 1",
    "sparse 1 1, cell 1 1 1 2 3, recursive 2 1, call 0 1 0, sparse 3 1, cell 4 0 4 5 6",
    f"sparse 1 1, cell 0 1 1 0 0, cell 0 1 {P - 1} 0 0, recursive 3 1, call 0 2 0, call 0 3 0",
)

# The arrays of a key of two row bits and one column bit, and others that describe the same circuit.
CIRCUIT = f"sparse 2 1, cell 0 0 5 7 9, cell 3 1 2 0 {P - 1}"
REWRITTEN = (
    # Cells in another order, split, with value 0, and that cancel.
    f"sparse 2 1, cell 3 1 2 0 {P - 1}, cell 0 0 5 7 9",
    f"sparse 2 1, cell 0 0 2 3 9, cell 3 1 2 0 {P - 1}, cell 0 0 3 4 0",
    f"sparse 2 1, cell 0 0 5 7 9, cell 3 1 1 0 {P - 2}, cell 3 1 1 0 1",
    f"sparse 2 1, cell 0 0 5 7 9, cell 1 0 0 0 0, cell 3 1 2 0 {P - 1}, cell 3 0 0 0 0",
    f"sparse 2 1, cell 2 1 4 0 1, cell 0 0 5 7 9, cell 3 1 2 0 {P - 1}, cell 2 1 {P - 4} 0 {P - 1}",
    f"sparse 2 1, cell 0 0 {P - 1} 7 9, cell 3 1 2 {P - 1} {P - 2}, cell 0 0 6 0 0, cell 3 1 0 1 1",
    # Arrays that nobody calls, before and of every shape.
    f"sparse 0 0, cell 0 0 1 2 3, {CIRCUIT}",
    f"sparse 2 1, cell 1 1 1 2 3, recursive 2 1, call 0 0 0, recursive 1 1, {CIRCUIT}",
    # Arrays called instead of written out.
    f"{CIRCUIT}, recursive 2 1, call 0 0 0",
    f"sparse 0 0, cell 0 0 5 7 9, sparse 1 1, cell 1 1 2 0 {P - 1}, recursive 2 1, call 0 0 0, call 1 1 0",
    f"sparse 1 0, cell 0 0 5 7 9, sparse 0 1, cell 0 1 2 0 {P - 1}, recursive 2 1, call 1 3 0, call 0 0 0",
    f"sparse 0 0, cell 0 0 1 1 1, sparse 0 0, cell 0 0 2 0 {P - 1}, recursive 2 1, "
    "5 times call 0 0 0, call 1 3 1, sparse 2 1, cell 0 0 0 2 4, recursive 2 1, call 2 0 0, call 3 0 0",
    f"sparse 0 0, recursive 0 0, {CIRCUIT}, recursive 2 1, call 0 1 1, call 1 3 0, call 2 0 0",
    # Calls that overlap and cancel.
    f"sparse 1 0, cell 1 0 3 4 5, sparse 1 0, cell 1 0 {P - 3} {P - 4} {P - 5}, {CIRCUIT}, "
    "recursive 2 1, call 0 1 1, call 2 0 0, call 1 1 1",
)

# The arrays of keys of that shape whose matrices are 0.
EMPTY = (
    "sparse 2 1",
    "recursive 2 1",
    "sparse 2 1, cell 3 1 0 0 0",
    f"sparse 2 1, cell 2 1 1 2 3, cell 2 1 {P - 1} {P - 2} {P - 3}",
    "sparse 0 0, recursive 1 1, call 0 1 1, recursive 2 1, 2 times call 1 0 0",
    f"sparse 0 0, cell 0 0 {P // 2} 0 0, recursive 2 1, 2 times call 0 2 1, sparse 2 1, cell 2 1 1 0 0, "
    "recursive 2 1, call 1 0 0, call 2 0 0",
)

# Keys of one row bit and no column bits, of one array, of two and of three; the last is the same circuit as the first.
ONE = "head 1 0, sparse 1 0, cell 1 0 1 2 3, end"
TWO = "head 1 0, sparse 0 0, cell 0 0 7 8 9, recursive 1 0, call 0 0 0, end"
THREE = "head 1 0, sparse 0 0, cell 0 0 1 2 3, recursive 1 0, sparse 1 0, cell 1 0 1 2 3, end"

# A key of no bits, which has grown into the one of two arrays above, and a key of one column bit.
NONE = "head 0 0, sparse 0 0, cell 0 0 7 8 9, end"
ACROSS = "head 0 1, sparse 0 1, cell 0 1 1 2 3, end"

# 01, 'Who can cause a refusal': for each number of check a key, with one row bit and no column bits, and the place.
FAULTY = {
    1: ("65537 times bytes 00", 65536),
    2: ("head 1 0, sparse 1 0, cell 0 0 1 2 3", 27),
    3: ("head 1 0, sparse 1 0, bytes 09, end", 6),
    4: ("head 1 0, sparse 1 0, call 0 0 0, end", 6),
    5: ("head 1 0, sparse 2 0, sparse 1 0, end", 3),
    6: ("head 1 0, 1025 times sparse 1 0, end", 3075),
    7: ("head 1 0, sparse 1 0, cell 2 0 1 2 3, end", 6),
    8: (f"head 1 0, sparse 1 0, cell 0 0 1 2 {P}, end", 6),
    9: ("head 1 0, recursive 1 0, call 0 0 0, end", 6),
    10: ("head 1 0, sparse 1 0, recursive 0 0, call 0 0 0, sparse 1 0, end", 9),
    11: ("head 1 0, sparse 0 0, recursive 1 0, call 0 2 0, end", 9),
    12: ("head 1 0, sparse 1 0, sparse 0 0, end", 9),
    13: ("head 1 0, sparse 1 0, end, end", 7),
}

# A key of two row bits and two column bits.
SQUARE = "head 2 2, sparse 1 1, cell 0 0 1 2 3, recursive 2 2, call 0 1 1, end"


def pair(axis, x, other):
    """One thing for each axis: x on this one, rows 0 or columns 1."""
    return (x, other) if axis == 0 else (other, x)


def single(bits, place, values):
    """A key of one cell in words."""
    return f"{words('head', bits)}, {words('sparse', bits)}, {words('cell', (*place, *values))}, end"


def scaled(text, factor=1):
    """A key of edition 1 in words as one of edition 2 whose calls have this factor; what is in bytes stays."""
    text = re.sub(r"\bhead (\d+ \d+)", r"scaled_head \1", text)
    return re.sub(r"\bcall (\d+ \d+ \d+)", rf"scaled_call \1 {factor}", text)


def enlarged(text, more, position=(0, 0), factor=1):
    """A key in words of so many row and column bits more than this one, whose last array calls this one's last at a position,
    and in edition 2 with a factor.
    """
    return key_words(encoded(grown(records_in(key(text))[0], more, position, factor)))


def unused(one, other):
    """How many coordinates of a point for keys of these bits are not used by one of them: 02, E7."""
    return sum(abs(n - k) for n, k in zip(one, other, strict=True))


def places(bits):
    """The places of a matrix, the last one last."""
    return itertools.product(*(range(2**n) for n in bits))


def last_place(bits):
    """The last place of a matrix."""
    return tuple(2**n - 1 for n in bits)


def grown_bits(bits, more):
    """The bits of a key that has so many row and column bits more."""
    return tuple(map(operator.add, bits, more))


def keyed(arrays):
    """A key of two row bits and one column bit, in words."""
    return f"head 2 1, {arrays}, end"


def part(which, value):
    """Values of which A, B or C, by its number, is this one and the others are 0."""
    return tuple(value if i == which else 0 for i in range(3))


def of_cells(bits, cells):
    """A key of one array in words; of each cell its place and its values."""
    items = (words("cell", (*place, *values)) for place, values in cells)
    return joined(words("head", bits), words("sparse", bits), *items, "end")
