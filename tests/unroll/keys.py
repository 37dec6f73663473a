"""Records and keys: the bytes of a key read, and judged, record by record."""

import struct
from dataclasses import dataclass, field

from .fields import PRIME

KEY_LIMIT = 65536
ARRAY_LIMIT = 1024
BITS_LIMIT = 30

HEAD, SPARSE, RECURSIVE, CELL, CALL, END, SCALED_HEAD, SCALED_CALL = 1, 2, 3, 4, 5, 6, 7, 8
HEADS = HEAD, SCALED_HEAD
BODIES = {
    HEAD: struct.Struct("<BB"),
    SPARSE: struct.Struct("<BB"),
    RECURSIVE: struct.Struct("<BB"),
    CELL: struct.Struct("<IIIII"),
    CALL: struct.Struct("<HII"),
    END: struct.Struct("<"),
    SCALED_HEAD: struct.Struct("<BB"),
    SCALED_CALL: struct.Struct("<HIII"),
}


class Refused(Exception):
    """A refusal: its number, its place and, of two keys that are compared, which it is about."""

    def __init__(self, number, place):
        super().__init__(f"refused {number} at {place}")
        self.number = number
        self.place = place
        self.which = "neither"


def require(holds, number, place):
    """Refuses with the number and the place unless the condition holds."""
    if not holds:
        raise Refused(number, place)


def take(key_bytes, offset):
    """The kind and the fields of the record at an offset, and the next offset. Refuses with 2 and 3."""
    require(offset < len(key_bytes), 2, offset)
    kind = key_bytes[offset]
    require(kind in BODIES, 3, offset)
    body = BODIES[kind]
    next_offset = offset + 1 + body.size
    require(next_offset <= len(key_bytes), 2, offset)
    return kind, body.unpack_from(key_bytes, offset + 1), next_offset


@dataclass
class Cell:
    """A cell: its place, and its values of A, B and C."""

    row: int
    column: int
    values: tuple


@dataclass
class Call:
    """A call: its place in the key, the number of the called array, the positions a and a', and its factor."""

    place: int
    id: int
    row_position: int
    column_position: int
    factor: int = 1


@dataclass
class Array:
    """An array: its kind, k, k', and its cells if it is sparse or its calls if it is recursive."""

    kind: int
    row_bits: int
    column_bits: int
    cells: list = field(default_factory=list)
    calls: list = field(default_factory=list)


@dataclass
class Key:
    """An accepted key: its length in bytes, the kind of its head, n, n' and its arrays."""

    length: int
    head: int
    row_bits: int
    column_bits: int
    arrays: list = field(default_factory=list)


def check(key_bytes):
    """The accepted key that the bytes are. Refuses with 1 to 13, at the first record at fault."""
    require(len(key_bytes) <= KEY_LIMIT, 1, KEY_LIMIT)
    kind, fields, offset = take(key_bytes, 0)
    require(kind in HEADS, 4, 0)
    require(max(fields) <= BITS_LIMIT, 5, 0)
    key = Key(len(key_bytes), kind, *fields)
    while kind != END:
        place = offset
        kind, fields, offset = take(key_bytes, place)
        require(kind not in HEADS, 4, place)
        if kind in (SPARSE, RECURSIVE):
            open_array(key, kind, fields, place)
        elif kind == CELL:
            add_cell(key, fields, place)
        elif kind != END:
            add_call(key, kind, fields, place)
    end_key(key, place)
    require(offset == len(key_bytes), 13, offset)
    return key


def open_array(key, kind, fields, place):
    """Gives the key a further array, without cells or calls. Refuses with 6 and 5."""
    row_bits, column_bits = fields
    require(len(key.arrays) < ARRAY_LIMIT, 6, place)
    require(row_bits <= key.row_bits and column_bits <= key.column_bits, 5, place)
    key.arrays.append(Array(kind, row_bits, column_bits))


def add_cell(key, fields, place):
    """Gives the key's newest array a cell. Refuses with 4, 7 and 8."""
    require(key.arrays and key.arrays[-1].kind == SPARSE, 4, place)
    array = key.arrays[-1]
    row, column, *values = fields
    require(row < 2**array.row_bits and column < 2**array.column_bits, 7, place)
    require(max(values) < PRIME, 8, place)
    array.cells.append(Cell(row, column, tuple(values)))


def add_call(key, kind, fields, place):
    """Gives the key's newest array a call, CALL behind HEAD, SCALED_CALL behind SCALED_HEAD. Refuses with 4 and 8 to 11."""
    require(key.arrays and key.arrays[-1].kind == RECURSIVE, 4, place)
    require((kind == CALL) == (key.head == HEAD), 4, place)
    array = key.arrays[-1]
    call = Call(place, *fields)
    require(call.factor < PRIME, 8, place)
    require(call.id < len(key.arrays) - 1, 9, place)
    called = key.arrays[call.id]
    require(called.row_bits <= array.row_bits and called.column_bits <= array.column_bits, 10, place)
    row_fits = call.row_position < 2 ** (array.row_bits - called.row_bits)
    column_fits = call.column_position < 2 ** (array.column_bits - called.column_bits)
    require(row_fits and column_fits, 11, place)
    array.calls.append(call)


def end_key(key, place):
    """Judges the end of the key at a place. Refuses with 4 and 12."""
    require(key.arrays, 4, place)
    last = key.arrays[-1]
    require((last.row_bits, last.column_bits) == (key.row_bits, key.column_bits), 12, place)


def larger_shape(one, other):
    """N and N' of two keys: the greater of their row bits and the greater of their column bits."""
    return max(one.row_bits, other.row_bits), max(one.column_bits, other.column_bits)
