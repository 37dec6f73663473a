"""A key moved into the other edition: its arrays, as they were read, are written once more behind the other head."""

import struct

from .keys import CALL, CELL, END, HEAD, KEY_LIMIT, SCALED_CALL, SCALED_HEAD, SPARSE, check, require


def written_call(call, head):
    """The bytes of a call in a key with this head."""
    fields = call.id, call.row_position, call.column_position
    if head == HEAD:
        return struct.pack("<BHII", CALL, *fields)
    return struct.pack("<BHIII", SCALED_CALL, *fields, call.factor)


def written_array(array, head):
    """The bytes of an array in a key with this head."""
    opening = struct.pack("<BBB", array.kind, array.row_bits, array.column_bits)
    if array.kind == SPARSE:
        entries = [struct.pack("<BIIIII", CELL, cell.row, cell.column, *cell.values) for cell in array.cells]
    else:
        entries = [written_call(call, head) for call in array.calls]
    return opening + b"".join(entries)


def move_on(key_bytes, buffer):
    """The length of the key in the other edition, and the buffer with that key at its start. Refuses with 1 to 13, 55, 56 and
    32.
    """
    key = check(key_bytes)
    calls = [call for array in key.arrays for call in array.calls]
    for call in calls:
        require(key.head == HEAD or call.factor == 1, 55, call.place)
    length = key.length + (4 if key.head == HEAD else -4) * len(calls)
    require(length <= KEY_LIMIT, 56, length)
    require(length <= len(buffer), 32, length)
    head = SCALED_HEAD if key.head == HEAD else HEAD
    copy = struct.pack("<BBB", head, key.row_bits, key.column_bits)
    copy += b"".join(written_array(array, head) for array in key.arrays) + bytes([END])
    return len(copy), copy + buffer[len(copy) :]
