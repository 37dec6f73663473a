"""What the program keysheet prints."""

import struct

from .calls import evaluate
from .keys import Refused, check, require

INPUT_LIMIT = 65536


def read_input(input_bytes):
    """The row coordinates, the column coordinates and the key's bytes. Refuses with 42 and 41."""
    length = len(input_bytes)
    require(length <= INPUT_LIMIT, 42, INPUT_LIMIT)
    require(length >= 2, 41, length)
    row_count, column_count = input_bytes[0], input_bytes[1]
    key_start = 2 + 4 * (row_count + column_count)
    require(length >= key_start, 41, length)
    coordinates = list(struct.unpack(f"<{row_count + column_count}I", input_bytes[2:key_start]))
    return coordinates[:row_count], coordinates[row_count:], input_bytes[key_start:]


def counts_line(key):
    """The first line for an accepted key: its length, its counts, n and n'."""
    cells = sum(len(array.cells) for array in key.arrays)
    calls = sum(len(array.calls) for array in key.arrays)
    return (
        f"key {key.length} bytes arrays {len(key.arrays)} cells {cells} calls {calls}"
        f" rows {key.row_bits} columns {key.column_bits}\n"
    )


def printed(input_bytes):
    """The bytes that keysheet prints for the input's bytes. Raises TooManyPlaces for a key that is not unrolled."""
    try:
        rows, columns, key_bytes = read_input(input_bytes)
        key = check(key_bytes)
        triples = evaluate(key, rows, columns)
    except Refused as refusal:
        return f"refused {refusal.number} at {refusal.place}\n".encode()
    lines = [f"{i} {a} {b} {c}\n" for i, (a, b, c) in enumerate(triples)]
    return (counts_line(key) + "".join(lines)).encode()
