"""Inputs of keysheet and their bytes, and cases: inputs with what is printed for them."""

import struct
from typing import NamedTuple

PRIME = 2**31 - 1
FIELDS = {1: "BB", 2: "BB", 3: "BB", 4: "IIIII", 5: "HII", 6: "", 7: "BB", 8: "HIII"}
LARGEST = {"B": 2**8 - 1, "H": 2**16 - 1, "I": 2**32 - 1}


class Record(NamedTuple):
    """A record: its kind and its fields."""

    kind: int
    fields: tuple = ()

    def written(self):
        """The record's bytes."""
        return struct.pack("<B" + FIELDS[self.kind], self.kind, *self.fields)

    def with_field(self, index, number):
        """The record with one field changed to the number, or to the largest that the field holds."""
        fields = list(self.fields)
        fields[index] = min(number, LARGEST[FIELDS[self.kind][index]])
        return Record(self.kind, tuple(fields))


def head(row_bits, column_bits):
    """A head."""
    return Record(1, (row_bits, column_bits))


def scaled_head(row_bits, column_bits):
    """A head of edition 2."""
    return Record(7, (row_bits, column_bits))


def sparse(row_bits, column_bits):
    """The opening of a sparse array."""
    return Record(2, (row_bits, column_bits))


def recursive(row_bits, column_bits):
    """The opening of a recursive array."""
    return Record(3, (row_bits, column_bits))


def cell(row, column, a=1, b=0, c=0):
    """A cell."""
    return Record(4, (row, column, a, b, c))


def call(called, row_position=0, column_position=0):
    """A call of the array whose id is given."""
    return Record(5, (called, row_position, column_position))


def scaled_call(called, row_position=0, column_position=0, factor=1):
    """A call of edition 2."""
    return Record(8, (called, row_position, column_position, factor))


END = Record(6)


class Input(NamedTuple):
    """An input of keysheet: row coordinates, column coordinates and the key's records."""

    rows: list
    columns: list
    records: list

    def point_written(self):
        """The bytes before the key."""
        coordinates = [*self.rows, *self.columns]
        return struct.pack(f"<BB{len(coordinates)}I", len(self.rows), len(self.columns), *coordinates)

    def written(self):
        """The input's bytes."""
        return self.point_written() + b"".join(record.written() for record in self.records)


ACCEPTED = "key "


class Case(NamedTuple):
    """An input's bytes, how the text printed for it begins, and the way the input is fed to the program."""

    data: bytes
    stated: str = ""
    feed: str = "pipe"


def refused(number, place):
    """The text of a refusal."""
    return f"refused {number} at {place}\n"
