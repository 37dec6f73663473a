"""Keys, points and sheets in the forms that a caller may have them in."""

import array
import collections
import ctypes


class Whole(collections.namedtuple("Whole", "number")):
    """An integer of a type of its own, as those of Sage and numpy are."""

    def __index__(self):
        return self.number


def gapped(data):
    """The bytes as a view with other bytes between them."""
    buffer = bytearray(b"\xff" * (2 * len(data)))
    buffer[::2] = data
    return memoryview(buffer)[::2]


def turned(data):
    """The bytes as a view that runs backwards."""
    return memoryview(data[::-1])[::-1]


def wholes(numbers):
    """The numbers as integers of another type."""
    return [Whole(number) for number in numbers]


def generated(numbers):
    """The numbers one by one."""
    return (number for number in numbers)


def typed(numbers):
    """The numbers as an array of 32-bit items."""
    return array.array("I", numbers)


def ctyped(numbers):
    """The numbers as a ctypes array."""
    return (ctypes.c_uint32 * len(numbers))(*numbers)


def viewed(numbers):
    """The numbers as a view of bytes as 32-bit items."""
    return memoryview(bytearray(array.array("I", numbers).tobytes())).cast("I")


def inner(numbers):
    """The numbers as a part of a longer array."""
    return memoryview(array.array("I", [7, *numbers, 7]))[1:-1]


KEYS = (bytes, bytearray, memoryview, gapped, turned)
POINTS = (list, tuple, iter, generated, wholes, typed, ctyped)
SHEETS = (typed, ctyped, viewed, inner)


def one_of(draw, forms, thing):
    """The thing in one of the forms."""
    return forms[draw.below(len(forms))](thing)
