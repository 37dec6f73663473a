"""When a key is accepted: the rules of its records, one by one (01, 'An accepted key', and 02, E9)."""

import collections

from .fields import P
from .records import Refusal, record_at

# A key's head: its name and its bits.
Head = collections.namedtuple("Head", ("name", "bits"))

# An array of a key: its opening's name, its bits and the fields of its cells or calls; a call's last field is its factor.
Array = collections.namedtuple("Array", ("name", "bits", "entries"))

# 02, E9: the head of each edition, and the calls that a key of it has.
CALLS = {"head": "call", "scaled_head": "scaled_call"}


def larger(bits, limits):
    """Whether row bits or column bits are over their limit."""
    return any(x > limit for x, limit in zip(bits, limits, strict=True))


def outside(numbers, bits):
    """Whether a row number or a column number does not fit its bits."""
    return any(x >= 2**width for x, width in zip(numbers, bits, strict=True))


def misplaced(name, head, arrays):
    """Whether a record is not allowed behind this head, None where there is none, and these arrays."""
    if name in CALLS:
        return head is not None
    if name in ("sparse", "recursive"):
        return head is None
    if name == "end":
        return not arrays
    return not arrays or name != {"sparse": "cell", "recursive": CALLS[head.name]}[arrays[-1].name]


def scaled(name, fields):
    """The fields of a call with its factor, which is 1 in edition 1."""
    return (*fields, 1) if name == "call" else fields


def fault(name, fields, head, arrays):
    """The number of the first rule that a record breaks, or None, behind this head and these arrays."""
    if misplaced(name, head, arrays):
        return 4
    opening = name in ("sparse", "recursive")
    if opening and len(arrays) == 1024:
        return 6
    if (name in CALLS and larger(fields, (30, 30))) or (opening and larger(fields, head.bits)):
        return 5
    if name == "cell" and outside(fields[:2], arrays[-1].bits):
        return 7
    if name == "cell" and max(fields[2:]) >= P:
        return 8
    if name in CALLS.values():
        called, *position, factor = scaled(name, fields)
        return call_fault(called, position, factor, [array.bits for array in arrays])
    if name == "end" and arrays[-1].bits != head.bits:
        return 12
    return None


def call_fault(called, position, factor, shapes):
    """The number of the first rule that a call breaks in the last array of these bits, or None."""
    own = len(shapes) - 1
    if factor >= P:
        return 8
    if called >= own:
        return 9
    if larger(shapes[called], shapes[own]):
        return 10
    if outside(position, [k - K for k, K in zip(shapes[own], shapes[called])]):
        return 11
    return None


def read(data):
    """The head's bits and the arrays of an accepted key, which is read record by record."""
    if len(data) > 65536:
        raise Refusal(1, 65536)
    name, at, head, arrays = None, 0, None, []
    while name != "end":
        name, fields, after = record_at(data, at)
        number = fault(name, fields, head, arrays)
        if number:
            raise Refusal(number, at)
        if name in CALLS:
            head = Head(name, fields)
        elif name in ("sparse", "recursive"):
            arrays.append(Array(name, fields, []))
        elif name != "end":
            arrays[-1].entries.append(scaled(name, fields))
        at = after
    if at < len(data):
        raise Refusal(13, at)
    return head.bits, arrays
