"""A key moved into the edition that its head is not (02, E9)."""

from .keys import read
from .records import KINDS, Refusal, encode, record_at

# The heads and the calls of each edition, by those of the other.
OTHERS = {"head": "scaled_head", "scaled_head": "head", "call": "scaled_call", "scaled_call": "call"}


def other_fields(name, fields):
    """The fields of a head or of a call in the other edition; a factor that is not 1 has none."""
    if name == "call":
        return (*fields, 1)
    if name == "scaled_call":
        *others, factor = fields
        return tuple(others) if factor == 1 else None
    return fields


def moved(data):
    """The bytes of a key in the other edition. Refuses with the key's own numbers, then with 55 and with 56."""
    read(data)
    copy, at = bytearray(), 0
    while at < len(data):
        name, fields, after = record_at(data, at)
        if name in OTHERS:
            fields = other_fields(name, fields)
            if fields is None:
                raise Refusal(55, at)
            copy += encode(KINDS[OTHERS[name]], fields)
        else:
            copy += data[at:after]
        at = after
    if len(copy) > 65536:
        raise Refusal(56, len(copy))
    return bytes(copy)
