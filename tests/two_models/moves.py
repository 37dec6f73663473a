"""Drawn keys, moved into the other edition by both models, and back."""

import collections

from tests.draw.changes import damaged, in_other_edition
from tests.draw.keys import drawn_key, encoded, many_calls
from tests.draw.numbers import Draw, drawn_edges, numbered
from tests.model.calls import compare, evaluate, move
from tests.model.editions import moved
from tests.model.fields import PRIME, QUADRATIC
from tests.model.keys import CALLS, read
from tests.model.words import refused
from tests.unroll.editions import move_on
from tests.unroll.keys import Refused

from .holding import hold, hold_outcomes

KEYS = 600
OUTCOMES = {"moved", *range(1, 14), 55, 56, 32}


def unrolled_move(data, buffer):
    """What tests/unroll answers, as tests/model words it with the buffer afterwards, and the kind of outcome."""
    try:
        length, after = move_on(data, buffer)
    except Refused as refusal:
        return (refused(refusal.number, refusal.place), buffer), refusal.number
    return (f"length {length}", after), "moved"


def buffers(draw, data):
    """Buffers about the length of a key in the other edition: that of its bytes, longer, shorter, exact and empty."""
    length = len(data) + 4 * draw.below(5)
    yield draw.bytes(length)
    yield draw.bytes(max(length - 1 - draw.below(9), 0))
    yield draw.bytes(len(data) + 80)
    yield b""


def hold_copy(draw, data):
    """Holds the laws of the move on a key that is moved: there and back gives the first bytes, both have the same arrays, and
    so every call answers the same.
    """
    copy = moved(data)
    hold("there and back", moved(copy), data, data.hex())
    hold("the arrays", read(copy), read(data), data.hex())
    head, arrays = read(data)
    for field in (PRIME, QUADRATIC):
        point = drawn_edges(draw, field.counts(head))
        sheet = numbered(3 * field.size * len(arrays))
        wanted = evaluate(data, *point, sheet, field=field)
        hold("the copy", evaluate(copy, *point, sheet, field=field), wanted, data.hex())
        hold("both", compare(data, copy, *point, sheet, field=field)[:5], "same ", data.hex())


def long_keys(draw):
    """Keys whose length, or whose moved length, is about 65,536 bytes. A key of edition 2 has 1 byte more than a multiple of 3,
    so that 65,536 is the last length that passes and 65,539 the first that does not.
    """
    for name, per_call in zip(CALLS, (11, 15)):
        for calls in (4367, 4368, 4369, (65536 - 10) // per_call):
            for arrays in (1, 2, 3, 4):
                yield encoded(many_calls(draw, name, calls, arrays))
    yield encoded([("head", (0, 0)), *[("sparse", (0, 0))] * 1025, ("end", ())])


def hold_moves():
    """Holds all moves, and returns how many there were."""
    draw, counts = Draw(), collections.Counter()

    def hold_move(data, buffer):
        wanted, kind = unrolled_move(data, buffer)
        hold("move", move(data, buffer), wanted, f"{data[:200].hex()} into {len(buffer)} bytes")
        counts[kind] += 1
        return kind

    for _ in range(KEYS):
        records = drawn_key(draw, 4, draw.below(2))
        if draw.below(3) == 0:
            records = in_other_edition(records)
        for data in (encoded(records), *damaged(draw, records)):
            kinds = [hold_move(data, buffer) for buffer in buffers(draw, data)]
            if "moved" in kinds:
                hold_copy(draw, data)
    for data in long_keys(draw):
        for length in (65534, 65535, 65536, 65539, len(data), 70000):
            hold_move(data, b"\xaa" * length)
    hold_outcomes("move", OUTCOMES, counts)
    return counts.total()
