"""The cases of taking a record from bytes and of putting one into a buffer: 01, 'Records' and 'Single cells, and writing
records', and 02, E9.
"""

from tests.model.fields import P
from tests.model.records import LAYOUT, encode
from tests.model.words import refused


def samples():
    """A record of each kind with distinct fields, and one with each field at its greatest."""
    for kind, (_, widths) in LAYOUT.items():
        yield kind, tuple(int.from_bytes(bytes(range(16 * i + 1, 16 * i + 1 + w)), "little") for i, w in enumerate(widths))
        yield kind, tuple(256**w - 1 for w in widths)


def take_cases(cases, draw):
    """01, 'Records' and the order of take: 33, 2 for no byte, 3, 2 for a cut body."""
    cases.take(b"", 0, refused(2, 0))
    cases.take(b"", 1, refused(33, 0))
    cases.take(b"\x06", 1, refused(2, 1))
    cases.take(b"\x06", 2, refused(33, 1))
    cases.take(b"\x06", 2**64 - 1, refused(33, 1))
    cases.take(b"\x06\x06", 1, "end next 2")
    cases.take(bytes.fromhex("01ffff"), 0, "head 255 255 next 3")
    cases.take(bytes.fromhex("0400000000010000000500000007000000ffffff7f"), 0, f"cell 0 1 5 7 {P} next 21")
    cases.take(bytes.fromhex("05000001000000000000ff"), 0, f"call 0 1 {255 * 2**24} next 11")
    cases.take(bytes.fromhex("07ffff"), 0, "scaled_head 255 255 next 3")
    cases.take(bytes.fromhex("080000010000000000000000000080ff"), 0, f"scaled_call 0 1 0 {2**31} next 15")
    for kind in (0, 9, 10, 16, 17, 0x40, 255):
        cases.take(bytes([kind]), 0, refused(3, 0))
        cases.take(bytes([6, kind]) + bytes(30), 1, refused(3, 1))
    for kind, fields in samples():
        record = encode(kind, fields)
        cases.take(record, 0)
        cases.take(b"\x06\x06" + record + b"\x06", 2)
        for length in range(1, len(record)):
            cases.take(record[:length], 0, refused(2, 0))
            cases.take(b"\x06" + record[:length], 1, refused(2, 1))
    # The limit of 65,536 bytes is the key's, not take's.
    cases.take(encode(5, (1, 2, 3)), 65540, "call 1 2 3 next 65551", zeros=65540)
    for _ in range(80):
        data = bytes(draw.below(9) or draw.below(256) for _ in range(draw.below(40)))
        cases.take(data, draw.below(len(data) + 2))


def put_cases(cases, draw):
    """01, 'Single cells, and writing records' and the order of put: 33, 32."""
    cases.put(6, (), b"", 0, refused(32, 1))
    cases.put(6, (), b"", 1, refused(33, 0))
    cases.put(6, (), b"\xaa", 0, "next 1")
    cases.put(6, (), b"\xaa", 1, refused(32, 1))
    cases.put(6, (), b"\xaa", 2, refused(33, 1))
    cases.put(6, (), b"\xaa", 2**64 - 1, refused(33, 1))
    for kind, fields in samples():
        length = len(encode(kind, fields))
        cases.put(kind, fields, b"\xaa" * length, 0, f"next {length}")
        cases.put(kind, fields, b"\xaa" * (length + 5), 2, f"next {length + 2}")
        cases.put(kind, fields, b"\xaa" * (length + 5), 5, f"next {length + 5}")
        cases.put(kind, fields, b"\xaa" * (length + 5), 6, refused(32, length))
        cases.put(kind, fields, b"\xaa" * (length - 1), 0, refused(32, length))
        cases.put(kind, fields, b"\xaa" * (length - 1), length, refused(33, length - 1))
    cases.put(5, (1, 2, 3), b"\xaa" * 24, 65540, "next 65551", zeros=65535)
    for _ in range(60):
        kind = 1 + draw.below(8)
        fields = tuple(draw.below(256**width) for width in LAYOUT[kind][1])
        data = draw.bytes(draw.below(48))
        cases.put(kind, fields, data, draw.below(len(data) + 3))
