"""The records of a key: their layout, and the bytes of one written and read (01, 'Records', and 02, E9)."""

# 01, 'Records', and 02, E9: each kind's name and the widths of its fields in bytes.
LAYOUT = {
    1: ("head", (1, 1)),
    2: ("sparse", (1, 1)),
    3: ("recursive", (1, 1)),
    4: ("cell", (4, 4, 4, 4, 4)),
    5: ("call", (2, 4, 4)),
    6: ("end", ()),
    7: ("scaled_head", (1, 1)),
    8: ("scaled_call", (2, 4, 4, 4)),
}
KINDS = {name: kind for kind, (name, _) in LAYOUT.items()}


class Refusal(Exception):
    """A refusal: its number and its place."""


def encode(kind, fields):
    """The bytes of a record."""
    widths = LAYOUT[kind][1]
    return bytes([kind]) + b"".join(x.to_bytes(w, "little") for w, x in zip(widths, fields, strict=True))


def record_at(data, at):
    """The name and the fields of the record at an offset, and the next offset."""
    if at > len(data):
        raise Refusal(33, len(data))
    if at == len(data):
        raise Refusal(2, at)
    if data[at] not in LAYOUT:
        raise Refusal(3, at)
    name, widths = LAYOUT[data[at]]
    fields, place = [], at + 1
    for width in widths:
        if len(data) < place + width:
            raise Refusal(2, at)
        fields.append(int.from_bytes(data[place : place + width], "little"))
        place += width
    return name, tuple(fields), place


def records_in(data):
    """The records that bytes begin with, each its name and its fields, and the bytes behind the last that can be taken."""
    records, at = [], 0
    try:
        while True:
            name, fields, at = record_at(data, at)
            records.append((name, fields))
    except Refusal:
        return records, data[at:]
