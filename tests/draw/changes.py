"""What is made of a drawn key: damaged ones, one that is nearly the same, ones of the same circuit, larger ones, and ones with
cells added.
"""

import itertools
import operator

from tests.model.fields import P, TOP
from tests.model.keys import CALLS, larger

from .keys import drawn_cell, encoded
from .numbers import drawn_factor, drawn_place


def raised(draw, records):
    """The records, with one field greater by one."""
    i = draw.below(len(records) - 1)
    name, fields = records[i]
    j = draw.below(len(fields))
    return replaced(records, i, name, (*fields[:j], fields[j] + 1, *fields[j + 1 :]))


def replaced(records, i, name, fields):
    """The records, with another in place of one."""
    return [*records[:i], (name, fields), *records[i + 1 :]]


def displaced(draw, records):
    """The records, one of them at another place."""
    others = list(records)
    record = others.pop(draw.below(len(records)))
    others.insert(draw.below(len(records)), record)
    return others


def one_of(draw, records, names):
    """The number of one of the records with these names, or None."""
    found = [i for i, (name, _) in enumerate(records) if name in names]
    return found[draw.below(len(found))] if found else None


def factor_at_fault(draw, records):
    """The records, with a factor of p or more, where there is one."""
    i = one_of(draw, records, ("scaled_call",))
    if i is None:
        return records
    return replaced(records, i, "scaled_call", (*records[i][1][:3], (P, P, P + 1, TOP)[draw.below(4)]))


def call_of_the_other(draw, records):
    """The records, with one call of the other edition, the factor of which may be at fault, where there is a call."""
    i = one_of(draw, records, CALLS.values())
    if i is None:
        return records
    name, fields = records[i]
    if name == "call":
        return replaced(records, i, "scaled_call", (*fields, (1, drawn_factor(draw), P)[draw.below(3)]))
    return replaced(records, i, "call", fields[:3])


def second_head(draw, records):
    """The records, with a head more, of either edition, and of the first one's bits or others."""
    at, bits = 1 + draw.below(len(records)), (records[0][1], (31, 0))[draw.below(2)]
    return [*records[:at], (list(CALLS)[draw.below(2)], bits), *records[at:]]


def cut_call(draw, records):
    """The bytes of the records up to a call of either edition in place of an entry or of the end, which is cut off."""
    at = one_of(draw, records, ("cell", "end", *CALLS.values()))
    call = encoded([(("call", (0, 0, 0)), ("scaled_call", (0, 0, 0, drawn_factor(draw))))[draw.below(2)]])
    return encoded(records[:at]) + call[: 1 + draw.below(len(call) - 1)]


def another_called(draw, records):
    """The records, where there is a call, with one of any earlier array in its place, of a larger one where there is any."""
    i = one_of(draw, records, CALLS.values())
    if i is None:
        return records
    name, fields = records[i]
    *shapes, own = (bits for each, bits in records[:i] if each in ("sparse", "recursive"))
    choices = [called for called, bits in enumerate(shapes) if larger(bits, own)] or range(len(shapes))
    return replaced(records, i, name, (choices[draw.below(len(choices))], *fields[1:]))


def call_damaged(draw, records):
    """The bytes of a key with one of the five faults above, those of calls and of editions."""
    fault = draw.below(5)
    if fault == 4:
        return cut_call(draw, records)
    return encoded((factor_at_fault, call_of_the_other, second_head, another_called)[fault](draw, records))


def damaged(draw, records):
    """The bytes of a key with a field raised, with a record moved, with a byte changed, with a byte removed, and with a fault
    of a call or of its edition.
    """
    data = encoded(records)
    yield encoded(raised(draw, records))
    yield encoded(displaced(draw, records))
    at = draw.below(len(data))
    yield data[:at] + bytes([draw.below(10) or draw.below(256)]) + data[at + 1 :]
    yield data[:at] + data[at + 1 :]
    yield call_damaged(draw, records)


def nearly(draw, records):
    """The records, with A, B or C of one cell or the factor of one call greater by one modulo p, where there is one."""
    i = one_of(draw, records, ("cell", "scaled_call"))
    if i is None:
        return records
    name, fields = records[i]
    j = 2 + draw.below(3) if name == "cell" else 3
    return replaced(records, i, name, (*fields[:j], (fields[j] + 1) % P, *fields[j + 1 :]))


def entry_parts(draw, record):
    """The records that may stand for an entry where one array more comes first: a cell in two, a call of edition 1 of the same
    array, and one of edition 2 in two, whose factors add up to its own.
    """
    name, fields = record
    if name == "call":
        return [(name, (fields[0] + 1, *fields[1:]))]
    if name == "scaled_call":
        called, *position, factor = fields
        share = drawn_factor(draw)
        return [(name, (called + 1, *position, x)) for x in (share, (factor - share) % P)]
    share = [draw.below(P) for _ in range(3)]
    rest = [(x - y) % P for x, y in zip(fields[2:], share)]
    return [(name, (*fields[:2], *values)) for values in (share, rest)]


def rewritten(draw, records):
    """The records of another key of the same circuit and edition: an array that nobody calls comes first, and each array has
    its cells in two parts and its entries in another order.
    """
    head, *others, end = records
    arrays = []
    for record in others:
        if record[0] in ("cell", *CALLS.values()):
            for item in entry_parts(draw, record):
                arrays[-1].insert(1 + draw.below(len(arrays[-1])), item)
        else:
            arrays.append([record])
    return [head, ("sparse", (0, 0)), drawn_cell(draw, (0, 0)), *itertools.chain(*arrays), end]


def in_other_edition(records):
    """The records of a key of the same circuit and the other edition: a call of edition 2 is as many calls of edition 1 as its
    factor says. Where a factor is over 2, the records are as they were.
    """
    if any(name == "scaled_call" and fields[3] > 2 for name, fields in records):
        return records
    others = []
    for name, fields in records:
        if name in CALLS:
            others.append((next(each for each in CALLS if each != name), fields))
        elif name == "call":
            others.append(("scaled_call", (*fields, 1)))
        elif name == "scaled_call":
            others.extend([("call", fields[:3])] * fields[3])
        else:
            others.append((name, fields))
    return others


def grown(records, more, position=(0, 0), factor=1):
    """The records of a key of the same edition and so many row and column bits more, whose last array has one call: of this
    key's last array, at a position and, in edition 2, with a factor.
    """
    (name, bits), *others, end = records
    bits = tuple(map(operator.add, bits, more))
    called = sum(each in ("sparse", "recursive") for each, _ in others) - 1
    fields = (called, *position) if name == "head" else (called, *position, factor)
    return [(name, bits), *others, ("recursive", bits), (CALLS[name], fields), end]


def added_to(records, more, cells):
    """The records of a key of the same edition and so many row and column bits more, whose matrices are this key's, in the
    first places, with cells added: the row, the column and the values of each.
    """
    (name, bits), *others, _, call, end = grown(records, more)
    called, *rest = call[1]
    added = [("sparse", bits), *(("cell", fields) for fields in cells)]
    return [(name, bits), *others, *added, ("recursive", bits), call, (CALLS[name], (called + 1, *rest)), end]


def with_cells(draw, records, more, count):
    """The records of such a key with so many cells added anywhere, of values 0, 1, 2 and p - 1."""
    bits = [n + k for n, k in zip(records[0][1], more, strict=True)]
    values = ([(0, 1, 2, P - 1)[draw.below(4)] for _ in range(3)] for _ in range(count))
    return added_to(records, more, [(*drawn_place(draw, bits), *each) for each in values])
