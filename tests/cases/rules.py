"""The cases of check at the edges of each rule: 01, 'An accepted key' and 'Edges', and 02, E9."""

import itertools

from tests.model.fields import P, TOP
from tests.model.words import accepted, byte_words, joined, key, refused, words

from .keys import SAMPLE, scaled

# 01, 'An accepted key': beginnings of a key of edition 1, and the records that may follow each.
FOLLOWING = {
    "": ("head", "scaled_head"),
    "head 1 1": ("sparse", "recursive"),
    "head 1 1, sparse 1 1": ("sparse", "recursive", "cell", "end"),
    "head 1 1, sparse 1 1, cell 1 1 1 2 3": ("sparse", "recursive", "cell", "end"),
    "head 1 1, sparse 1 1, recursive 1 1": ("sparse", "recursive", "call", "end"),
    "head 1 1, sparse 1 1, recursive 1 1, call 0 0 0": ("sparse", "recursive", "call", "end"),
    "head 1 1, sparse 1 1, recursive 1 1, sparse 1 1": ("sparse", "recursive", "cell", "end"),
}

# A record of each kind that fits behind each beginning that allows its kind.
RECORDS = (
    "head 1 1",
    "sparse 1 1",
    "recursive 1 1",
    "cell 0 0 0 0 0",
    "call 0 0 0",
    "end",
    "scaled_head 1 1",
    "scaled_call 0 0 0 1",
)


def check_limits(cases):
    """01, 'Edges': the empty key and the sample, the length of a key and the number of its arrays."""
    cases.check("", refused(2, 0))
    cases.check(byte_words(SAMPLE), accepted(2, 1, 2, 1, 1))
    longest = "head 30 30, 4 times sparse 30 30, 3120 times cell 1 2 3 4 5, end"
    cases.check(longest, accepted(4, 3120, 0, 30, 30))
    cases.check(f"{longest}, bytes 00", refused(1, 65536))
    without_end = "head 30 30, sparse 30 30, recursive 30 30, 2 times call 0 0 0, 2 times sparse 30 30, 3119 times cell 1 2 3 4 5"
    cases.check(without_end, refused(2, 65536))
    cases.check("head 30 30, 4 times sparse 30 30, end, 65520 times bytes 00", refused(13, 16))
    cases.check("65536 times bytes 00", refused(3, 0))
    cases.check("65537 times bytes 00", refused(1, 65536))
    cases.check("131071 times bytes 00", refused(1, 65536))
    most = "head 2 1, 1022 times sparse 0 0, sparse 1 1, recursive 2 1"
    cases.check(f"{most}, call 1022 1 0, end", accepted(1024, 0, 1, 2, 1))
    cases.check(f"{most}, call 1022 2 0, end", refused(11, 3075))
    cases.check(f"{most}, call 1023 0 0, end", refused(9, 3075))
    cases.check(f"{most}, bytes 0300", refused(2, 3075))


def check_places(cases):
    """Numbers 2, 3 and 4: no byte, an unknown kind, and each record, whole and cut, behind each beginning of a key of either
    edition.
    """
    beginnings = dict(FOLLOWING)
    for front, following in FOLLOWING.items():
        beginnings[scaled(front)] = ["scaled_call" if name == "call" else name for name in following]
    for front, following in beginnings.items():
        place = len(key(front))
        cases.check(front, refused(2, place))
        for unknown in ("bytes 00", "bytes 09", "bytes ff06"):
            cases.check(joined(front, unknown), refused(3, place))
        for record in RECORDS:
            length = len(key(record))
            if record.split()[0] not in following:
                cases.check(joined(front, record), refused(4, place))
            elif record != "end":
                cases.check(joined(front, record), refused(2, place + length))
            for cut in sorted({1, length - 1} & set(range(1, length))):
                cases.check(joined(front, byte_words(key(record)[:cut])), refused(2, place))


def check_heads(cases):
    """Number 5 in a head, and 4 before it."""
    for rows, columns in itertools.product((0, 30, 31, 255), repeat=2):
        head = f"head {rows} {columns}"
        wanted = refused(5, 0) if max(rows, columns) > 30 else accepted(1, 0, 0, rows, columns)
        cases.check(f"{head}, sparse {rows} {columns}, end", wanted)
        cases.check(f"head 30 30, {head}, sparse 30 30, end", refused(4, 3))
        cases.check(f"head 30 30, sparse 30 30, {head}, end", refused(4, 6))


def check_openings(cases):
    """Number 5 in an opening, with 4 and 6 before it."""
    for name, rows, columns in itertools.product(("sparse", "recursive"), (2, 3), (1, 2)):
        opening = f"{name} {rows} {columns}"
        wanted = refused(5, 3) if rows == 3 or columns == 2 else accepted(2, 0, 0, 2, 1)
        cases.check(f"head 2 1, {opening}, sparse 2 1, end", wanted)
    for opening in ("sparse 2 1", "sparse 3 1", "recursive 2 2"):
        cases.check(f"head 2 1, 1024 times sparse 0 0, {opening}, end", refused(6, 3075))
    cases.check("head 2 1, 1024 times sparse 0 0, head 2 1", refused(4, 3075))
    for name in ("sparse", "recursive"):
        for bits in ("0 0", "31 0", "0 31", "255 255"):
            cases.check(f"{name} {bits}, end", refused(4, 0))
        for bits in ("0 0", "1 1", "2 0"):
            cases.check(f"head 2 1, {name} {bits}, {name} 2 1, end", accepted(2, 0, 0, 2, 1))
        for bits in ("1 2", "31 0", "0 31", "255 255"):
            cases.check(f"head 2 1, {name} {bits}, {name} 2 1, end", refused(5, 3))
        for bits in ("31 30", "30 31"):
            cases.check(f"head 30 30, {name} {bits}, {name} 30 30, end", refused(5, 3))


def check_cells(cases):
    """Numbers 7 and 8 at their edges."""
    for bits, number in itertools.product((0, 1, 8, 30), (-1, 0, 1, TOP)):
        address = min(2**bits + number, TOP)
        wanted = refused(7, 6) if address >= 2**bits else accepted(1, 1, 0, bits, bits)
        for fields in ((address, 0), (0, address)):
            cases.check(f"head {bits} {bits}, sparse {bits} {bits}, {words('cell', fields)} 1 2 3, end", wanted)
    for row, column in itertools.product((1, 2), (7, 8)):
        wanted = refused(7, 6) if row == 2 or column == 8 else accepted(2, 1, 0, 3, 3)
        cases.check(f"head 3 3, sparse 1 3, cell {row} {column} 1 2 3, sparse 3 3, end", wanted)
    for value in (P - 1, P, P + 1, TOP):
        wanted = refused(8, 6) if value >= P else accepted(1, 1, 0, 0, 0)
        for values in ((value, 0, 0), (0, value, 0), (0, 0, value)):
            cases.check(f"head 0 0, sparse 0 0, {words('cell 0 0', values)}, end", wanted)


def check_cell_faults(cases):
    """Each fault and each two faults of a cell, where it is allowed and where it is not."""
    good, bad = (3, 3, P - 1, P - 1, P - 1), (4, 4, P, P, P)
    for places in itertools.combinations_with_replacement(range(5), 2):
        cell = words("cell", (bad[i] if i in places else good[i] for i in range(5)))
        cases.check(f"head 2 2, sparse 2 2, {cell}, end", refused(7 if places[0] < 2 else 8, 6))
        for front in ("", "head 2 2", "head 2 2, sparse 2 2, recursive 2 2"):
            cases.check(joined(front, cell), refused(4, len(key(front))))


def check_calls(cases):
    """Numbers 9, 10 and 11 at their edges."""
    for called in (0, 1, 2, 3, 4, 256, 258, 65535):
        wanted = refused(9, 15) if called >= 3 else accepted(4, 0, 1, 0, 0)
        cases.check(f"head 0 0, 3 times sparse 0 0, recursive 0 0, call {called} 0 0, end", wanted)
    cases.check("head 0 0, recursive 0 0, call 0 0 0, end", refused(9, 6))
    cases.check("head 0 0, recursive 0 0, call 1 0 0, sparse 0 0, end", refused(9, 6))
    for called, own in (("2 1", "1 2"), ("1 2", "2 1"), ("1 0", "0 2"), ("0 1", "2 0"), ("2 2", "1 1")):
        cases.check(f"head 2 2, sparse {called}, recursive {own}, call 0 0 0, sparse 2 2, end", refused(10, 9))
    for K, k, greatest in ((1, 3, 3), (3, 3, 0), (0, 0, 0), (29, 30, 1), (0, 30, 2**30 - 1)):
        for position in (greatest, greatest + 1, 2**31, TOP):
            wanted = refused(11, 9) if position > greatest else accepted(2, 0, 1, k, k)
            for positions in ((position, 0), (0, position), (position, greatest), (greatest, position)):
                call = words("call 0", positions)
                cases.check(f"head {k} {k}, sparse {K} {K}, recursive {k} {k}, {call}, end", wanted)
    for down, right in itertools.product((0, 1), repeat=2):
        wanted = refused(11, 909) if down or right else accepted(302, 0, 1, 1, 1)
        cases.check(f"head 1 1, 300 times sparse 0 0, sparse 1 1, recursive 1 1, call 300 {down} {right}, end", wanted)
    for down, right in itertools.product((1, 2), (7, 8)):
        wanted = refused(11, 9) if down == 2 or right == 8 else accepted(3, 0, 1, 3, 3)
        cases.check(f"head 3 3, recursive 1 0, recursive 2 3, call 0 {down} {right}, sparse 3 3, end", wanted)


def check_call_faults(cases):
    """Each fault and each two faults of a call, where it is allowed and where it is not."""
    # The call is in array 4. Of the arrays before it only array 0 is not larger, and array 5 comes later.
    front, rest = "head 3 3, sparse 1 1, sparse 3 1, sparse 1 3, sparse 3 3", "sparse 3 3, end"
    numbers = {0: 11, 1: 10, 2: 10, 3: 10, 4: 9, 5: 9, 6: 9, 65535: 9}
    for called, down, right in itertools.product(numbers, (0, 2), (0, 2)):
        call = f"call {called} {down} {right}"
        wanted = accepted(6, 0, 1, 3, 3) if (called, down, right) == (0, 0, 0) else refused(numbers[called], 18)
        cases.check(f"{front}, recursive 2 2, {call}, {rest}", wanted)
        cases.check(f"{front}, sparse 2 2, {call}, {rest}", refused(4, 18))
    for called, down, right in itertools.product((0, 1, 65535), (0, TOP), (0, TOP)):
        cases.check(f"call {called} {down} {right}", refused(4, 0))
        cases.check(f"head 3 3, call {called} {down} {right}", refused(4, 3))


def check_ends(cases):
    """Numbers 12 and 13, with 4 before them."""
    for after in ("", "bytes 00", "end", "bytes 04ff", "cell 0 0 1 2 3", "head 2 1, sparse 2 1, end"):
        wanted = refused(13, 7) if after else accepted(1, 0, 0, 2, 1)
        for name in ("sparse", "recursive"):
            cases.check(joined(f"head 2 1, {name} 2 1, end", after), wanted)
            for bits in ("1 1", "2 0", "1 0"):
                cases.check(joined(f"head 2 1, {name} {bits}, end", after), refused(12, 6))
        cases.check(joined("head 2 1, sparse 2 1, sparse 1 1, end", after), refused(12, 9))
        cases.check(joined("head 2 1, end", after), refused(4, 3))
        cases.check(joined("end", after), refused(4, 0))
    cases.check("head 0 0, sparse 0 0, cell 0 0 1 2 3, end, 1000 times bytes 00", refused(13, 28))
