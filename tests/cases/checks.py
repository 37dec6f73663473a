"""The cases of check: those of each rule, and those of keys that are whole, cut or drawn, or have several faults."""

import itertools

from tests.draw.changes import damaged
from tests.draw.keys import drawn_key, encoded
from tests.model.fields import P
from tests.model.words import accepted, key, key_words, refused, words

from .keys import SAMPLE
from .rules import (
    check_call_faults,
    check_calls,
    check_cell_faults,
    check_cells,
    check_ends,
    check_heads,
    check_limits,
    check_openings,
    check_places,
)


def check_first_faults(cases):
    """Checking stops at the first record with a fault, whatever the number of a later one."""
    anywhere = {3: "bytes 09", 4: "head 3 3", 5: "sparse 4 3", 12: "end"}
    cells = {7: "cell 0 4 0 0 0", 8: f"cell 0 0 0 0 {P}"}
    calls = {9: "call 2 0 0", 10: "call 0 0 0", 11: "call 1 0 2"}
    for front, faulty in (
        ("head 3 3, sparse 2 2", anywhere | cells),
        ("head 3 3, sparse 3 3, sparse 1 1, recursive 2 2", anywhere | calls),
    ):
        for number, other in itertools.permutations(faulty, 2):
            cases.check(f"{front}, {faulty[number]}, {faulty[other]}", refused(number, len(key(front))))


def check_accepted(cases):
    """Keys that are accepted although something in them is empty, uncalled or repeated."""
    for name in ("sparse", "recursive"):
        for bits in ((0, 0), (0, 3), (3, 0), (1, 2)):
            cases.check(f"{words('head', bits)}, {words(name, bits)}, end", accepted(1, 0, 0, *bits))
    # Two cells at one place, and calls that overlap.
    cells = "sparse 1 1, 2 times cell 1 1 5 6 7, cell 0 1 0 0 0"
    cases.check(f"head 1 1, {cells}, end", accepted(1, 3, 0, 1, 1))
    cases.check(f"head 1 1, {cells}, recursive 1 1, 3 times call 0 0 0, end", accepted(2, 3, 3, 1, 1))
    # A sparse last array, and a recursive one without calls: the arrays before are not called.
    cases.check(f"head 1 1, {cells}, recursive 1 1, call 0 0 0, {cells}, end", accepted(3, 6, 1, 1, 1))
    cases.check(f"head 2 1, {cells}, recursive 2 1, call 0 1 0, recursive 2 1, end", accepted(3, 3, 1, 2, 1))
    # Calls of empty arrays, and of arrays in any order.
    cases.check("head 2 0, recursive 0 0, recursive 1 0, call 0 1 0, sparse 2 0, end", accepted(3, 0, 1, 2, 0))
    cases.check("head 0 0, 4 times sparse 0 0, recursive 0 0, call 3 0 0, call 0 0 0, end", accepted(5, 0, 2, 0, 0))
    # The counts are over records, of which few describe 2^30 rows.
    levels = ", ".join(f"recursive {i} 0, call {i - 1} 0 0, call {i - 1} 1 0" for i in range(1, 31))
    cases.check(f"head 30 0, sparse 0 0, cell 0 0 1 2 3, {levels}, end", accepted(31, 1, 60, 30, 0))


def check_cut(cases):
    """Two keys with records of every kind, cut at every length, and one of them with each byte changed."""
    other = key("head 2 1, recursive 0 0, sparse 1 1, cell 1 0 1 2 3, recursive 2 1, call 1 1 0, call 0 3 1, end")
    for data in (SAMPLE, other):
        for length in range(len(data)):
            cases.check(key_words(data[:length]))
    for at, byte in enumerate(other):
        cases.check(key_words(other[:at] + bytes([byte ^ 1]) + other[at + 1 :]))


def counted(records):
    """What an accepted key is answered with, by its records."""
    names = [name for name, _ in records]
    arrays = names.count("sparse") + names.count("recursive")
    calls = names.count("call") + names.count("scaled_call")
    return accepted(arrays, names.count("cell"), calls, *records[0][1])


def check_sweep(cases, draw):
    """Drawn keys of both editions, whole and with a field raised, a record moved, a byte changed or removed, or a fault of a
    call or of the edition.
    """
    for _ in range(50):
        records = drawn_key(draw)
        cases.check(key_words(encoded(records)), counted(records))
        for data in damaged(draw, records):
            cases.check(key_words(data))


def check_cases(cases, draw):
    """01, 'An accepted key' and the order of check: 1; of a record 2 for no byte, 3, 2, 4, 6, 5, 7 to 12; 13."""
    check_limits(cases)
    check_places(cases)
    check_heads(cases)
    check_openings(cases)
    check_cells(cases)
    check_cell_faults(cases)
    check_calls(cases)
    check_call_faults(cases)
    check_ends(cases)
    check_first_faults(cases)
    check_accepted(cases)
    check_cut(cases)
    check_sweep(cases, draw)
