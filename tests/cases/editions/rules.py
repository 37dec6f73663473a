"""The cases of check for edition 2: factors at their edges, their order among a call's faults, and calls and heads of the
other edition.
"""

import itertools

from tests.model.fields import P, TOP
from tests.model.words import accepted, byte_words, joined, key, refused, words

# Factors that pass, and factors that do not.
PASSING, FAULTY = (0, 1, 2, P - 2, P - 1), (P, P + 1, 2**31, TOP)

# The beginning of a key of each edition up to a recursive array, and a record of each call.
FRONT = "{} 1 1, sparse 0 1, cell 0 1 5 7 0, recursive 1 1"
FRONTS = {"call": FRONT.format("head"), "scaled_call": FRONT.format("scaled_head")}


def factor_edges(cases):
    """Number 8 of a call: factors of p or more, at the first call, at a later one, and at one of several at fault."""
    front = FRONTS["scaled_call"]
    place = len(key(front))
    for factor in (*PASSING, *FAULTY):
        call = f"scaled_call 0 0 0 {factor}"
        wrong = factor >= P
        cases.check(f"{front}, {call}, end", refused(8, place) if wrong else accepted(2, 1, 1, 1, 1))
        wanted = refused(8, place + 45) if wrong else accepted(2, 1, 4, 1, 1)
        cases.check(f"{front}, 3 times scaled_call 0 1 0 {P - 1}, {call}, end", wanted)
        cases.check(f"{front}, {call}, scaled_call 0 1 0 {P}, end", refused(8, place if wrong else place + 15))
    # The factor is the last of the record's four numbers: the same bytes elsewhere are positions.
    cases.check(f"{front}, scaled_call 0 {P} 0 1, end", refused(11, place))
    cases.check(f"{front}, scaled_call 0 0 {P} 1, end", refused(11, place))


def fault_orders(cases):
    """A call's faults in their order, 4, 8, 9, 10, 11, for every choice of them."""
    # The call is in array 4. Of the arrays before it only array 0 is not larger, and array 5 comes later.
    arrays, rest = "{} 3 3, sparse 1 1, sparse 3 1, sparse 1 3, sparse 3 3, {} 2 2", "sparse 3 3, end"
    numbers = {0: 11, 1: 10, 2: 10, 3: 10, 4: 9, 5: 9, 65535: 9}
    for called, down, right, factor in itertools.product(numbers, (0, 2), (0, 2), (P - 1, P, TOP)):
        call = words("scaled_call", (called, down, right, factor))
        number = 8 if factor >= P else None if (called, down, right) == (0, 0, 0) else numbers[called]
        wanted = refused(number, 18) if number else accepted(6, 0, 1, 3, 3)
        cases.check(joined(arrays.format("scaled_head", "recursive"), call, rest), wanted)
        for head, opening in (("scaled_head", "sparse"), ("head", "recursive"), ("head", "sparse")):
            cases.check(joined(arrays.format(head, opening), call, rest), refused(4, 18))
        cases.check(call, refused(4, 0))
        cases.check(f"scaled_head 3 3, {call}", refused(4, 3))


def other_editions(cases):
    """Number 4: a call of the other edition, first, between and last, and a head of either behind either."""
    calls = {"call": "call 0 0 0", "scaled_call": "scaled_call 0 0 0 1"}
    for own, other in itertools.permutations(calls):
        front = FRONTS[own]
        place, length = len(key(front)), len(key(calls[own]))
        for count in range(3):
            text = joined(front, *[calls[own]] * count, calls[other], calls[own], "end")
            cases.check(text, refused(4, place + count * length))
    for head, second in itertools.product(("head", "scaled_head"), repeat=2):
        for bits in ("1 1", "0 0", "31 31"):
            cases.check(f"{head} 1 1, {second} {bits}, sparse 1 1, end", refused(4, 3))
            cases.check(f"{head} 1 1, sparse 1 1, {second} {bits}, end", refused(4, 6))
            cases.check(f"{head} 1 1, recursive 1 1, {second} {bits}, end", refused(4, 6))
            cases.check(f"{head} 1 1, sparse 1 1, end, {second} {bits}", refused(13, 7))
    for rows, columns in itertools.product((0, 30, 31, 255), repeat=2):
        wanted = refused(5, 0) if max(rows, columns) > 30 else accepted(1, 0, 0, rows, columns)
        cases.check(f"scaled_head {rows} {columns}, sparse {rows} {columns}, end", wanted)


def cut_calls(cases):
    """Number 2: a call of either edition cut at every length, in a key of either edition and where no call may stand."""
    sparse = "{} 1 1, sparse 1 1"
    for front in ("", *FRONTS.values(), sparse.format("head"), sparse.format("scaled_head")):
        place = len(key(front))
        for call in ("call 1 2 3", f"scaled_call 1 2 3 {TOP}"):
            data = key(call)
            for length in range(1, len(data)):
                cases.check(joined(front, byte_words(data[:length])), refused(2, place))


def edition_limits(cases):
    """Keys of edition 2 of 65,536 bytes and of one more, and with as many arrays as there may be."""
    longest = "scaled_head 30 30, sparse 0 0, 2 times sparse 30 30, recursive 30 30, 4368 times scaled_call 0 5 7 9"
    cases.check(f"{longest}, end", accepted(4, 0, 4368, 30, 30))
    cases.check(f"{longest}, end, bytes 00", refused(1, 65536))
    cases.check(f"{longest}, bytes 08", refused(2, 65535))
    most = "scaled_head 2 1, 1022 times sparse 0 0, sparse 1 1, recursive 2 1"
    cases.check(f"{most}, scaled_call 1022 1 0 0, end", accepted(1024, 0, 1, 2, 1))
    cases.check(f"{most}, scaled_call 1022 2 0 {P - 1}, end", refused(11, 3075))
    cases.check(f"{most}, recursive 2 1, end", refused(6, 3075))
    cases.check(f"{most}, scaled_call 1023 0 0 {P}, end", refused(8, 3075))


def rule_cases(cases):
    """02, E9: when a key of edition 2 is accepted, and which of its faults comes first."""
    factor_edges(cases)
    fault_orders(cases)
    other_editions(cases)
    cut_calls(cases)
    edition_limits(cases)
