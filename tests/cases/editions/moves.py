"""The cases of the move: the copy, the buffer around it, and every refusal in its order."""

from tests.model.fields import P
from tests.model.words import byte_words, key, refused

from ..keys import FAULTY, NESTED, PATTERNS, REWRITTEN, SAMPLE, TWO, keyed, scaled, single

# A key of edition 1 of 4,368 calls and three other arrays: moved, it has 65,536 bytes.
FULL = "head 30 30, sparse 0 0, 2 times sparse 30 30, recursive 30 30, 4368 times call 0 5 7, end"


def both_directions(cases, text, more=0):
    """A key of edition 1 in words moved there, and its copy moved back, into buffers with so many bytes more."""
    copy = scaled(text)
    cases.move(text, len(key(copy)) + more, copy)
    cases.move(copy, len(key(text)) + more, text)


def copy_cases(cases):
    """There and back: keys with several calls, with none, with the greatest fields and the shortest."""
    greatest = f"sparse 30 30, cell {2**30 - 1} {2**30 - 1} {P - 1} {P - 1} {P - 1}, sparse 0 0, recursive 30 30"
    texts = (
        "head 1 1, sparse 0 1, cell 0 1 5 7 0, recursive 1 1, 2 times call 0 0 0, end",
        NESTED,
        TWO,
        *(f"head 3 1, {pattern}, end" for pattern in PATTERNS),
        *map(keyed, REWRITTEN),
        single((3, 2), (7, 1), (1, 2, 3)),
        "head 0 0, sparse 0 0, end",
        "head 2 1, recursive 2 1, end",
        f"head 30 30, {greatest}, call 1 {2**30 - 1} {2**30 - 1}, call 0 0 0, end",
        "head 0 0, 300 times sparse 0 0, recursive 0 0, call 258 0 0, call 299 0 0, recursive 0 0, call 300 0 0, end",
    )
    for i, text in enumerate(texts):
        both_directions(cases, text, i % 5)
    # Bytes that look like heads and calls, and are values: they stay.
    look = int.from_bytes(bytes.fromhex("01070508"), "little") % P
    both_directions(cases, f"head 8 7, sparse 5 1, cell 7 1 {look} 5 8, recursive 8 7, call 0 5 1, call 0 7 8, end")
    cases.move(byte_words(SAMPLE), 70)


def buffer_cases(cases):
    """Number 32 about the copy's length, and longer buffers: the bytes behind the copy stay."""
    for text in (TWO, scaled(TWO), single((1, 0), (1, 0), (1, 2, 3))):
        copy = scaled(text) if text == TWO else TWO if text == scaled(TWO) else scaled(text)
        length = len(key(copy))
        for room in sorted({0, 1, len(key(text)) - 1, len(key(text)), length - 4, length - 1, length, length + 1, length + 30}):
            cases.move(text, room, refused(32, length) if room < length else copy)


def factor_cases(cases):
    """Number 55 at the first call whose factor is not 1, with room and without."""
    front = "scaled_head 1 0, sparse 0 0, cell 0 0 7 8 9, recursive 1 0"
    place = len(key(front))
    for factor in (0, 2, P - 1, 256, 2**24 + 1):
        call = f"scaled_call 0 1 0 {factor}"
        for before in range(3):
            ones = ", ".join([*["scaled_call 0 0 0 1"] * before, call])
            for behind in ("", ", scaled_call 0 0 0 1", f", scaled_call 0 1 0 {P - 2}", ", recursive 1 0, scaled_call 1 0 0 1"):
                for room in (100, 0):
                    cases.move(f"{front}, {ones}{behind}, end", room, refused(55, place + 15 * before))
    # A factor of 1 in bytes that is no factor, and the position 1 with the factor 0.
    cases.move(f"{front}, scaled_call 0 1 0 0, end", 60, refused(55, place))
    cases.move(f"{front}, scaled_call 0 0 0 1, end", 60, f"head{front[len('scaled_head'):]}, call 0 0 0, end")


def length_cases(cases):
    """Number 56: a moved key of 65,536 bytes passes, and one more array or call does not; 32 comes behind it."""
    copy = scaled(FULL)
    for room, wanted in ((65536, copy), (65600, copy), (65535, refused(32, 65536))):
        cases.move(FULL, room, wanted, max(0, min(room, 65536) - 40))
    cases.move(copy, len(key(FULL)), FULL, len(key(FULL)) - 40)
    longer = {
        FULL.replace("2 times sparse", "3 times sparse"): 65539,
        FULL.replace("4368", "4369"): 65551,
        FULL.replace("4368", "5955"): 89341,
        "head 0 0, sparse 0 0, recursive 0 0, 5956 times call 0 0 0, end": 89350,
    }
    for text, length in longer.items():
        for room in (0, length):
            cases.move(text, room, refused(56, length), max(0, room - 20))
    # A key of 65,536 bytes without calls, and one whose last call alone cannot be moved back.
    cells = "head 30 30, 4 times sparse 30 30, 3120 times cell 1 2 3 4 5, end"
    cases.move(cells, 65536, scaled(cells), 65500)
    cases.move(scaled(cells), 65536, cells, 65500)
    last = f"{copy.replace('4368', '4367').removesuffix(', end')}, scaled_call 0 5 7 {P - 1}, end"
    cases.move(last, 65536, refused(55, 65520), 65500)


def key_faults(cases):
    """Check's numbers come first, whatever the buffer and the factors are."""
    for number, (text, place) in FAULTY.items():
        for room in (0, 100):
            cases.move(text, room, refused(number, place))
    factor = "scaled_head 1 0, sparse 0 0, recursive 1 0, scaled_call 0 1 0 2"
    place = len(key(factor))
    for behind, number, at in (
        ("", 2, place),
        (", bytes 09", 3, place),
        (", call 0 0 0, end", 4, place),
        (", scaled_head 1 0, end", 4, place),
        (f", scaled_call 0 0 0 {P}, end", 8, place),
        (", scaled_call 1 0 0 2, end", 9, place),
        (", scaled_call 0 2 0 2, end", 11, place),
        (", sparse 0 0, end", 12, place + 3),
        (", end, end", 13, place + 1),
    ):
        for room in (0, 100):
            cases.move(f"{factor}{behind}", room, refused(number, at))
    longer = FULL.replace("4368", "4369").removesuffix(", end")
    for behind, number in (("", 2), (", scaled_call 0 0 0 1, end", 4), (", sparse 0 0, end", 12)):
        at = len(key(longer)) + (3 if number == 12 else 0)
        cases.move(f"{longer}{behind}", 65536, refused(number, at), 65500)


def move_cases(cases):
    """02, E9: a move copies a key into the edition that its head is not."""
    copy_cases(cases)
    buffer_cases(cases)
    factor_cases(cases)
    length_cases(cases)
    key_faults(cases)
