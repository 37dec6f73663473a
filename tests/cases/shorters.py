"""The cases of shorter: the shorter of two keys that are the same at a point, the first on a tie, and else the empty beginning of
the first.
"""

import itertools

from tests.draw.changes import damaged, grown, in_other_edition, nearly, rewritten
from tests.draw.keys import drawn_key, encoded
from tests.draw.numbers import drawn_edges, drawn_point, numbered, spoiled
from tests.model.fields import P, TOP
from tests.model.words import key_words, words

from .comparisons import weighed
from .keys import CIRCUIT, EMPTY, FAULTY, NONE, ONE, REWRITTEN, SQUARE, THREE, TWO
from .keys import enlarged, keyed, last_place, pair, part, places, scaled, single
from .towers import drawn_levels, scaled_tower, shapes, tower, tower_values

ZERO = 0, 0, 0
VALUES = 3, 5, P - 1

# The circuit of TWO with an array that nobody calls, 3 bytes longer; in edition 2 that of TWO is 4 bytes longer.
TWO_AND_ONE = "head 1 0, sparse 0 0, cell 0 0 7 8 9, recursive 0 0, recursive 1 0, call 0 0 0, end"

# One call with factor 2, and two calls.
DOUBLED = "scaled_head 1 1, sparse 0 1, cell 0 1 5 7 0, recursive 1 1, scaled_call 0 0 0 2, end"
TWICE = "head 1 1, sparse 0 1, cell 0 1 5 7 0, recursive 1 1, 2 times call 0 0 0, end"

# Keys of one circuit: one of 65,536 bytes, two of 65,533, since the data of a case has fewer than 131,072, and a short one.
LONGEST = "head 0 0, 3 times sparse 0 0, sparse 0 0, 3120 times cell 0 0 1 2 3, end"
LONG = "head 0 0, 2 times sparse 0 0, sparse 0 0, 3120 times cell 0 0 1 2 3, end"
AS_LONG = "head 0 0, 2 times recursive 0 0, sparse 0 0, 3120 times cell 0 0 1 2 3, end"
SHORT = "head 0 0, sparse 0 0, cell 0 0 3120 6240 9360, end"


def both_ways(cases, short, long, point, sheet=None):
    """A key in words and a longer one that is the same at a point, in either order."""
    cases.shorter(short, long, *point, 1, sheet)
    cases.shorter(long, short, *point, 2, sheet)


def tied(cases, one, other, point):
    """Two keys in words of one length that are the same at a point, in either order."""
    cases.shorter(one, other, *point, 1)
    cases.shorter(other, one, *point, 1)


def neither(cases, one, other, point, sheet=None):
    """Two keys in words of which neither is handed back, in either order."""
    cases.shorter(one, other, *point, 0, sheet)
    cases.shorter(other, one, *point, 0, sheet)


def same_cases(cases, draw):
    """Keys of one circuit, keys whose matrices are 0, and a key with itself."""
    for i, arrays in enumerate(REWRITTEN[1:]):
        cases.shorter(*pair(i % 2, keyed(CIRCUIT), keyed(arrays)), *drawn_point(draw, (2, 1)), 1 + i % 2)
    tied(cases, keyed(CIRCUIT), keyed(REWRITTEN[0]), drawn_point(draw, (2, 1)))
    tied(cases, keyed(REWRITTEN[1]), keyed(REWRITTEN[2]), drawn_edges(draw, (2, 1)))
    for arrays in EMPTY[2:]:
        both_ways(cases, keyed(EMPTY[0]), keyed(arrays), drawn_edges(draw, (2, 1)))
    tied(cases, keyed(EMPTY[0]), keyed(EMPTY[1]), drawn_point(draw, (2, 1)))
    for text, bits in ((ONE, (1, 0)), (THREE, (1, 0)), (SQUARE, (2, 2)), (NONE, (0, 0))):
        cases.shorter(text, text, *drawn_point(draw, bits), 1)


def length_cases(cases, draw):
    """Keys that are one byte apart, keys of up to 65,536 bytes, and keys that are too large to unroll."""
    both_ways(cases, TWO_AND_ONE, scaled(TWO), drawn_point(draw, (1, 0)))
    both_ways(cases, SHORT, LONGEST, ((), ()))
    cases.shorter(LONGEST, LONGEST, (), (), 1)
    tied(cases, LONG, AS_LONG, ((), ()))
    levels = drawn_levels(draw, 90, 3)
    point, texts = drawn_point(draw, shapes(levels)[-1]), (tower(VALUES, levels), scaled_tower(VALUES, levels))
    known, sheet = [tower_values(VALUES, levels, point)] * 2, [TOP] * 275
    for i, pair_of_texts in enumerate((texts, texts[::-1])):
        cases.shorter(*pair_of_texts, *point, 2 - i, sheet, known)


def different_cases(cases, draw):
    """One cell more at each place, or another value: neither where it has a weight at the point, and the shorter where not."""
    for i, place in enumerate(places((2, 1))):
        cell = words("cell", (*place, *part(i % 3, 1 + draw.below(P - 1))))
        texts = pair(i % 2, keyed(CIRCUIT), keyed(f"{CIRCUIT}, {cell}"))
        for point in (drawn_point(draw, (2, 1)), ((1 - place[0] % 2, draw.below(P)), (draw.below(P),))):
            cases.shorter(*texts, *point, 0 if weighed(place, point) else 1 + i % 2)
    for i in range(3):
        other = single((1, 1), (0, 1), [x + y for x, y in zip((1, 2, 3), part(i, 1))])
        neither(cases, single((1, 1), (0, 1), (1, 2, 3)), other, drawn_point(draw, (1, 1)))
    neither(cases, ONE, TWO, drawn_point(draw, (1, 0)))
    neither(cases, NONE, single((0, 0), (0, 0), ZERO), ((), ()))


def shape_cases(cases, draw):
    """Keys of unequal shapes: one that calls the other, one of the same cell, and shapes that cross."""
    for bits, more in itertools.product(((0, 0), (1, 2)), ((1, 0), (0, 2), (29, 28))):
        small, larger = single(bits, last_place(bits), VALUES), tuple(n + k for n, k in zip(bits, more))
        both_ways(cases, small, enlarged(small, more), drawn_point(draw, larger))
        tied(cases, small, single(larger, last_place(bits), VALUES), drawn_point(draw, larger))
        neither(cases, small, single(larger, last_place(larger), VALUES), drawn_point(draw, larger))
    crossed = single((2, 0), (0, 0), VALUES), single((0, 3), (0, 0), VALUES)
    tied(cases, *crossed, drawn_point(draw, (2, 3)))


def edition_cases(cases, draw):
    """One key of each edition: as long without calls, 4 bytes longer for each call, and one call with a factor for several."""
    for text, bits in ((ONE, (1, 0)), (NONE, (0, 0))):
        tied(cases, text, scaled(text), drawn_point(draw, bits))
    for text, bits in ((TWO, (1, 0)), (SQUARE, (2, 2))):
        both_ways(cases, text, scaled(text), drawn_point(draw, bits))
    both_ways(cases, DOUBLED, TWICE, drawn_point(draw, (1, 1)))
    both_ways(cases, DOUBLED, enlarged(TWICE, (1, 1)), drawn_point(draw, (2, 2)))


def refusal_cases(cases, draw):
    """What refuses compare, of keys that are the same where nothing does: neither key, and the sheet as it was."""
    for text, _ in FAULTY.values():
        neither(cases, text, ONE, ((P,), ()), [7])
    neither(cases, FAULTY[2][0], FAULTY[3][0], ((), ()), [])
    one, other = TWO, enlarged(TWO, (1, 2))
    for count in (1, 3):
        neither(cases, one, other, ([5] * count, [6, 7]), [7] * 9)
        neither(cases, one, other, ([5, 6], [7] * count), [7] * 9)
    for index in range(4):
        numbers = [P if i == index else draw.below(P) for i in range(4)]
        neither(cases, one, other, (numbers[:2], numbers[2:]), [7] * 9)


def sheet_cases(cases, draw):
    """Sheets that are too short for the key with more arrays, just long enough, and longer."""
    for length in (0, 3, 8):
        neither(cases, ONE, THREE, drawn_point(draw, (1, 0)), numbered(length))
    for length in (9, 13):
        both_ways(cases, ONE, THREE, drawn_point(draw, (1, 0)), numbered(length))


def sweep(cases, draw):
    """Drawn keys of both editions against larger ones, written in another way, in the other edition, with a value or a factor
    changed, and damaged.
    """
    for i in range(4):
        records = drawn_key(draw, 3)
        text = key_words(encoded(records))
        larger = grown(records, (draw.below(3), draw.below(3)))
        bits = larger[0][1]
        for other in (rewritten(draw, larger), in_other_edition(larger), nearly(draw, larger)):
            cases.shorter(*pair(i % 2, text, key_words(encoded(other))), *drawn_point(draw, bits))
        for j, data in enumerate(damaged(draw, larger)):
            point = (spoiled(draw, side) for side in drawn_edges(draw, bits))
            cases.shorter(*pair(j % 2, text, key_words(data)), *point, sheet=numbered(3 + draw.below(12)))


def shorter_cases(cases, draw):
    """Which key is handed back, its length, and every place of the sheet."""
    same_cases(cases, draw)
    length_cases(cases, draw)
    different_cases(cases, draw)
    shape_cases(cases, draw)
    edition_cases(cases, draw)
    refusal_cases(cases, draw)
    sheet_cases(cases, draw)
    sweep(cases, draw)
