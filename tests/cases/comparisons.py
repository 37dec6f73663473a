"""The cases of what compare answers: 01, 'Comparing two keys'."""

import itertools
import re

from tests.draw.changes import damaged, in_other_edition, nearly, rewritten
from tests.draw.keys import drawn_key, encoded
from tests.draw.numbers import drawn_edges, drawn_point, numbered, spoiled
from tests.model.dense import bits_of
from tests.model.fields import P, PRIME, TOP
from tests.model.pairs import most_bits
from tests.model.words import byte_words, key_words, times, words

from .evaluations import longest_keys
from .keys import CIRCUIT, EMPTY, NESTED, ONE, REWRITTEN, SAMPLE, THREE, keyed, of_cells, pair, part, single, unused
from .towers import drawn_levels, shapes, tower, tower_factors, tower_values


def both_ways(cases, first, second, point, wanted=None, sheet=None, factors=None):
    """Two keys in words, and exchanged, where the answer is the same."""
    cases.compare(first, second, *point, wanted, sheet, factors=factors)
    cases.compare(second, first, *point, wanted, sheet, factors=factors)


def same_cases(cases, draw):
    """One circuit that is written in several ways, keys whose matrices are 0, and a key with itself."""
    for i, arrays in enumerate(REWRITTEN):
        cases.compare(*pair(i % 2, keyed(CIRCUIT), keyed(arrays)), *drawn_point(draw, (2, 1)), "same")
    for one, other in itertools.pairwise(REWRITTEN):
        cases.compare(keyed(one), keyed(other), *drawn_edges(draw, (2, 1)), "same")
    for arrays in EMPTY:
        cases.compare(keyed(EMPTY[0]), keyed(arrays), *drawn_point(draw, (2, 1)), "same")
        cases.compare(keyed(arrays), keyed(CIRCUIT), *drawn_point(draw, (2, 1)), "different")
    for text, bits in ((NESTED, (3, 2)), (byte_words(SAMPLE), (1, 1)), (keyed(CIRCUIT), (2, 1))):
        cases.compare(text, text, *drawn_point(draw, bits), "same")
        cases.compare(text, text, *drawn_edges(draw, bits), "same")


def weighed(place, point):
    """Whether a place has a weight at a point: no coordinate is 0 where the place has bit 1, or 1 where it has bit 0."""
    return all(r != 1 - (number >> i & 1) for number, side in zip(place, point) for i, r in enumerate(side))


def corner_cases(cases, draw):
    """One cell more at each corner, in A alone, in B alone and in C alone: the same exactly where it has no weight."""
    for place, which in itertools.product(itertools.product((0, 3), (0, 1)), range(3)):
        other = keyed(f"{CIRCUIT}, {words('cell', (*place, *part(which, 1 + draw.below(P - 1))))}")
        (low, high), (right,) = map(bits_of, place, (2, 1))
        own, beside = ((low, high), (right,)), (((low, 1 - high), (right,)), ((low, high), (1 - right,)))
        for i, point in enumerate((own, *beside, drawn_point(draw, (2, 1)))):
            wanted = "different" if weighed(place, point) else "same"
            cases.compare(*pair(i % 2, keyed(CIRCUIT), other), *point, wanted)


def root(u, v):
    """The coordinate at which values u at 0 and v at 1 come to 0: u times 1 - r and v times r."""
    return u * pow(u - v, -1, P) % P


def root_cases(cases, draw):
    """Values u at 0 and v at 1 against none: the same exactly at r = u/(u - v)."""
    for axis, which in itertools.product((0, 1), range(3)):
        u, v = 1 + draw.below(P // 2), P // 2 + 1 + draw.below(P // 2)
        bits, zero = pair(axis, 1, 0), root(u, v)
        some = of_cells(bits, [(pair(axis, a, 0), part(which, x)) for a, x in enumerate((u, v))])
        for r in (zero - 1, zero, zero + 1):
            wanted = "same" if r == zero else "different"
            cases.compare(*pair(which % 2, some, of_cells(bits, [])), *pair(axis, (r,), ()), wanted)


def part_cases(cases, draw):
    """A, B and C are told apart: the same values elsewhere, and differences that would add up to 0."""
    others = (2, 1, 3), (1, 3, 2), (3, 2, 1), (3, 1, 2), (2, 2, 2), (1, 2, 4), (1, 3, 3), (2, 2, 3), (0, 3, 3), (6, 0, 0)
    for one, other in (((1, 2, 3), other) for other in others):
        point = drawn_point(draw, (1, 1))
        cases.compare(single((1, 1), (1, 0), one), single((1, 1), (1, 0), other), *point, "different")
    for one, other in itertools.permutations((part(which, value) for which, value in enumerate((4, 4, P - 4))), 2):
        cases.compare(single((0, 0), (0, 0), one), single((0, 0), (0, 0), other), (), (), "different")
    # The arrays before the last do not count, nor does the number of arrays.
    cases.compare(ONE, THREE, (5,), (), "same")
    cases.compare(THREE, ONE, (5,), (), "same")
    before = "head 0 0, sparse 0 0, cell 0 0 1 2 3, sparse 0 0, {}end"
    cases.compare(before.format(""), before.format("cell 0 0 1 2 3, "), (), (), "different")


def no_point_cases(cases):
    """No coordinates at all: the keys are the same exactly where their one place is."""
    texts = {
        "head 0 0, sparse 0 0, end": (0, 0, 0),
        "head 0 0, recursive 0 0, end": (0, 0, 0),
        f"head 0 0, sparse 0 0, cell 0 0 {P - 1} 0 0, cell 0 0 2 0 0, end": (1, 0, 0),
        "head 0 0, sparse 0 0, cell 0 0 1 0 0, recursive 0 0, call 0 0 0, end": (1, 0, 0),
        "head 0 0, sparse 0 0, cell 0 0 1 0 1, end": (1, 0, 1),
        f"head 0 0, sparse 0 0, cell 0 0 {P - 1} {P - 1} {P - 1}, end": (P - 1, P - 1, P - 1),
    }
    for one, other in itertools.product(texts, repeat=2):
        cases.compare(one, other, (), (), "same" if texts[one] == texts[other] else "different")


def tower_pair(cases, draw, one, other, wanted=None, field=PRIME):
    """Two towers, each its cell's values and its levels, at a point over a field, against their closed forms."""
    heads = [shapes(levels)[-1] for _, levels in (one, other)]
    point = drawn_point(draw, field.counts(most_bits(*heads)))
    known = [tower_values(*each, point, field) for each in (one, other)]
    sheet = [TOP] * 3 * field.size * max(map(len, known)) + [1, 2]
    factors = sum(tower_factors(levels) for _, levels in (one, other)) + unused(*heads)
    cases.compare(tower(*one), tower(*other), *point, wanted, sheet, known, max(map(len, known)) < 11, factors)


def tower_cases(cases, draw):
    """Towers of many levels against the same with a level more, which changes nothing, and with a value changed."""
    values = (P - 1, 2, 3)
    for count, parts in ((6, (0, 1, 2)), (40, (1, 2)), (60, (0,))):
        levels = drawn_levels(draw, count, 1)
        more = [*levels, (None, [1])]
        tower_pair(cases, draw, *pair(count // 6 % 2, (values, levels), (values, more)), "same")
        for which in parts:
            changed = tuple((x + (i == which)) % P for i, x in enumerate(values))
            tower_pair(cases, draw, (values, levels), (changed, levels), "different")
    # The same with one call more; and two levels that call twice and three times are one that calls six times.
    (axis, counts), *rest = drawn_levels(draw, 40, 1)
    one, other = [(axis, counts), *rest], [(axis, [2, *counts[1:]]), *rest]
    tower_pair(cases, draw, (values, other), (values, one), "different")
    twice, once = [(None, [2]), (0, [1, 2]), (None, [3])], [(0, [1, 2]), (None, [6])]
    tower_pair(cases, draw, (values, twice), (values, once), "same")
    tower_pair(cases, draw, (values, once), (values, twice), "same")


def limit_cases(cases, draw):
    """Keys of 65,536 bytes and of 1,024 arrays, against short ones that are the same circuit."""
    longest = next(longest_keys(draw))
    cells = [list(map(int, found)) for found in re.findall(r"(\d+) times cell (\d+) (\d+) (\d+) (\d+) (\d+)", longest)]
    short = of_cells((30, 30), [(fields[1:3], [fields[0] * x % P for x in fields[3:]]) for fields in cells])
    cases.compare(longest, short, *drawn_point(draw, (30, 30)), "same", factors=(3120 + 60) * 60)
    most, least = (f"head 0 0, {times(count, 'sparse 0 0')}, cell 0 0 1 2 3, end" for count in (1024, 1))
    both_ways(cases, most, least, ((), ()), "same", [7] * 3072)
    both_ways(cases, most, least, ((), ()), "neither refused 31 at 3072", [7] * 3071)


def sweep(cases, draw):
    """Drawn keys of both editions against the same circuit written in another way and in the other edition, with one value or
    factor changed, and damaged.
    """
    for i in range(16):
        records = drawn_key(draw, 3)
        text, bits = key_words(encoded(records)), records[0][1]
        other = key_words(encoded(rewritten(draw, records)))
        cases.compare(*pair(i % 2, text, other), *drawn_point(draw, bits), "same")
        moved = key_words(encoded(in_other_edition(records)))
        cases.compare(*pair(i % 2, moved, other), *drawn_point(draw, bits), "same")
        changed = key_words(encoded(nearly(draw, records)))
        cases.compare(text, changed, *drawn_point(draw, bits))
        cases.compare(changed, text, *drawn_edges(draw, bits))
        for j, data in enumerate(damaged(draw, records)):
            first, second = pair(j % 2, text, key_words(data))
            sheet = numbered(3 + draw.below(9))
            cases.compare(first, second, *(spoiled(draw, side) for side in drawn_point(draw, bits)), sheet=sheet)


def comparison_cases(cases, draw):
    """01, 'Comparing two keys': what is said, and every place of the sheet."""
    same_cases(cases, draw)
    corner_cases(cases, draw)
    root_cases(cases, draw)
    part_cases(cases, draw)
    no_point_cases(cases)
    tower_cases(cases, draw)
    limit_cases(cases, draw)
    sweep(cases, draw)
