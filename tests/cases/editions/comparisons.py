"""The cases of compare for keys of edition 2 and for one of each edition: what is said, and how often at most."""

import itertools

from tests.draw.numbers import drawn_edges, drawn_point
from tests.model.fields import P, TOP
from tests.model.words import times, words

from ..comparisons import both_ways
from ..counts import SHAPES, Values, bound, counted_pair, unweighed
from ..keys import CIRCUIT, EMPTY, keyed, last_place, of_cells, scaled
from ..towers import drawn_levels, scaled_tower, scaled_tower_factors, shapes, tower, tower_factors, tower_values

# A part of two row bits and one column bit, which calls place.
PART = "sparse 1 1, cell 0 1 3 5 7, cell 1 0 11 13 17"


def called(*calls):
    """A key of edition 2 in words whose last array has these calls of the part, each a row position and a factor."""
    items = (f"scaled_call 0 {a} 0 {factor}" for a, factor in calls)
    return ", ".join(["scaled_head 2 1", PART, "recursive 2 1", *items, "end"])


def repeated(count):
    """A key of edition 1 in words that calls the part so often."""
    calls = f", {times(count, 'call 0 1 0')}" if count else ""
    return f"head 2 1, {PART}, recursive 2 1{calls}, end"


def same_cases(cases, draw):
    """Factors that add up to the same, in one edition and across the two, and factors that do not."""
    for count in (0, 1, 2, 5):
        for calls in ([(1, count)], [(1, P - 1), (1, count + 1)], [(0, 0), (1, 2**30), (1, (count - 2**30) % P)]):
            both_ways(cases, called(*calls), repeated(count), drawn_point(draw, (2, 1)), "same")
            both_ways(cases, called(*calls), repeated(count + 1), drawn_point(draw, (2, 1)), "different")
    for factor in (0, 1, 2, P - 2, P - 1):
        one, other = called((1, factor), (0, 3)), called((1, (factor + 1) % P), (0, 3))
        cases.compare(one, other, *drawn_point(draw, (2, 1)), "different")
        cases.compare(other, one, *drawn_point(draw, (2, 1)), "different")
        # The call that differs is at position 1: where the second row coordinate is 0, it has no weight.
        cases.compare(one, other, (5, 0), (7,), "same")


def cancelled_cases(cases, draw):
    """Matrices that are 0 since calls cancel, and circuits as the difference of two parts."""
    cancelled = called((1, 1), (1, P - 1)), called((0, 5), (1, 2), (0, P - 5), (1, P - 2)), called((1, 0)), called()
    for text in cancelled:
        for empty in (keyed(EMPTY[0]), scaled(keyed(EMPTY[4]))):
            both_ways(cases, text, empty, drawn_point(draw, (2, 1)), "same")
        both_ways(cases, text, keyed(CIRCUIT), drawn_point(draw, (2, 1)), "different")
    more = f"{CIRCUIT}, cell 2 1 4 0 1, sparse 0 0, cell 0 0 4 0 1"
    text = f"scaled_head 2 1, {more}, recursive 2 1, scaled_call 0 0 0 1, scaled_call 1 2 1 {P - 1}, end"
    for point in (drawn_point(draw, (2, 1)), drawn_edges(draw, (2, 1))):
        both_ways(cases, text, keyed(CIRCUIT), point, "same")
    negative = f"sparse 2 1, cell 0 0 {P - 5} {P - 7} {P - 9}, cell 3 1 {P - 2} 0 1"
    text = f"scaled_head 2 1, {negative}, recursive 2 1, scaled_call 0 0 0 {P - 1}, end"
    both_ways(cases, text, keyed(CIRCUIT), drawn_point(draw, (2, 1)), "same")


def tower_cases(cases, draw):
    """Towers of edition 1 against those of edition 2 whose factors are the numbers of calls, and with one factor changed."""
    values = (P - 1, 2, 3)
    for count in (6, 40):
        levels = drawn_levels(draw, count, 3)
        (axis, counts), *rest = levels
        changed = [(axis, [counts[0] + 1, *counts[1:]]), *rest]
        point = drawn_point(draw, shapes(levels)[-1])
        for first, second, of_second, wanted in (
            (tower(values, levels), scaled_tower(values, levels), levels, "same"),
            (scaled_tower(values, levels), tower(values, levels), levels, "same"),
            (tower(values, levels), scaled_tower(values, changed), changed, "different"),
        ):
            known = [tower_values(values, each, point) for each in (levels, of_second)]
            sheet, factors = [TOP] * 3 * (count + 1) + [1, 2], tower_factors(levels) + scaled_tower_factors(levels)
            cases.compare(first, second, *point, wanted, sheet, known, count < 10, factors)


def count_cases(cases, draw):
    """A call with a factor against none, in the other edition: the same exactly where its position has no weight."""
    for factor, bits in itertools.product((1, P - 1, 1 + draw.below(P - 1)), SHAPES):
        place, values = last_place(bits), Values(draw, 16)
        head, call = words("scaled_head", bits), words("scaled_call 0", (*place, factor))
        text = f"{head}, sparse 0 0, cell 0 0 3 5 7, {words('recursive', bits)}, {call}, end"
        counted_pair(cases, (text, of_cells(bits, [])), bits, values, unweighed(bits, place), bound(bits, values))


def comparison_cases(cases, draw):
    """02, E9: every operation takes both editions, also mixed in compare."""
    same_cases(cases, draw)
    cancelled_cases(cases, draw)
    tower_cases(cases, draw)
    count_cases(cases, draw)
