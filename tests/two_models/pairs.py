"""Drawn pairs of keys of any shapes, compared by both models."""

import collections
import itertools

from tests.draw.changes import damaged, grown, in_other_edition, nearly, rewritten
from tests.draw.keys import drawn_key, encoded
from tests.draw.numbers import Draw, drawn_edges, drawn_place, drawn_point, numbered, spoiled
from tests.model.calls import compare
from tests.model.pairs import most_bits
from tests.model.words import counted, outcome, refused
from tests.unroll.calls import compare_on
from tests.unroll.factors import factors_of_both
from tests.unroll.keys import HEADS, Refused, check, larger_shape

from .holding import Failed, hold, hold_outcomes

KEYS = 250
POINTS = drawn_point, drawn_edges

# How the shapes of two keys differ: crossed ones, in that one key has more rows and the other more columns.
SHAPES = "equal", "rows", "columns", "both", "crossed"

# What must occur, with the least number of times: the refusals of either key; for each difference of shapes the answers and the
# refusals of neither key; and the answers for each edition of either key, where the shapes are equal and where they are not.
NAMED = {*itertools.product(("first", "second"), {*range(2, 14)} - {6})}
SHAPED = {*itertools.product(SHAPES, ("same", "different", 21, 22, 23, 31))}
EDITIONS = {*itertools.product(HEADS, HEADS, (False, True), ("same", "different"))}
OUTCOMES = ("compare", NAMED, 1), ("compare", SHAPED, 10), ("editions", EDITIONS, 1)


def unrolled_comparison(first, second, rows, columns, sheet, over):
    """What tests/unroll answers, as tests/model words it, the kind of outcome, and the key that a refusal names."""
    try:
        same, count, after = compare_on(first, second, rows, columns, sheet, over)
    except Refused as refusal:
        answer = f"{refusal.which} {refused(refusal.number, refusal.place)}"
        return outcome(answer, sheet), refusal.number, refusal.which
    verdict = "same" if same else "different"
    return outcome(counted(verdict, count), after), verdict, "neither"


def differing(one, other):
    """How the shapes of two keys differ."""
    rows, columns = one.row_bits - other.row_bits, one.column_bits - other.column_bits
    if rows * columns < 0:
        return "crossed"
    return SHAPES[bool(rows) + 2 * bool(columns)]


def count_outcome(counts, keys, kind, which):
    """Counts a kind of outcome: for the key that a refusal names, or for the two shapes and for the two editions."""
    if which != "neither":
        counts["compare"][which, kind] += 1
        return
    one, other = map(check, keys)
    shapes = differing(one, other)
    counts["compare"][shapes, kind] += 1
    counts["editions"][one.head, other.head, shapes != "equal", kind] += 1


def others(draw, records):
    """Keys that a drawn one is compared with, as records: of its shape, of any, and larger ones that call it."""
    more, rows, columns = (draw.below(3), draw.below(3)), (1 + draw.below(2), 0), (0, 1 + draw.below(2))
    larger = grown(records, more)
    return [
        *(records, nearly(draw, records), rewritten(draw, records), in_other_edition(records)),
        *(drawn_key(draw), drawn_key(draw, 3, 1)),
        *(larger, nearly(draw, larger), rewritten(draw, larger), in_other_edition(larger)),
        *(grown(records, rows), grown(records, columns), grown(grown(records, columns), more)),
        grown(records, more, drawn_place(draw, more), 1 + draw.below(3)),
    ]


def drawn_pair(draw, data, records, compared):
    """The bytes and the head's bits of two keys: the key of the records, whose bytes may be damaged, or one of those that it is
    compared with, and one of those; in either order.
    """
    choices = compared[draw.below(len(compared))], compared[draw.below(len(compared))]
    one, other = ((encoded(each), each[0][1]) for each in choices)
    return ((data, records[0][1]) if draw.below(3) else one, other)[:: 1 - 2 * draw.below(2)]


def drawn_counts(draw, heads, field):
    """How many numbers a point has on each side: of both keys, or one time in eight of one of them."""
    return field.counts((*heads, *[most_bits(*heads)] * 14)[draw.below(16)])


def hold_drawn_pairs(call, choose, hold_each, outcomes):
    """Holds a call on drawn pairs of a key, which may be damaged, and of those that `choose` draws for it, and returns how many
    there were. Each of the outcomes must have occurred so often.
    """
    draw, counts, pairs = Draw(), collections.Counter(), 0
    for _ in range(KEYS):
        records = drawn_key(draw, 4, draw.below(2))
        choices = choose(draw, records)
        for data, make_point in itertools.product((encoded(records), *damaged(draw, records)), POINTS):
            hold_each(draw, drawn_pair(draw, data, records, choices), make_point, counts)
            pairs += 1
    for each, least in outcomes:
        hold_outcomes(call, each, counts, least)
    return pairs


def hold_pair(draw, pair, make_point, counts, field, over):
    """Compares two keys, each its bytes and its head's bits, by both models at a point, which may be spoiled."""
    keys, heads = zip(*pair)
    point = make_point(draw, drawn_counts(draw, heads, field))
    rows, columns = point if draw.below(2) else (spoiled(draw, side) for side in point)
    sheet = numbered(draw.below(18 * field.size) + 3 * field.size)
    wanted, kind, which = unrolled_comparison(*keys, rows, columns, sheet, over)
    about = f"{keys[0].hex()} with {keys[1].hex()} at {rows} {columns} on {len(sheet)} places"
    hold("compare", compare(*keys, rows, columns, sheet, field=field), wanted, about)
    count_outcome(counts, keys, kind, which)
    if kind in ("same", "different"):
        hold_pair_limit(*map(check, keys), about)


def hold_pair_limit(one, other, about):
    """Raises Failed where two keys have more factors than (N + N')·(cells + calls of both) and N + N' for each."""
    records = sum(len(array.cells) + len(array.calls) for key in (one, other) for array in key.arrays)
    count, most = factors_of_both(one, other), sum(larger_shape(one, other)) * (records + 2)
    if count > most:
        raise Failed(f"{about}: {count} factors, and the limit is {most}")


def hold_growth(draw, records, make_point, field):
    """Raises Failed where a key and a larger one that calls it at position 0 are not the same, whatever the point."""
    more = draw.below(3), draw.below(3)
    larger = grown(records, more)
    keys = encoded(records), encoded(rewritten(draw, larger))
    point = make_point(draw, field.counts(larger[0][1]))
    answer = compare(*keys, *point, numbered(36 * field.size), field=field)
    hold("growth", answer.split()[0], "same", f"{keys[0].hex()} with {keys[1].hex()} at {point}")
