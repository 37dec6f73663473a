"""Drawn keys, points and sheets, answered by both models."""

import collections
import itertools

from tests.draw.changes import damaged
from tests.draw.keys import drawn_key, encoded
from tests.draw.numbers import Draw, drawn_edges, drawn_point, numbered, spoiled
from tests.model.calls import evaluate
from tests.model.fields import P, PRIME, QUADRATIC, with_zeros
from tests.model.words import counted, outcome, refused
from tests.unroll.calls import evaluate_on
from tests.unroll.factors import factors
from tests.unroll.fields import F_P, F_P2
from tests.unroll.keys import Refused, check

from . import pairs
from .holding import Failed, hold, hold_outcomes

FIELDS = ((PRIME, F_P), (QUADRATIC, F_P2))
KEYS = 250
OUTCOMES = ("evaluate", {"accepted", *range(2, 14), 21, 22, 23, 31} - {6}, 1), *pairs.OUTCOMES


def unrolled_evaluation(data, rows, columns, sheet, over):
    """What tests/unroll answers, as tests/model words it, and the kind of outcome."""
    try:
        values, count, after = evaluate_on(data, rows, columns, sheet, over)
    except Refused as refusal:
        return outcome(refused(refusal.number, refusal.place), sheet), refusal.number
    return outcome(counted(" ".join(map(str, values)), count), after), "accepted"


def greatest_point(_, counts):
    """The point of so many numbers on each side that are all p - 1."""
    return tuple([P - 1] * n for n in counts)


# Points of so many numbers on each side: any numbers, edges, and p - 1 alone.
POINTS = drawn_point, drawn_edges, greatest_point


def hold_old_points(data, point, sheet):
    """Raises Failed where a point with every v zero does not give the old answer, with the same count of factors."""
    *old, word, count = evaluate(data, *point, sheet).split(" sheet")[0].split()
    new = evaluate(data, *map(with_zeros, point), sheet, field=QUADRATIC).split(" sheet")[0].split()
    wanted = [*(str(x) for x in with_zeros(map(int, old))), word, count]
    hold("v zero", new, wanted, f"{data.hex()} at {point}")


def hold_limit(data):
    """Raises Failed where an accepted key has more factors than (n + n')·(cells + calls)."""
    key = check(data)
    records = sum(len(array.cells) + len(array.calls) for array in key.arrays)
    count, most = factors(key), (key.row_bits + key.column_bits) * records
    if count > most:
        raise Failed(f"{data.hex()} has {count} factors, and the limit is {most}")


def hold_evaluation(draw, data, point, counts, field, over):
    """Evaluates a key by both models at a point, which may be spoiled."""
    rows, columns = point if draw.below(2) else (spoiled(draw, side) for side in point)
    sheet = numbered(draw.below(12 * field.size) + 3 * field.size)
    wanted, kind = unrolled_evaluation(data, rows, columns, sheet, over)
    about = f"{data.hex()} at {rows} {columns} on {len(sheet)} places"
    hold("evaluate", evaluate(data, rows, columns, sheet, field=field), wanted, about)
    counts["evaluate"][kind] += 1


def hold_key(draw, records, counts, field, over):
    """Evaluates one drawn key, whole and damaged, and compares it with others and with a larger one that calls it."""
    whole, compared = encoded(records), pairs.others(draw, records)
    hold_limit(whole)
    for data, make_point in itertools.product((whole, *damaged(draw, records)), POINTS):
        point = make_point(draw, field.counts(records[0][1]))
        hold_evaluation(draw, data, point, counts, field, over)
        pair = pairs.drawn_pair(draw, data, records, compared)
        pairs.hold_pair(draw, pair, make_point, counts, field, over)
    for make_point in POINTS:
        pairs.hold_growth(draw, records, make_point, field)


def hold_all():
    """Holds all drawn keys over both fields, and returns how many cases there were."""
    draw, cases = Draw(), 0
    for field, over in FIELDS:
        counts = collections.defaultdict(collections.Counter)
        for _ in range(KEYS):
            records = drawn_key(draw, 4, draw.below(2))
            hold_key(draw, records, counts, field, over)
        for call, outcomes, least in OUTCOMES:
            hold_outcomes(f"{call}{field.suffix}", outcomes, counts[call], least)
        cases += counts["evaluate"].total() + counts["compare"].total() + KEYS * len(POINTS)
    for _ in range(KEYS):
        records = drawn_key(draw, 4, draw.below(2))
        hold_old_points(encoded(records), drawn_edges(draw, records[0][1]), numbered(6 * len(records)))
    return cases + KEYS
