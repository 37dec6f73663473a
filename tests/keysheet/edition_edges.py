"""Keys of edition 2 at the edges that the request names (02, E9), as inputs of keysheet, each with what is printed for it."""

from .inputs import ACCEPTED, END, PRIME, Case, Input, call, cell, head, recursive, refused, scaled_call, scaled_head, sparse
from .key_edges import COLUMNS, RECORDS, ROWS, keyed

# The records of key_edges.RECORDS in edition 2, with a factor; the place of each record, and the key's length.
SCALED = [scaled_head(3, 2), *RECORDS[1:4], scaled_call(0, 3, 1, PRIME - 1), END]
PLACES = [0, 3, 6, 27, 30, 45, 46]


def with_call(record, *others):
    """SCALED with this record, and these, in place of its call."""
    return [*SCALED[:4], record, *others, END]


def factor_edges():
    """Factors at their edges, and among the faults of a call: 4, 8, 9, 10, 11."""
    yield keyed(SCALED, "key 46 bytes arrays 2 cells 1 calls 1 rows 3 columns 2\n")
    for factor in (0, 1, 2, PRIME - 1, PRIME, PRIME + 1, 2**31, 2**32 - 1):
        yield keyed(with_call(scaled_call(0, 3, 1, factor)), ACCEPTED if factor < PRIME else refused(8, 30))
    for fields, number in (((1, 0, 0), 9), ((65535, 9, 9), 9), ((0, 4, 0), 11), ((0, 0, 2), 11)):
        yield keyed(with_call(scaled_call(*fields, PRIME - 1)), refused(number, 30))
        yield keyed(with_call(scaled_call(*fields, PRIME)), refused(8, 30))
        yield keyed([head(3, 2), *with_call(scaled_call(*fields, PRIME))[1:]], refused(4, 30))
    narrow = [*SCALED[:3], recursive(0, 2)]
    yield keyed([*narrow, scaled_call(0), END], refused(10, 30))
    yield keyed([*narrow, scaled_call(0, factor=2**32 - 1), END], refused(8, 30))


def other_editions():
    """Calls and second heads of the other edition, and calls cut off in either."""
    yield keyed(with_call(call(0)), refused(4, 30))
    yield keyed(with_call(SCALED[4], call(0)), refused(4, 45))
    yield keyed([*RECORDS[:5], scaled_call(0), END], refused(4, 41))
    for second in (head(3, 2), scaled_head(3, 2), scaled_head(31, 31)):
        for index in range(1, 6):
            yield keyed([*SCALED[:index], second, *SCALED[index:]], refused(4, PLACES[index]))
        yield keyed([*SCALED, second], refused(13, 46))
    for bits in ((31, 0), (0, 31), (255, 255)):
        yield keyed([scaled_head(*bits), *SCALED[1:]], refused(5, 0))
    for front in (SCALED[:4], RECORDS[:4], SCALED[:3]):
        before = Input(ROWS, COLUMNS, front).written()
        place = len(before) - 2 - 4 * 5
        for record in (SCALED[4], RECORDS[4]):
            for length in range(1, len(record.written())):
                yield Case(before + record.written()[:length], refused(2, place))
    whole = Input(ROWS, COLUMNS, SCALED).written()
    for length in range(PLACES[-1]):
        cut = whole[: len(whole) - PLACES[-1] + length]
        yield Case(cut, refused(2, max(place for place in PLACES if place <= length)))


def evaluations():
    """The sample with factors, calls that cancel, and factors that multiply through many levels."""
    sample = [scaled_head(1, 1), sparse(0, 1), cell(0, 1, 5, 7), recursive(1, 1), scaled_call(0), scaled_call(0), END]
    lines = "key 61 bytes arrays 2 cells 1 calls 2 rows 1 columns 1\n0 20 28 0\n1 2147483567 2147483535 0\n"
    yield Case(Input([3], [4], sample).written(), lines)
    twice = [*sample[:4], scaled_call(0, factor=2), END]
    yield Case(Input([3], [4], twice).written(), lines.replace("61", "46").replace("calls 2", "calls 1"))
    cancelled = [*sample[:4], scaled_call(0, 1, factor=7), scaled_call(0, 1, factor=PRIME - 7), END]
    yield Case(Input([3], [4], cancelled).written(), lines.replace("1 2147483567 2147483535 0", "1 0 0 0"))
    negated = [scaled_head(0, 0), sparse(0, 0), cell(0, 0, 1, PRIME - 1, 2)]
    for level in range(60):
        negated += [recursive(0, 0), scaled_call(level, factor=PRIME - 1)]
    yield Case(Input([], [], [*negated, END]).written(), ACCEPTED)
    calls = [scaled_head(2, 1), sparse(1, 1), cell(1, 0, 8, 9), recursive(2, 1)]
    calls += [scaled_call(0, 1, 0, PRIME - 1), scaled_call(0, 0, 0, 2**30)] * 2180
    yield Case(Input([6, 7], [8], [*calls, END]).written(), ACCEPTED)


def edition_edges():
    """Every case of this file."""
    yield from factor_edges()
    yield from other_editions()
    yield from evaluations()
