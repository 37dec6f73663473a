"""Keys of two shapes compared, the smaller read as filled with zeros."""

import array
import itertools

from tests.model.fields import with_zeros
from tests.model.words import key

from . import samples
from .subject import morgana

P = morgana.P

# Keys of one circuit, and the bits of each; and an empty key of no bits beside one of the most bits.
SAME = (
    (samples.OLD, (1, 1)),
    (samples.NEW, (1, 1)),
    (samples.TALL, (2, 1)),
    (samples.WIDE, (1, 3)),
    (samples.LARGER, (2, 3)),
)
EMPTY = key("head 30 30, sparse 30 30, end")
CALLS = (morgana.compare, 1), (morgana.compare_quadratic, 2)


def hold_larger(hold):
    """N and N' are the larger bits, whichever key has them, and no other count plays a part."""
    for (one, bits), (other, others) in itertools.product((*SAME, (EMPTY, (30, 30))), repeat=2):
        shape = morgana.check(one).larger_shape(morgana.check(other))
        hold.equal("the larger shape", (max(bits[0], others[0]), max(bits[1], others[1])), shape)
        hold.equal("its types", [tuple, int, int], [type(shape), *map(type, shape)])
    counts = morgana.check(samples.OLD)
    hold.equal("of one key", (1, 1), counts.larger_shape(counts))


def hold_same(hold):
    """Keys of one circuit in any two shapes are the same at every point, and a displaced one is different."""
    for (one, bits), (other, others) in itertools.product(SAME, repeat=2):
        shape = [*map(max, bits, others)]
        for call, size in CALLS:
            for number in (0, 1, 2, P - 1):
                point = [[number] * (size * n) for n in shape]
                hold.true("same", call(one, other, *point).same)
            for _ in range(5):
                point = morgana.random_point(*shape, quadratic=size == 2)
                hold.true("same", call(one, other, *point).same)
    for one, _ in SAME:
        for pair in ((one, samples.DISPLACED), (samples.DISPLACED, one)):
            hold.true("different", not morgana.compare(*pair, [3, 5], [4, 6, 7]).same)
            # The second row coordinate weighs 1 - r in the one key and r in the other: the same where it is 1/2.
            half = (P + 1) // 2
            hold.true("same at a half", morgana.compare(*pair, [3, half], [4, 6, 7]).same)


def hold_distant(hold):
    """No bits beside thirty of each: the one place weighs the product of all 1 - r."""
    for call, size in CALLS:
        for pair in ((samples.SHORTEST, EMPTY), (EMPTY, samples.SHORTEST)):
            got = call(*pair, [2] * (30 * size), [2] * (30 * size))
            hold.equal("zeros", morgana.Compared(same=True, factors=60), got)
    one = key("head 0 0, sparse 0 0, cell 0 0 1 2 3, end")
    for number, same in ((0, False), (1, False), (2, False)):
        point = [number] * 30, [number] * 30
        hold.equal("the last cell", same, morgana.compare(one, samples.GREATEST, *point).same)
    first = key("head 30 30, sparse 30 30, cell 0 0 1 2 4, end")
    for number, same in ((0, False), (1, True), (2, False)):
        point = [number] * 30, [number] * 30
        hold.equal("another first cell", same, morgana.compare(first, one, *point).same)


def hold_old_points(hold):
    """Points with every v zero give the answers over p."""
    for (one, bits), (other, others) in itertools.product((*SAME, (samples.DISPLACED, (2, 3))), repeat=2):
        point = morgana.random_point(*map(max, bits, others))
        wanted = morgana.compare(one, other, *point)
        hold.equal("v zero", wanted, morgana.compare_quadratic(one, other, *map(with_zeros, point)))


def hold_sheets(hold):
    """The sheet has each key's numbers at its own coordinates, not multiplied, the second's over the first's."""
    at = [3, 5], [4]
    tall = [10 * 4 * (1 - 3) * (1 - 5) % P, 14 * 4 * (1 - 3) * (1 - 5) % P, 0]
    for pair, wanted in (
        ((samples.OLD, samples.TALL), [*tall, *samples.TRIPLES[3:]]),
        ((samples.TALL, samples.OLD), samples.TRIPLES),
    ):
        sheet = array.array("I", [9] * 8)
        hold.true("same", morgana.compare(*pair, *at, sheet).same)
        hold.equal("the sheet", [*wanted, 9, 9], list(sheet))
        for length in range(6):
            sheet = array.array("I", [9] * length)
            hold.refused(f"{length} places", 31, 6, morgana.compare, *pair, *at, sheet)
            hold.equal("a short sheet", [9] * length, list(sheet))
    sheet = array.array("I", [9] * 13)
    morgana.compare_quadratic(samples.TALL, samples.OLD, [3, 2, 0, 1], [4, 5], sheet)
    hold.equal("over p*p", [*samples.SIXES, 9], list(sheet))


def hold_refusals(hold):
    """21 and 22 go by the larger bits, and come behind the keys' own numbers."""
    for pair in ((samples.TALL, samples.WIDE), (samples.WIDE, samples.TALL)):
        for call, size in CALLS:
            for count in {*range(8)} - {2 * size}:
                hold.refused("rows", 21, count, call, *pair, [P] * count, [P])
            for count in {*range(10)} - {3 * size}:
                hold.refused("columns", 22, count, call, *pair, [P] * (2 * size), [P] * count)
            for index in range(5 * size):
                numbers = [0] * index + [P] * (5 * size - index)
                point = numbers[: 2 * size], numbers[2 * size :]
                hold.refused("a coordinate", 23, index, call, *pair, *point)
    for call, _ in CALLS:
        hold.refused("the first key", 2, 30, call, samples.CUT, samples.TALL, [P], [], key=1)
        hold.refused("the second key", 2, 30, call, samples.TALL, samples.CUT, [P], [], key=2)


def hold_all(hold):
    """Everything of this file."""
    hold_larger(hold)
    hold_same(hold)
    hold_distant(hold)
    hold_old_points(hold)
    hold_sheets(hold)
    hold_refusals(hold)
