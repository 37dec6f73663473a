"""The cases of the count of factors that evaluate, cell and compare answer: 02, E4. Every count here is worked out beside its
key, by E4's sentence alone: k + k' for a cell, (k - K) + (k' - K') for a call.
"""

import functools
import itertools

from tests.draw.numbers import drawn_point
from tests.model.fields import P
from tests.model.pairs import most_bits
from tests.model.words import byte_words, joined, times, words

from .comparisons import both_ways
from .editions.shared import InEditionTwo
from .keys import CIRCUIT, EMPTY, NESTED, REWRITTEN, SAMPLE, keyed, pair, unused
from .quadratic.shared import Quadratics, point_of

# The factors of NESTED, array by array.
NESTED_FACTORS = 2 * 2 + 2 + 2 * 1 + (1 + 2 * 1) + (2 + 2 + 3 + 3)

# The factors of the circuit, of the others that describe it (those of cells alone first), and of those whose matrices are 0.
CIRCUIT_FACTORS = 2 * 3
ARRAYS_FACTORS = (0 + 6, 3 + 6, 6 + 0, 2 + 3 + 1, 1 + 1 + 2 + 2, 5 * 3 + 3 + 3, 6 + 3 + 3, 1 + 1 + 6 + 2 + 2)
REWRITTEN_FACTORS = (2 * 3, 3 * 3, 3 * 3, 4 * 3, 4 * 3, 4 * 3, *ARRAYS_FACTORS)
EMPTY_FACTORS = (0, 0, 3, 2 * 3, 2 + 2 * 1, 2 * 3 + 3)

# The shapes of which each two are compared.
UNEQUAL = (0, 0), (0, 1), (1, 0), (1, 1), (2, 3), (3, 2), (0, 30), (30, 0), (30, 30)

# As many calls as a key has room for, of an array without bits: no key has more factors.
MOST = "head 30 30, sparse 0 0, recursive 30 30, 5956 times call 0 5 7, end"
MOST_FACTORS = 5956 * 60


def keys_without():
    """Keys without factors, with their bits: no coordinates at all, no cells and calls, and calls of the caller's own shape."""
    yield "head 0 0, sparse 0 0, end", (0, 0)
    yield "head 0 0, sparse 0 0, 3 times cell 0 0 1 2 3, recursive 0 0, 2 times call 0 0 0, end", (0, 0)
    yield "head 2 1, sparse 2 1, end", (2, 1)
    yield "head 2 1, sparse 1 0, recursive 0 1, recursive 2 1, end", (2, 1)
    yield "head 2 1, sparse 0 0, 4 times cell 0 0 1 2 3, recursive 0 0, call 0 0 0, sparse 2 1, end", (2, 1)
    for bits in ((1, 0), (0, 1), (3, 2), (30, 30)):
        opening = words("recursive", bits)
        arrays = f"{words('sparse', bits)}, {opening}, 5 times call 0 0 0, {opening}, call 1 0 0, 2 times call 0 0 0"
        yield f"{words('head', bits)}, {arrays}, end", bits


def cell_keys():
    """Keys of cells with their bits and factors: a cell counts the bits of its own array, not of the head, wherever it is and
    whatever its values are; and so it does in an array that nobody calls.
    """
    for bits in itertools.product((0, 1, 2, 29, 30), repeat=2):
        last = words("cell", (2**n - 1 for n in bits))
        cells = f"{last} 1 2 3, {last} 0 0 0, cell 0 0 {P - 1} 0 0"
        yield f"{words('head', bits)}, {words('sparse', bits)}, {cells}, end", bits, 3 * sum(bits)
    for bits in itertools.product(range(4), range(3)):
        arrays = f"{words('sparse', bits)}, 2 times cell 0 0 1 2 3, sparse 3 2"
        yield f"head 3 2, {arrays}, end", (3, 2), 2 * sum(bits)
        yield f"head 3 2, {arrays}, cell 7 3 4 5 6, end", (3, 2), 2 * sum(bits) + 5


def call_keys():
    """Keys of calls with their bits and factors: a call counts the bits that its array has more than the called one, at every
    position and whatever is called. The array that calls is called itself, or by nobody.
    """
    sides = [(K, k) for k in range(3) for K in range(k + 1)]
    for down, right in itertools.product(sides, repeat=2):
        called, calling = zip(down, right)
        calls = f"{words('call 0', (2 ** (k - K) - 1 for K, k in (down, right)))}, 2 times call 0 0 0"
        front = f"head 3 3, {words('sparse', called)}, {words('recursive', calling)}, {calls}, recursive 3 3"
        own = 3 * (sum(calling) - sum(called))
        yield f"{front}, end", (3, 3), own
        yield f"{front}, call 1 0 0, end", (3, 3), own + 6 - sum(calling)


def limit_keys():
    """Keys with (n + n')·(cells + calls) factors, with their bits and these: cells in arrays of the head's shape, and calls
    from such arrays of arrays without bits.
    """
    for bits in ((0, 0), (1, 0), (0, 1), (2, 3), (30, 30)):
        head, sparse, recursive = (words(name, bits) for name in ("head", "sparse", "recursive"))
        cells, calls = "4 times cell 0 0 1 2 3", "3 times call 0 0 0"
        yield f"{head}, {sparse}, {cells}, {sparse}, {cells}, end", bits, 8 * sum(bits)
        yield f"{head}, sparse 0 0, {recursive}, {calls}, {recursive}, {calls}, end", bits, 6 * sum(bits)
        yield f"{head}, sparse 0 0, {sparse}, {cells}, {recursive}, {calls}, end", bits, 7 * sum(bits)


def record_keys():
    """Keys with their bits and factors: these are of the records, each once, and not of what they unroll to."""
    yield byte_words(SAMPLE), (1, 1), 1 + 2 * 1
    yield NESTED, (3, 2), NESTED_FACTORS
    yield "head 2 1, sparse 1 1, cell 1 1 1 2 3, recursive 2 1, 8 times call 0 1 0, end", (2, 1), 2 + 8 * 1
    levels = ", ".join(f"recursive 1 1, 2 times call {i} 0 0" for i in range(20))
    yield f"head 1 1, sparse 1 1, cell 1 0 1 2 3, {levels}, end", (1, 1), 2


def stairs(axis, count):
    """A key of `count` bits on an axis, with its bits and factors: array i has i bits and calls each array before it, and the
    call of array j has i - j factors. Over all j < i these add up to count·(count + 1)·(count + 2)/6.
    """
    items = [words("head", pair(axis, count, 0)), "sparse 0 0", "cell 0 0 1 2 3"]
    for i in range(1, count + 1):
        items.extend([words("recursive", pair(axis, i, 0)), *(f"call {j} 0 0" for j in range(i))])
    return joined(*items, "end"), pair(axis, count, 0), count * (count + 1) * (count + 2) // 6


def scaled_keys():
    """Keys of edition 2 with their bits and factors: a call counts the same whatever its factor is, also where that is 0."""
    front = "scaled_head 2 1, sparse 1 0, cell 1 0 1 2 3, recursive 2 1"
    for factor, count in itertools.product((0, 1, 2, P - 1), (1, 3)):
        arrays = f"{front}, {times(count, f'scaled_call 0 1 1 {factor}')}"
        yield f"{arrays}, end", (2, 1), 1 + count * 2
        yield f"{arrays}, recursive 2 1, scaled_call 1 0 0 {factor}, end", (2, 1), 1 + count * 2


def counted_keys():
    """All these keys, each in words, with its bits and its factors."""
    yield from ((text, bits, 0) for text, bits in keys_without())
    yield from cell_keys()
    yield from call_keys()
    yield from limit_keys()
    yield from record_keys()
    yield from (stairs(axis, count) for axis, count in itertools.product((0, 1), (1, 2, 3, 30)))
    yield from scaled_keys()
    yield MOST, (30, 30), MOST_FACTORS


def evaluation_cases(cases, points):
    """Each key at a point, and one at points at which many weights are 0: the count is the same at all."""
    for text, bits, factors in counted_keys():
        cases.evaluate(text, *points(bits), factors=factors)
    for r in (0, 1, P - 1):
        cases.evaluate(NESTED, *([r] * len(side) for side in points((3, 2))), factors=NESTED_FACTORS)


def cell_cases(cases):
    """The last cell of each key."""
    for text, bits, factors in counted_keys():
        cases.cell(text, *(2**n - 1 for n in bits), factors=factors)


def comparison_cases(cases, points):
    """Two keys, and exchanged: the factors of both, where they are the same and where they are different."""
    circuit, empty = keyed(CIRCUIT), keyed(EMPTY[0])
    for arrays, factors in zip(REWRITTEN, REWRITTEN_FACTORS, strict=True):
        both_ways(cases, circuit, keyed(arrays), points((2, 1)), "same", factors=CIRCUIT_FACTORS + factors)
        both_ways(cases, empty, keyed(arrays), points((2, 1)), "different", factors=factors)
    for arrays, factors in zip(EMPTY, EMPTY_FACTORS, strict=True):
        both_ways(cases, empty, keyed(arrays), points((2, 1)), "same", factors=factors)
        both_ways(cases, circuit, keyed(arrays), points((2, 1)), "different", factors=CIRCUIT_FACTORS + factors)
    one, other = (f"head 0 0, sparse 0 0, cell 0 0 {value} 0 0, recursive 0 0, call 0 0 0, end" for value in (1, 2))
    both_ways(cases, one, other, points((0, 0)), "different", factors=0)
    cases.compare(one, one, *points((0, 0)), "same", factors=0)
    cases.compare(MOST, MOST, *points((30, 30)), "same", factors=2 * MOST_FACTORS)


def shape_comparisons(cases, points):
    """Two keys of unequal shapes: the factors of both, and one for each coordinate that one of them does not use (02, E7)."""
    known = {bits: (text, factors) for text, bits, factors in (*cell_keys(), *limit_keys(), *record_keys())}
    for i, (one, other) in enumerate(itertools.combinations(UNEQUAL, 2)):
        (first, factors), (second, others) = known[one], known[other]
        counts = factors + others + unused(one, other)
        cases.compare(*pair(i % 2, first, second), *points(most_bits(one, other)), factors=counts)
    text, factors = known[0, 30]
    cases.compare(MOST, text, *points((30, 30)), factors=MOST_FACTORS + factors + 30)


def factor_cases(cases, draw):
    """02, E4, over p, in both editions, and for two keys of unequal shapes E7."""
    points = functools.partial(drawn_point, draw)
    for each in (cases, InEditionTwo(cases)):
        evaluation_cases(each, points)
        cell_cases(each)
        comparison_cases(each, points)
        shape_comparisons(each, points)


def quadratic_factor_cases(cases, draw):
    """The same over p², where a coordinate counts one too."""
    points, quadratics = functools.partial(point_of, draw), Quadratics(cases)
    for each in (quadratics, InEditionTwo(quadratics)):
        evaluation_cases(each, points)
        comparison_cases(each, points)
        shape_comparisons(each, points)
