"""Keys of few arrays, and keys of many calls, as lists of records."""

import itertools

from tests.model.fields import P
from tests.model.keys import CALLS, larger
from tests.model.records import KINDS, encode

from .numbers import drawn_below, drawn_factor


def drawn_cell(draw, bits):
    """A cell that an array of these bits may have."""
    return "cell", tuple(drawn_below(draw, bound) for bound in (2 ** bits[0], 2 ** bits[1], P, P, P))


def drawn_call(draw, bits, called, shape):
    """A call, that an array of these bits may have, of an array of that shape."""
    return "call", (called, *(drawn_below(draw, 2 ** (k - K)) for k, K in zip(bits, shape)))


def drawn_scaled_call(draw, bits, called, shape):
    """Such a call of edition 2."""
    return "scaled_call", (*drawn_call(draw, bits, called, shape)[1], drawn_factor(draw))


# What draws a call of the edition that each head begins.
DRAWN_CALLS = dict(zip(CALLS, (drawn_call, drawn_scaled_call)))


def drawn_array(draw, name, bits, shapes, least):
    """The records of an array of these bits that may stand behind a head of this name and arrays of those shapes, with at
    least so many entries where it can have any.
    """
    if draw.below(2):
        return [("sparse", bits), *(drawn_cell(draw, bits) for _ in range(least + draw.below(3)))]
    earlier = [i for i, shape in enumerate(shapes) if not larger(shape, bits)]
    chosen = [earlier[draw.below(len(earlier))] for _ in range(least + draw.below(4)) if earlier]
    return [("recursive", bits), *(DRAWN_CALLS[name](draw, bits, called, shapes[called]) for called in chosen)]


def drawn_key(draw, most=4, least=0):
    """The records of an accepted key, of either edition, of at most so many arrays; `least` is as for an array."""
    name, head = list(CALLS)[draw.below(2)], (draw.below(4), draw.below(4))
    shapes = [tuple(draw.below(n + 1) for n in head) for _ in range(draw.below(most))] + [head]
    arrays = [drawn_array(draw, name, bits, shapes[:i], least) for i, bits in enumerate(shapes)]
    return [(name, head), *itertools.chain(*arrays), ("end", ())]


def many_calls(draw, name, calls, arrays):
    """The records of a key with a head of this name, so many calls, all of factor 1, and so many arrays before the last."""
    bits = (draw.below(4), draw.below(4))
    called, shape = draw.below(arrays), (0, 0)
    records = [(name, bits), *[("sparse", shape)] * arrays, ("recursive", bits)]
    _, fields = drawn_call(draw, bits, called, shape)
    call = CALLS[name], fields if name == "head" else (*fields, 1)
    return [*records, *[call] * calls, ("end", ())]


def encoded(records):
    """The bytes of a key's records."""
    return b"".join(encode(KINDS[name], fields) for name, fields in records)
