"""Drawn keys of both editions and of any two shapes, points, sheets and rates, whole and faulty,
answered by the module and by tests/model.
"""

import collections
import functools
import itertools
import re

from tests.draw.changes import damaged, grown, in_other_edition, nearly, rewritten, with_cells
from tests.draw.keys import drawn_key, encoded, many_calls
from tests.draw.numbers import Draw, drawn_edges, drawn_place, drawn_point, drawn_rates, numbered, spoiled
from tests.model import calls as model
from tests.model.editions import moved
from tests.model.fields import PRIME, QUADRATIC
from tests.model.locate import locate, located
from tests.model.pairs import most_bits
from tests.model.price import price, priced
from tests.model.records import Refusal
from tests.model.words import accepted, counted, outcome, refused

from . import forms
from .holding import Failed, hold_equal
from .subject import morgana

KEYS = 200
LOCATED = 500
LEAST = 5
POINTS = 4
KEY_FAULTS = range(1, 14)
COMPARED = "same", "different", 21, 22, 23, 31
OUTCOMES = {
    "check": ("accepted", *KEY_FAULTS),
    "evaluate": ("accepted", *KEY_FAULTS, 21, 22, 23, 31),
    "cell": ("accepted", *KEY_FAULTS, 24, 31),
    "compare": (*COMPARED, *KEY_FAULTS),
    "locate": (*COMPARED, *KEY_FAULTS),
    "evaluate_quadratic": ("accepted", *KEY_FAULTS, 21, 22, 23, 31),
    "compare_quadratic": (*COMPARED, *KEY_FAULTS),
    "moved": ("accepted", *KEY_FAULTS, 55, 56),
    "price": ("accepted", *KEY_FAULTS, 62),
}
# How the shapes of two accepted keys differ: crossed ones, in that one has more rows and the other
# more columns.
SHAPES = "equal", "rows", "columns", "both", "crossed"
WHICH = {1: "first ", 2: "second ", None: "neither "}
# How the names of the calls on two keys begin.
OF_TWO = "compare", "locate"


def numbers_of(value):
    """The numbers of A, of B or of C."""
    return value if isinstance(value, morgana.Quadratic) else (value,)


def in_words(answer):
    """What the module answers, as tests/model words it; a moved key as its bytes."""
    if isinstance(answer, bytes):
        return answer.hex()
    if isinstance(answer, int):
        return priced(answer)
    if isinstance(answer, morgana.Counts):
        return accepted(answer.arrays, answer.cells, answer.calls, answer.rows, answer.columns)
    if isinstance(answer, morgana.Compared):
        return counted("same" if answer.same else "different", answer.factors)
    if answer is None:
        return "same"
    if isinstance(answer, morgana.DifferingCell):
        both = ((each.a, each.b, each.c) for each in (answer.first, answer.second))
        return located(answer.row, answer.column, both)
    numbers = (str(x) for value in (answer.a, answer.b, answer.c) for x in numbers_of(value))
    return counted(" ".join(numbers), answer.factors)


def answered(name, *arguments):
    """What a call of the module answers or refuses, in words."""
    try:
        return in_words(getattr(morgana, name)(*arguments))
    except morgana.Refused as refusal:
        which = WHICH[refusal.key] if name.startswith(OF_TWO) else ""
        return which + refused(int(refusal.number), refusal.place)


def kind_of(words):
    """The number of a refusal in words, or the kind of the answer."""
    number = re.match(r"(?:first |second |neither )?refused (\d+) ", words)
    said = words.split(" ")[0]
    return int(number[1]) if number else said if said in ("same", "different") else "accepted"


def moved_words(data):
    """What moving a key answers: the copy's bytes, or the refusal."""
    try:
        return moved(data).hex()
    except Refusal as refusal:
        return refused(*refusal.args)


def beyond(draw, records):
    """The bytes of a key that is too long, of one that has too many arrays, and of one that is too
    long when it is moved, for one key in ten, as they take long.
    """
    if draw.below(10) == 0:
        yield encoded(records) + bytes(65536)
        yield encoded([records[0], *[("sparse", (0, 0))] * 1024, *records[1:]])
        yield encoded(many_calls(draw, "head", 4368 + draw.below(3), 1 + draw.below(6)))


def any_point(draw, counts):
    """A point of so many numbers on each side, any numbers or edges, half the time spoiled."""
    point = (drawn_point, drawn_edges)[draw.below(2)](draw, counts)
    return tuple(spoiled(draw, side) for side in point) if draw.below(2) else point


def differing(one, other):
    """How the shapes of two keys differ, by the bits of their heads."""
    rows, columns = (n - k for n, k in zip(one, other, strict=True))
    return "crossed" if rows * columns < 0 else SHAPES[bool(rows) + 2 * bool(columns)]


def compared(draw, records):
    """Keys that a drawn one is compared with: of its shape, of any, and larger ones that call it."""
    more = draw.below(3), draw.below(3)
    larger = grown(records, more)
    return [
        *(records, nearly(draw, records), rewritten(draw, records), in_other_edition(records)),
        *(drawn_key(draw), larger, rewritten(draw, larger), in_other_edition(larger)),
        *(grown(records, (1, 0)), grown(records, (0, 2))),
        grown(records, more, [draw.below(2**n) for n in more], draw.below(3)),
    ]


class Sweep:
    """Calls of the module, each compared with what tests/model answers; their outcomes are counted, and
    those of two accepted keys also by how their shapes differ.
    """

    def __init__(self):
        self.draw = Draw()
        self.counts = collections.Counter()
        self.shapes = collections.Counter()

    def hold(self, name, wanted, keys, rest=(), sheet=None):
        """Compares one call, on the sheet where there is one, and then on the module's own."""
        about = f"{name} {' '.join(key.hex() for key in keys)} at {rest} on {sheet}"
        keys = [forms.one_of(self.draw, forms.KEYS, key) for key in keys]
        if sheet is None:
            hold_equal(about, wanted, answered(name, *keys, *self.dressed(rest)))
            answer = wanted
        else:
            lent = forms.one_of(self.draw, forms.SHEETS, sheet)
            got = answered(name, *keys, *self.dressed(rest), lent)
            hold_equal(about, wanted, outcome(got, list(lent)))
            answer = wanted.split(" sheet")[0]
            if kind_of(answer) != 31:
                got = answered(name, *keys, *self.dressed(rest))
                hold_equal(f"{about}, without a sheet", answer, got)
        self.counts[name, kind_of(answer)] += 1

    def dressed(self, rest):
        """The sides of a point in one of their forms, and a row, a column and rates as they are."""
        draw, points = self.draw, forms.POINTS
        return [forms.one_of(draw, points, x) if isinstance(x, list) else x for x in rest]

    def hold_place(self, data, bits):
        """Checks a key, moves it, prices it, and asks for a cell of it."""
        self.hold("check", model.check(data), [data])
        self.hold("moved", moved_words(data), [data])
        rates = drawn_rates(self.draw)
        self.hold("price", price(data, rates), [data], rates)
        row, column = drawn_place(self.draw, [n + self.draw.below(2) for n in bits])
        sheet = numbered(self.draw.below(15))
        self.hold("cell", model.cell(data, row, column, sheet), [data], (row, column), sheet)

    def hold_point(self, data, bits, field):
        """Evaluates a key of these bits at a point."""
        point = any_point(self.draw, field.counts(bits))
        sheet = numbered(self.draw.below(15 * field.size))
        wanted = model.evaluate(data, *point, sheet, field=field)
        self.hold(f"evaluate{field.suffix}", wanted, [data], point, sheet)

    def hold_pair(self, pair, name, by_model, field):
        """Makes a call on two keys, each its bytes and its head's bits, in either order, at a point that
        has the larger bits or, one time in eight, those of one of them.
        """
        keys, heads = zip(*pair[:: 1 - 2 * self.draw.below(2)])
        bits = (*heads, *[most_bits(*heads)] * 14)[self.draw.below(16)]
        point = any_point(self.draw, field.counts(bits))
        sheet = numbered(self.draw.below(18 * field.size))
        wanted = by_model(*keys, *point, sheet)
        self.hold(name, wanted, list(keys), point, sheet)
        kind = kind_of(wanted.split(" sheet")[0])
        if kind not in KEY_FAULTS:
            # A damaged key that is accepted may have other bits than the key that was drawn.
            shapes = differing(*((data[1], data[2]) for data in keys))
            self.shapes[name.removesuffix("_quadratic"), shapes, kind] += 1

    def hold_key(self, records, field):
        """Compares one drawn key, whole and damaged, with what is made of it, and two of those."""
        draw, compare = self.draw, functools.partial(model.compare, field=field)
        others = [(encoded(each), each[0][1]) for each in compared(draw, records)]
        whole, bits = others[0]
        for data in (whole, *damaged(draw, records), *beyond(draw, records)):
            self.hold_place(data, bits)
            for _ in range(POINTS):
                self.hold_point(data, bits, field)
                one, other = (others[draw.below(len(others))] for _ in range(2))
                pair = [(data, bits) if draw.below(3) else one, other]
                self.hold_pair(pair, f"compare{field.suffix}", compare, field)

    def hold_location(self, records):
        """Locates a difference of one drawn key, whole and damaged, from what is made of it, with cells
        added and without.
        """
        draw = self.draw
        more = ((draw.below(3), draw.below(3)) for _ in range(12))
        added = (with_cells(draw, records, each, 1 + draw.below(3)) for each in more)
        others = [(encoded(each), each[0][1]) for each in (*compared(draw, records), *added)]
        whole, bits = others[0]
        for data in (whole, *damaged(draw, records), *beyond(draw, records)):
            one, other = (others[draw.below(len(others))] for _ in range(2))
            self.hold_pair([(data, bits) if draw.below(3) else one, other], "locate", locate, PRIME)


def hold_all():
    """Compares all drawn keys over both fields, and returns how many cases there were."""
    sweep = Sweep()
    for field in (PRIME, QUADRATIC):
        for _ in range(KEYS):
            sweep.hold_key(drawn_key(sweep.draw, 4, sweep.draw.below(2)), field)
    for _ in range(LOCATED):
        sweep.hold_location(drawn_key(sweep.draw, 4, sweep.draw.below(2)))
    hold_often({(name, kind) for name, kinds in OUTCOMES.items() for kind in kinds}, sweep.counts)
    hold_often(set(itertools.product(OF_TWO, SHAPES, COMPARED)), sweep.shapes)
    return sweep.counts.total()


def hold_often(wanted, counts):
    """Raises Failed unless each of these outcomes occurred often enough, and no other."""
    seldom = {each: counts[each] for each in wanted if counts[each] < LEAST}
    if seldom:
        raise Failed(f"each outcome must occur {LEAST} times at least; too seldom: {seldom}")
    hold_equal("the outcomes that occurred", wanted, set(counts))
