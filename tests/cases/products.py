"""The cases of crates/products, a test program for what no public call reaches: eq of 004 (1.1.2) on elements of either field
that are no bits, and the weight of a number over any of a side's bits, by a table with the weights of limbs or without. Every
answer is worked out by tests/model as the product that 004 prints; what is known in closed form must agree. Behind each product
stands the count of its factors (02, E4), one for each element or bit.
"""

import itertools
import struct

from tests.draw.numbers import Draw
from tests.model.dense import bits_of, eq, weight
from tests.model.fields import P, QUADRATIC, TOP, gaussian, with_zeros
from tests.model.words import agreed, listed

CALLS = {"eq": 1, "factor": 2, "weigh": 3, "eq_quadratic": 4}
PLACES = (64, 448)

# 1/2, of which eq's factor is 1/2 whatever the other number.
HALF = (P + 1) // 2


class Products:
    """The cases so far: the line that the program must print for each, with what it reads of the case."""

    def __init__(self):
        self.inputs = {}

    def add(self, call, name, answers, lists, number=0, start=0, places=0, size=1):
        """One case, with the numbers of its header in the program's order; a case that is there already is left out. `size` is
        how many numbers of a list are an element.
        """
        wanted = "".join(f" {x}" for x in answers)
        text = f"{call} {name} | wanted{wanted} | got".encode()
        header = struct.pack("<6I", CALLS[call], len(text), len(lists[0]) // size, number, start, places)
        numbers = list(itertools.chain(*lists))
        self.inputs.setdefault(text + wanted.encode() + b"\n", header + text + struct.pack(f"<{len(numbers)}I", *numbers))

    def eq(self, x, y, wanted=None):
        """eq of two lists, in both orders; `wanted` where it is known in closed form."""
        for one, other in ((x, y), (y, x)):
            answer = agreed(wanted, eq(one, other))
            self.add("eq", f"{listed(one)} with {listed(other)}", [answer, len(one)], (one, other))

    def eq_quadratic(self, x, y, wanted=None):
        """eq over p² of the elements that two lists of numbers are, likewise."""
        for one, other in ((x, y), (y, x)):
            elements = QUADRATIC.elements(one)
            product = gaussian(eq(elements, QUADRATIC.elements(other)))
            answer = agreed(wanted, QUADRATIC.numbers(product))
            name = f"{listed(one)} with {listed(other)}"
            self.add("eq_quadratic", name, [*answer, len(elements)], (one, other), size=QUADRATIC.size)

    def factor(self, number, start, coordinates, wanted=None):
        """The weights of a number over the bits from `start` up to each, by each table; `wanted` likewise."""
        answers = weights(number, start, coordinates)
        agreed(wanted, answers)
        for places in PLACES:
            name = f"{number} from bit {start} by {places} places at {listed(coordinates)}"
            self.add("factor", name, counted(answers), (coordinates,), number, start, places)

    def weigh(self, number, coordinates):
        """The weights of a number that fits so many bits as there are coordinates, over the first bits up to each."""
        answers = weights(number, 0, coordinates)
        for places in PLACES:
            name = f"{number} by {places} places at {listed(coordinates)}"
            self.add("weigh", name, counted(answers), (coordinates,), number, places=places)


def weights(number, start, coordinates):
    """The weights of a number's lowest bits at the coordinates from `start` up to each; 01's product must agree."""
    sides = [coordinates[start:end] for end in range(start, len(coordinates) + 1)]
    return [agreed(weight(number, side), eq(bits_of(number, len(side)), side)) for side in sides]


def counted(answers):
    """Weights over no bits, over one, and so on, each with its count of factors behind it."""
    return list(itertools.chain(*((answer, bits) for bits, answer in enumerate(answers))))


def drawn(draw, count):
    """So many numbers of the field."""
    return [draw.below(P) for _ in range(count)]


def drawn_edges(draw, count):
    """So many numbers that are 2, 1/2, -2 or -1 or, one in five, any."""
    return [(2, HALF, P - 2, P - 1, draw.below(P))[draw.below(5)] for _ in range(count)]


def few_cases(products):
    """eq of no numbers, and of one and two numbers at the edges of the field."""
    products.eq([], [], 1)
    edges = (0, 1, 2, P // 2, HALF, P - 2, P - 1)
    for x, y in itertools.product(edges, repeat=2):
        products.eq([x], [y])
    for y in edges:
        products.eq([0], [y], (1 - y) % P)
        products.eq([1], [y], y)
        products.eq([HALF], [y], HALF)
        products.eq([P - 1], [y], (2 - 3 * y) % P)
    for x, y in itertools.product(itertools.product((2, HALF, P - 1), repeat=2), repeat=2):
        products.eq(x, y)


def many_cases(products, draw):
    """eq of five numbers and of thirty: any, equal ones, bits with any, and bits."""
    for count in (5, 30):
        for _ in range(10):
            x, y, bits = drawn(draw, count), drawn(draw, count), bits_of(draw.below(2**count), count)
            products.eq(x, y)
            products.eq(x, x)
            products.eq(bits, y)
            products.eq(drawn_edges(draw, count), drawn_edges(draw, count))
            products.eq(bits, bits, 1)
            products.eq([HALF] * count, y, pow(HALF, count, P))
        # Bits that are equal but at one place, where the factor is 0 for bits, and for 3 and 5 it is 15 + 8.
        for i in range(count):
            products.eq(bits, [*bits[:i], 1 - bits[i], *bits[i + 1 :]], 0)
            products.eq([*bits[:i], 3, *bits[i + 1 :]], [*bits[:i], 5, *bits[i + 1 :]], 23)


def window_cases(products, draw):
    """Weights over the bits from each up to each, of a number of any bits, of which the program takes as many as are weighed."""
    for count in (0, 1, 5, 11, 30):
        number, coordinates, edges = draw.below(TOP + 1), drawn(draw, count), drawn_edges(draw, count)
        for start in range(count + 1):
            products.factor(number, start, coordinates)
        products.factor(TOP - number, count // 3, edges)
        products.factor(number, 0, [HALF] * count, [pow(HALF, bits, P) for bits in range(count + 1)])
        # A number at its own bits, and at bits of which one is another.
        bits, i = bits_of(number, count), count // 2
        products.factor(number, 0, bits, [1] * (count + 1))
        if count:
            products.factor(number, 0, [*bits[:i], 1 - bits[i], *bits[i + 1 :]], [1] * (i + 1) + [0] * (count - i))


def first_cases(products, draw):
    """Weights over the first bits, as many as each, of a side of as many coordinates as each."""
    for count in range(31):
        coordinates = drawn(draw, count)
        for number in (draw.below(2**count), 2**count - 1):
            products.weigh(number, coordinates)


def quadratic_cases(products, draw):
    """eq over p² of no elements, of one at the edges of the field and of many: any, equal ones, bits with any; and elements
    whose v is 0, of which it is eq over p.
    """
    products.eq_quadratic([], [], (1, 0))
    edges = ((0, 0), (1, 0), (HALF, 0), (0, 1), (0, P - 1), (P - 1, P - 1), (2, 3))
    for x, y in itertools.product(edges, repeat=2):
        products.eq_quadratic(x, y)
    for u, v in edges:
        products.eq_quadratic((0, 0), (u, v), ((1 - u) % P, -v % P))
        products.eq_quadratic((1, 0), (u, v), (u, v))
        products.eq_quadratic((HALF, 0), (u, v), (HALF, 0))
    # i·i + (1 - i)(1 - i) is -1 - 2i, and i·(-i) + (1 - i)(1 + i) is 3.
    products.eq_quadratic((0, 1), (0, 1), (P - 1, P - 2))
    products.eq_quadratic((0, 1), (0, P - 1), (3, 0))
    for count in (2, 5, 30):
        for _ in range(5):
            x, y, bits = drawn(draw, 2 * count), drawn(draw, 2 * count), bits_of(draw.below(2**count), count)
            products.eq_quadratic(x, y)
            products.eq_quadratic(x, x)
            products.eq_quadratic(with_zeros(bits), y)
            products.eq_quadratic(drawn_edges(draw, 2 * count), drawn_edges(draw, 2 * count))
            products.eq_quadratic(with_zeros(x[:count]), with_zeros(y[:count]), (eq(x[:count], y[:count]), 0))


def product_cases():
    """All cases, with numbers drawn apart from those of the other programs."""
    products, draw = Products(), Draw()
    few_cases(products)
    many_cases(products, draw)
    window_cases(products, draw)
    first_cases(products, draw)
    quadratic_cases(products, draw)
    return products
