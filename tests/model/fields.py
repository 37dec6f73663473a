"""The numbers: p, the field of p elements and that of p² elements (01, 'The field', and 02, E2)."""

import collections
import dataclasses
import itertools

P = 2**31 - 1
TOP = 2**32 - 1


@dataclasses.dataclass(frozen=True)
class Gaussian:
    """u + v·i with i² = -1, of whole numbers; modulo p, an element of the field of p² elements. A whole number serves as one
    whose v is 0.
    """

    u: int
    v: int = 0

    def __mul__(self, other):
        other = gaussian(other)
        return Gaussian(self.u * other.u - self.v * other.v, self.u * other.v + self.v * other.u)

    def __add__(self, other):
        other = gaussian(other)
        return Gaussian(self.u + other.u, self.v + other.v)

    def __rsub__(self, number):
        return Gaussian(number - self.u, -self.v)

    def __mod__(self, modulus):
        return Gaussian(self.u % modulus, self.v % modulus)

    __rmul__ = __mul__


def gaussian(x):
    """The Gaussian number that x is."""
    return x if isinstance(x, Gaussian) else Gaussian(x)


class Field(collections.namedtuple("Field", ("suffix", "size", "element", "numbers"))):
    """A field that points come from: what its calls' names end in, how many numbers an element is, and the element and its
    numbers as functions of each other. Elements are multiplied, added and subtracted from 1 as whole numbers are, and reduced
    modulo p.
    """

    def elements(self, numbers):
        """The elements that a list of numbers is."""
        return [self.element(*numbers[i : i + self.size]) for i in range(0, len(numbers), self.size)]

    def counts(self, bits):
        """How many numbers a point has on each side, for a key of these bits."""
        return [self.size * n for n in bits]


# 01, 'The field', and 02, E2.
PRIME = Field("", 1, lambda number: number, lambda x: (x,))
QUADRATIC = Field("_quadratic", 2, Gaussian, dataclasses.astuple)


def with_zeros(numbers):
    """Numbers over p as the numbers over p² whose v are 0."""
    return tuple(itertools.chain(*((u, 0) for u in numbers)))
