"""What the cases over p² share: the two calls, elements, and points of two numbers a coordinate."""

from tests.draw.numbers import drawn_point
from tests.model.fields import P, QUADRATIC

# The numbers of 0, 1, i, -i, 1 + i and -1 - i, whose two numbers are p - 1.
ZERO, UNIT, I, MINUS_I, BOTH, GREATEST = (0, 0), (1, 0), (0, 1), (0, P - 1), (1, 1), (P - 1, P - 1)


class Quadratics:
    """The cases of both calls over p²: as `Cases` has them over p."""

    def __init__(self, cases):
        self.cases = cases

    def evaluate(self, *about, **named):
        """An evaluation."""
        self.cases.evaluate(*about, **named, field=QUADRATIC)

    def compare(self, *about, **named):
        """A comparison."""
        self.cases.compare(*about, **named, field=QUADRATIC)


def point_of(draw, bits):
    """The numbers of a drawn point for a key of these bits."""
    return drawn_point(draw, QUADRATIC.counts(bits))
