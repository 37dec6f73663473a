"""Numbers, the same ones everywhere, and points, rates, places and sheets of numbers."""

from tests.model.fields import P, TOP


class Draw:
    """Numbers for the sweeps, the same ones everywhere: powers of 48271 modulo 2^31 - 1."""

    def __init__(self):
        self.state = 1

    def below(self, bound):
        """A number below `bound`, made of as many draws as it takes."""
        number, span = 0, 1
        while span < bound:
            self.state = self.state * 48271 % P
            number, span = number * P + self.state, span * P
        return number % bound

    def bytes(self, count):
        """So many bytes."""
        return bytes(self.below(256) for _ in range(count))


def drawn_below(draw, bound):
    """A number below `bound`, half the time the greatest."""
    return bound - 1 if draw.below(2) else draw.below(bound)


def drawn_factor(draw):
    """The factor of a call: 0, 1, 2, p - 1 or, one in five, any."""
    return (0, 1, 2, P - 1, draw.below(P))[draw.below(5)]


def drawn_point(draw, bits):
    """Row coordinates and column coordinates, as many as the bits."""
    return tuple([draw.below(P) for _ in range(n)] for n in bits)


def drawn_edges(draw, bits):
    """Such a point, whose coordinates are 0, 1, 2, p - 1 or, one in five, any."""
    return tuple([(0, 1, 2, P - 1, r)[draw.below(5)] for r in side] for side in drawn_point(draw, bits))


def spoiled(draw, coordinates):
    """Coordinates, half the time with one more, with one fewer, or with one that is p or more, in place of one or last."""
    at = draw.below(len(coordinates) + 1)
    return [
        [*coordinates[:at], draw.below(P), *coordinates[at:]],
        coordinates[:-1],
        [*coordinates[:at], P + draw.below(TOP + 1 - P), *coordinates[at + 1 :]],
        *[coordinates] * 3,
    ][draw.below(6)]


def drawn_rates(draw):
    """Rates per cell, per call and per factor: 0, 1, 50, 1,000,000, any below 100 or any up to 1,000,000; one time in three
    each may be over that.
    """
    rates = [(0, 1, 50, 1_000_000, draw.below(100), draw.below(1_000_001))[draw.below(6)] for _ in range(3)]
    if draw.below(3):
        return rates
    over = 1_000_001, TOP, TOP - draw.below(TOP - 1_000_000)
    return [(rate, rate, rate, *over)[draw.below(6)] for rate in rates]


def drawn_place(draw, bits):
    """A row and a column that fit the bits."""
    return tuple(draw.below(2**n) for n in bits)


def numbered(length):
    """A sheet with another number in each place."""
    return [101 + i for i in range(length)]
