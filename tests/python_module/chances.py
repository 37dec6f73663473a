"""Random points, and the likelihood that keys that differ pass."""

import fractions
import unittest.mock

from . import forms, samples
from .subject import morgana

PARTS = 64
P = morgana.P


def hold_points(hold):
    """A random point has as many numbers as it needs, all below p, and the module takes it."""
    for quadratic, size in ((False, 1), (True, 2)):
        for bits in ((0, 0), (1, 0), (0, 1), (1, 1), (30, 30), (forms.Whole(2), True)):
            point = morgana.random_point(*bits, quadratic)
            hold.equal("lists", [list, list], [type(side) for side in point])
            hold.equal("counts", [size * int(n.__index__()) for n in bits], [*map(len, point)])
            hold.true("numbers below p", all(0 <= x < P for side in point for x in side))
    hold.true("points differ", morgana.random_point(30, 30) != morgana.random_point(30, 30))
    for bits in ((-1, 0), (0, -1), (31, 0), (0, 31), (10**5000, 0)):
        hold.raises("bits out of range", ValueError, morgana.random_point, *bits)
    for bits in ((1.0, 0), (0, "1"), (None, 0)):
        hold.raises("no bits", TypeError, morgana.random_point, *bits)


def hold_spread(hold):
    """Random numbers lie in each of 64 equal parts of the field, on both sides, as u and as v."""
    points = [morgana.random_point(2, 2, quadratic=True) for _ in range(3000)]
    for side in range(2):
        for index in range(4):
            parts = {point[side][index] * PARTS // P for point in points}
            hold.equal("parts of the field", set(range(PARTS)), parts)


def hold_source(hold):
    """Each number is one of its own of the system's source, below p."""
    asked = []

    def draw(most):
        asked.append(most)
        return len(asked)

    with unittest.mock.patch.object(morgana.secrets, "randbelow", draw):
        point = morgana.random_point(2, 3, quadratic=True)
    hold.equal("numbers", ([1, 2, 3, 4], [5, 6, 7, 8, 9, 10]), point)
    hold.equal("below what", {P}, set(asked))


def hold_likelihood(hold):
    """The likelihood is, for one point, the agreement bound by the number of points."""
    for quadratic, q in ((False, P), (True, P * P)):
        for m in range(61):
            one = fractions.Fraction(q**m - (q - 1) ** m, q**m)
            hold.equal(f"m {m}", one, morgana.likelihood(m, quadratic=quadratic))
            hold.equal(f"m {m}, 3 points", one * one * one, morgana.likelihood(m, 3, quadratic))
        most = morgana.likelihood(60, 1000, quadratic)
        hold.equal("the type", fractions.Fraction, type(most))
        hold.equal("a float of it", 0.0, float(most))
        hold.true("it is not 0", most > 0)
    hold.true("one in 35 million", morgana.likelihood(60) < fractions.Fraction(1, 35_000_000))
    hold.equal("any integers", morgana.likelihood(1, 2), morgana.likelihood(True, forms.Whole(2)))


def hold_ranges(hold):
    """m is 0 to 60, and points is 1 to 1,000."""
    for m, points in ((-1, 1), (61, 1), (10**5000, 1), (1, 0), (1, -1), (1, 1001), (1, 10**9)):
        hold.raises("out of range", ValueError, morgana.likelihood, m, points)
    for m, points in ((1.0, 1), (1, 2.0), ("1", 1), (None, 1), (1, None)):
        hold.raises("no number", TypeError, morgana.likelihood, m, points)


def hold_use(hold):
    """Keys of one circuit are the same at random points, and keys that differ are not."""
    for quadratic, call in ((False, morgana.compare), (True, morgana.compare_quadratic)):
        for _ in range(50):
            point = morgana.random_point(1, 1, quadratic)
            hold.true("same", call(samples.OLD, samples.NEW, *point).same)
        hold.true("different", not call(samples.OLD, samples.WRONG, *point).same)
        for other in (samples.TALL, samples.WIDE, samples.LARGER):
            shape = morgana.check(samples.OLD).larger_shape(morgana.check(other))
            for _ in range(50):
                point = morgana.random_point(*shape, quadratic)
                hold.true("same in two shapes", call(samples.OLD, other, *point).same)
            hold.true("different in two shapes", not call(samples.WRONG, other, *point).same)


def hold_all(hold):
    """Everything of this file."""
    hold_points(hold)
    hold_spread(hold)
    hold_source(hold)
    hold_likelihood(hold)
    hold_ranges(hold)
    hold_use(hold)
