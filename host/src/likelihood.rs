//! How likely keys that differ are found the same.

use crate::field::Field;
use std::fmt::{Display, Formatter, Result};

/// The exponent of two below which [`Likelihood::points`] brings the bound.
const WANTED: f64 = -80.0;

/// The decimal exponent of the least bound that is printed.
const LEAST: f64 = -38.0;

/// An upper bound on the probability that two keys that differ in a cell, the smaller filled with
/// zeros, are found the same at every one of some random points.
///
/// With m = N + N', the larger row bits and the larger column bits of the two keys, and a field of
/// q elements it is (1 - ((q - 1) / q)^m)^points. For one point this is the proved agreement bound,
/// (q^m - (q - 1)^m) / q^m. For several points it is the proved bound too (law `several` in
/// `crates/comparison/proofs/SeveralPoints.antt`): keys that differ in a cell are found the same at
/// every point of at most (q^m - (q - 1)^m)^points of all (q^m)^points lists of so many points. What
/// it takes is that each point is as likely as any other, independent of those before and of both
/// keys: as [`RandomPoints`](crate::RandomPoints) draws them once both keys are fixed.
///
/// It prints as two digits and a power of ten, rounded upwards and never below `1.0e-38`, since
/// the machine is no surer than that; and as `0` where m is 0 and it is exactly 0.
///
/// ```
/// use morgana::{Field, Likelihood};
///
/// assert_eq!(Likelihood::new(Field::Prime, 60, 1).to_string(), "2.8e-8");
/// assert_eq!(Likelihood::points(Field::Prime, 60), 4);
/// assert_eq!(Likelihood::new(Field::Prime, 60, 4).to_string(), "6.1e-31");
/// ```
#[derive(Debug, Clone, Copy, PartialEq)]
pub struct Likelihood {
    logarithm: f64,
}

impl Likelihood {
    /// The bound for keys with m = N + N' bits and so many points from a field.
    pub fn new(field: Field, m: u32, points: u32) -> Likelihood {
        let (m, points) = (f64::from(m), f64::from(points));
        if points == 0.0 {
            return Likelihood { logarithm: 0.0 };
        }
        let one_point = -(m * (-1.0 / field.size()).ln_1p()).exp_m1();
        // The margin is greater than the error of the logarithm, so that the bound stays above
        // the exact number.
        let margin = 1e-14 * (points + 1.0);
        Likelihood {
            logarithm: points * one_point.log10() + margin,
        }
    }

    /// The fewest points that bring the bound below 2^-80: for keys, whose m is at most 60, at most 4, and over p² at
    /// most 2.
    pub fn points(field: Field, m: u32) -> u32 {
        let wanted = WANTED * 2f64.log10();
        let enough = |points: &u32| Likelihood::new(field, m, *points).logarithm < wanted;
        (1..).find(enough).expect("the bound falls with each point")
    }

    /// The decimal logarithm of the bound, rounded upwards; negative infinity where it is 0.
    pub fn log10(self) -> f64 {
        self.logarithm
    }

    /// Whether the bound is 0: matrices of keys without bits have one place, and every point shows it.
    pub fn is_zero(self) -> bool {
        self.logarithm == f64::NEG_INFINITY
    }
}

impl Display for Likelihood {
    fn fmt(&self, out: &mut Formatter) -> Result {
        if self.is_zero() {
            return write!(out, "0");
        }
        let logarithm = self.logarithm.max(LEAST);
        let exponent = logarithm.floor();
        let tenths = (10.0 * 10f64.powf(logarithm - exponent)).ceil();
        match tenths {
            100.0.. => write!(out, "1.0e{}", exponent + 1.0),
            _ => write!(out, "{:.1}e{exponent}", tenths / 10.0),
        }
    }
}

#[cfg(test)]
mod tests {
    use super::{Field, Likelihood};

    /// The bound as it prints.
    fn printed(field: Field, m: u32, points: u32) -> String {
        Likelihood::new(field, m, points).to_string()
    }

    #[test]
    fn the_bound_is_the_exact_number_rounded_upwards() {
        for (m, points, bound) in [
            (0, 1, "0"),
            (0, 1_000_000, "0"),
            (1, 1, "4.7e-10"),
            (2, 1, "9.4e-10"),
            (3, 1, "1.4e-9"),
            (30, 1, "1.4e-8"),
            (60, 1, "2.8e-8"),
            (1, 2, "2.2e-19"),
            (60, 2, "7.9e-16"),
            (1, 3, "1.1e-28"),
            (60, 4, "6.1e-31"),
            (60, 5, "1.8e-38"),
            (60, 0, "1.0e0"),
        ] {
            assert_eq!(printed(Field::Prime, m, points), bound, "{m} {points}");
        }
    }

    #[test]
    fn the_field_of_p_squared_has_its_own_bound() {
        for (m, points, bound) in [
            (0, 1, "0"),
            (1, 1, "2.2e-19"),
            (2, 1, "4.4e-19"),
            (60, 1, "1.4e-17"),
            (1, 2, "4.8e-38"),
            (60, 2, "1.7e-34"),
        ] {
            assert_eq!(printed(Field::Quadratic, m, points), bound, "{m} {points}");
        }
    }

    #[test]
    fn no_bound_is_printed_below_the_least() {
        for (field, m, points) in [
            (Field::Prime, 1, 5),
            (Field::Prime, 60, 6),
            (Field::Prime, 60, 1_000_000),
            (Field::Quadratic, 1, 3),
            (Field::Quadratic, 60, 3),
            (Field::Quadratic, 60, u32::MAX),
        ] {
            assert_eq!(printed(field, m, points), "1.0e-38", "{m} {points}");
        }
    }

    #[test]
    fn the_logarithm_stays_above_the_exact_number() {
        // The exact logarithms are worked out with 60 digits.
        for (field, m, points, exact) in [
            (Field::Prime, 60, 5, -37.768_893_104_817_23),
            (Field::Prime, 60, 43, -324.812_480_701_428_18),
            (Field::Prime, 1, 1_000, -9_331.929_865_381_183),
            (Field::Prime, 60, 1_000_000, -7_553_778.620_963_446),
            (Field::Quadratic, 60, 22, -371.485_586_568_331_9),
        ] {
            let got = Likelihood::new(field, m, points).log10();
            assert!(got > exact, "{m} {points}: {got}");
            assert!(got < exact + 1e-7, "{m} {points}: {got}");
        }
    }

    #[test]
    fn digits_above_9_9_are_rounded_to_the_next_power_of_ten() {
        let printed = |digits: f64| {
            let logarithm = digits.log10() - 16.0;
            Likelihood { logarithm }.to_string()
        };
        assert_eq!(printed(9.89), "9.9e-16");
        assert_eq!(printed(9.91), "1.0e-15");
        assert_eq!(printed(9.99), "1.0e-15");
    }

    #[test]
    fn the_fewest_points_bring_the_bound_below_two_to_the_minus_80() {
        for (m, points) in [(0, 1), (1, 3), (2, 3), (20, 3), (21, 4), (60, 4)] {
            assert_eq!(Likelihood::points(Field::Prime, m), points, "{m}");
        }
        for (m, points) in [(0, 1), (1, 2), (60, 2)] {
            assert_eq!(Likelihood::points(Field::Quadratic, m), points, "{m}");
        }
    }
}
