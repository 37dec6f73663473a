//! What the pass needs of a field beside its elements: fast products, and sums that are reduced late.

use super::{fold, less_once, P};
use crate::independent::field::{Field, Fp, Quadratic};

/// A field as the pass works with it.
pub trait Lazy: Field {
    /// A sum of products that is not reduced yet. It has room for those of 2^16 records.
    type Sum: Copy + Default;

    /// The element 1.
    const ONE: Self;

    /// The product of two elements.
    fn product(self, other: Self) -> Self;

    /// 1 less the element.
    fn less_than_one(self) -> Self;

    /// The product of an element and a number below p.
    fn scaled(self, factor: u32) -> Self;

    /// Adds the value of a cell times the cell's weight.
    fn add_value(total: &mut Self::Sum, weight: Self, value: u32);

    /// Adds the value of a called array times the call's weight.
    fn add_element(total: &mut Self::Sum, weight: Self, value: Self);

    /// The element that a sum is.
    fn reduce(total: Self::Sum) -> Self;
}

impl Lazy for Fp {
    type Sum = u64;

    const ONE: Fp = 1;

    #[inline(always)]
    fn product(self, other: Fp) -> Fp {
        less_once(fold(u64::from(self) * u64::from(other)))
    }

    fn less_than_one(self) -> Fp {
        less(1, self)
    }

    #[inline(always)]
    fn scaled(self, factor: u32) -> Fp {
        self.product(factor)
    }

    /// The product is folded below 2^32, and a key has fewer than 2^16 records, so the sum stays below 2^48.
    #[inline(always)]
    fn add_value(total: &mut u64, weight: Fp, value: u32) {
        *total += fold(u64::from(weight) * u64::from(value));
    }

    #[inline(always)]
    fn add_element(total: &mut u64, weight: Fp, value: Fp) {
        Fp::add_value(total, weight, value);
    }

    fn reduce(total: u64) -> Fp {
        (total % u64::from(P)) as u32
    }
}

impl Lazy for Quadratic {
    type Sum = [u64; 2];

    const ONE: Quadratic = [1, 0];

    /// Each part is a sum of two products, which is reduced once.
    #[inline(always)]
    fn product(self, other: Quadratic) -> Quadratic {
        products(self, other).map(|part| less_once(fold(fold(part))))
    }

    fn less_than_one(self) -> Quadratic {
        [less(1, self[0]), less(0, self[1])]
    }

    #[inline(always)]
    fn scaled(self, factor: u32) -> Quadratic {
        self.map(|part| part.product(factor))
    }

    #[inline(always)]
    fn add_value(total: &mut [u64; 2], weight: Quadratic, value: u32) {
        for (total, part) in total.iter_mut().zip(weight) {
            *total += fold(u64::from(part) * u64::from(value));
        }
    }

    /// The parts are folded below 2^33.
    #[inline(always)]
    fn add_element(total: &mut [u64; 2], weight: Quadratic, value: Quadratic) {
        for (total, part) in total.iter_mut().zip(products(weight, value)) {
            *total += fold(part);
        }
    }

    fn reduce(total: [u64; 2]) -> Quadratic {
        total.map(Fp::reduce)
    }
}

/// The parts of a product of two elements, not reduced: below 2^63. For -d stands p - d.
#[inline(always)]
fn products([a, b]: Quadratic, [c, d]: Quadratic) -> [u64; 2] {
    let [a, b, c, less_d, d] = [a, b, c, P - d, d].map(u64::from);
    [a * c + b * less_d, a * d + b * c]
}

/// The difference of two numbers below p.
fn less(one: u32, other: u32) -> u32 {
    let difference = one.wrapping_sub(other);
    difference.min(difference.wrapping_add(P))
}
