//! The fields that points come from, by whole-number remainders: that of p elements, and that of the p²
//! elements u + v·i with i² = -1.

use std::fmt::Debug;

/// The prime p.
pub const P: u32 = 2_147_483_647;

/// An element of the field of p elements: a number below p.
pub type Fp = u32;

/// An element of the field of p² elements: u and then v.
pub type Quadratic = [u32; 2];

/// What evaluate and compare need of a field: its arithmetic, the values of keys in it, and how its
/// elements stand in points and on sheets.
pub trait Field: Copy + Debug + Default + PartialEq {
    /// How many numbers an element is.
    const NUMBERS: usize;

    /// The element that so many numbers are.
    fn of_numbers(numbers: &[u32]) -> Self;

    /// Writes the element's numbers.
    fn put(self, places: &mut [u32]);

    /// The element that a value of a key is.
    fn of_value(value: u32) -> Self;

    /// The sum.
    fn plus(self, other: Self) -> Self;

    /// The difference.
    fn minus(self, other: Self) -> Self;

    /// The product.
    fn times(self, other: Self) -> Self;
}

impl Field for Fp {
    const NUMBERS: usize = 1;

    #[inline(always)]
    fn of_numbers(numbers: &[u32]) -> Fp {
        numbers[0]
    }

    #[inline(always)]
    fn put(self, places: &mut [u32]) {
        places[0] = self;
    }

    fn of_value(value: u32) -> Fp {
        value
    }

    fn plus(self, other: Fp) -> Fp {
        sum(self, other)
    }

    fn minus(self, other: Fp) -> Fp {
        difference(self, other)
    }

    fn times(self, other: Fp) -> Fp {
        product(self, other)
    }
}

impl Field for Quadratic {
    const NUMBERS: usize = 2;

    #[inline(always)]
    fn of_numbers(numbers: &[u32]) -> Quadratic {
        [numbers[0], numbers[1]]
    }

    #[inline(always)]
    fn put(self, places: &mut [u32]) {
        places.copy_from_slice(&self);
    }

    fn of_value(value: u32) -> Quadratic {
        [value, 0]
    }

    fn plus(self, other: Quadratic) -> Quadratic {
        [sum(self[0], other[0]), sum(self[1], other[1])]
    }

    fn minus(self, other: Quadratic) -> Quadratic {
        [difference(self[0], other[0]), difference(self[1], other[1])]
    }

    fn times(self, [c, d]: Quadratic) -> Quadratic {
        let [a, b] = self;
        [
            difference(product(a, c), product(b, d)),
            sum(product(a, d), product(b, c)),
        ]
    }
}

/// The sum modulo p.
pub fn sum(a: u32, b: u32) -> u32 {
    ((u64::from(a) + u64::from(b)) % u64::from(P)) as u32
}

/// The difference modulo p, of numbers below p.
pub fn difference(a: u32, b: u32) -> u32 {
    ((u64::from(a) + u64::from(P) - u64::from(b)) % u64::from(P)) as u32
}

/// The product modulo p.
pub fn product(a: u32, b: u32) -> u32 {
    ((u64::from(a) * u64::from(b)) % u64::from(P)) as u32
}

/// The elements that a list of numbers is.
pub fn elements<F: Field>(numbers: &[u32]) -> Vec<F> {
    numbers
        .chunks_exact(F::NUMBERS)
        .map(F::of_numbers)
        .collect()
}

/// The numbers over p² of coordinates over p: each is a u, with v zero behind it.
pub fn with_zeros(coordinates: &[u32]) -> Vec<u32> {
    coordinates.iter().flat_map(|&u| [u, 0]).collect()
}

/// eq([number]; coordinates): coordinate i where bit i is 1, and 1 less it where the bit is 0.
pub fn eq<F: Field>(number: u32, coordinates: &[F]) -> F {
    let one = F::of_value(1);
    let mut weight = one;
    for (i, &coordinate) in coordinates.iter().enumerate() {
        let factor = if (number >> i) & 1 == 1 {
            coordinate
        } else {
            one.minus(coordinate)
        };
        weight = weight.times(factor);
    }
    weight
}

/// The lowest `count` bits of a number as coordinates, lowest first.
pub fn bits(number: u32, count: u32) -> Vec<u32> {
    (0..count).map(|i| (number >> i) & 1).collect()
}
