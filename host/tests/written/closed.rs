//! What the closed forms of large keys are made of.

use crate::generator::random::Random;
use crate::independent::field::product;
use crate::written::P;

/// The values of the one cell of every tower.
pub const VALUES: [u32; 3] = [1, P - 1, 1_234_567_890];

/// Three values times a factor.
pub fn times(values: [u32; 3], factor: u32) -> [u32; 3] {
    values.map(|value| product(value, factor))
}

/// 2 to a power, modulo p.
pub fn power_of_two(exponent: u32) -> u32 {
    1 << (exponent % 31)
}

/// Coordinates drawn from a seed, among them the extremes.
pub fn coordinates(seed: u64, count: usize) -> Vec<u32> {
    let mut random = Random::of_case(seed, 0);
    let mut drawn: Vec<u32> = (0..count).map(|_| random.number() % P).collect();
    for (coordinate, extreme) in drawn.iter_mut().zip([0, 1, P - 2, 2]) {
        *coordinate = extreme;
    }
    drawn
}
