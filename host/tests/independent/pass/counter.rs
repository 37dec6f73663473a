//! Weights that are not worked out: the coordinates that would be multiplied are counted.

use std::cell::Cell;

use super::Weights;
use crate::independent::field::Fp;

/// How many factors were asked for.
#[derive(Default)]
pub struct Counter(Cell<u64>);

impl Counter {
    /// The factors of all weights that were asked for.
    pub fn total(&self) -> u64 {
        self.0.get()
    }
}

impl Weights for Counter {
    type Field = Fp;

    fn new(_: &[u32], _: &[u32]) -> Counter {
        Counter::default()
    }

    fn weigh<const N: usize>(&self, places: [[u32; 2]; N], from: [u8; 2], to: [u8; 2]) -> [Fp; N] {
        let coordinates = u64::from(to[0] - from[0]) + u64::from(to[1] - from[1]);
        self.0.set(self.total() + coordinates * places.len() as u64);
        [0; N]
    }
}
