//! Weights factor by factor: for each bit of a place one product.

use super::{Lazy, Weights};

/// Of every coordinate 1 less it and itself: its factors for the bits 0 and 1.
pub struct Factors<F> {
    rows: [[F; 2]; 32],
    columns: [[F; 2]; 32],
}

impl<F: Lazy> Weights for Factors<F> {
    type Field = F;

    fn new(rows: &[u32], columns: &[u32]) -> Factors<F> {
        Factors {
            rows: factors(rows),
            columns: factors(columns),
        }
    }

    /// The chains of products of all rows and columns are independent of each other, so that the
    /// machine works on them at the same time.
    #[inline(always)]
    fn weigh<const N: usize>(&self, places: [[u32; 2]; N], from: [u8; 2], to: [u8; 2]) -> [F; N] {
        let rows = &self.rows[from[0].into()..to[0].into()];
        let columns = &self.columns[from[1].into()..to[1].into()];
        let both = rows.len().min(columns.len());
        let mut row_bits = places.map(|[row, _]| row as usize);
        let mut column_bits = places.map(|[_, column]| column as usize);
        let mut row_weights = [F::ONE; N];
        let mut column_weights = [F::ONE; N];
        for (row, column) in rows[..both].iter().zip(&columns[..both]) {
            for i in 0..N {
                multiply(&mut row_weights[i], &mut row_bits[i], row);
                multiply(&mut column_weights[i], &mut column_bits[i], column);
            }
        }
        for row in &rows[both..] {
            for i in 0..N {
                multiply(&mut row_weights[i], &mut row_bits[i], row);
            }
        }
        for column in &columns[both..] {
            for i in 0..N {
                multiply(&mut column_weights[i], &mut column_bits[i], column);
            }
        }
        std::array::from_fn(|i| row_weights[i].product(column_weights[i]))
    }
}

/// Multiplies by the factor of the lowest bit, chosen without a branch, and drops the bit.
#[inline(always)]
fn multiply<F: Lazy>(weight: &mut F, bits: &mut usize, pair: &[F; 2]) {
    *weight = weight.product(pair[*bits & 1]);
    *bits >>= 1;
}

/// The factors of every coordinate.
pub fn factors<F: Lazy>(numbers: &[u32]) -> [[F; 2]; 32] {
    let mut factors = [[F::ONE; 2]; 32];
    for (pair, numbers) in factors.iter_mut().zip(numbers.chunks_exact(F::NUMBERS)) {
        let coordinate = F::of_numbers(numbers);
        *pair = [coordinate.less_than_one(), coordinate];
    }
    factors
}
