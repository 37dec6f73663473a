//! Weights from tables: the products of five coordinates at a time are worked out once for all
//! their 32 bit patterns, so that five bits of a place cost one product.

use super::factors::factors;
use super::{Lazy, Weights};

/// The number of bits that one table covers.
const WIDTH: usize = 5;
/// The number of tables of an axis: 30 bits are at most six times five.
const TABLES: usize = 6;

/// The tables of the rows and of the columns.
pub struct Tables<F> {
    rows: Axis<F>,
    columns: Axis<F>,
}

/// The factors of every coordinate, and the products of each five coordinates.
struct Axis<F> {
    factors: [[F; 2]; 32],
    tables: [[F; 1 << WIDTH]; TABLES],
}

impl<F: Lazy> Weights for Tables<F> {
    type Field = F;

    fn new(rows: &[u32], columns: &[u32]) -> Tables<F> {
        Tables {
            rows: Axis::new(rows),
            columns: Axis::new(columns),
        }
    }

    #[inline(always)]
    fn weigh<const N: usize>(&self, places: [[u32; 2]; N], from: [u8; 2], to: [u8; 2]) -> [F; N] {
        let row_bits = places.map(|[row, _]| row as usize);
        let column_bits = places.map(|[_, column]| column as usize);
        let row_weights = self.rows.weigh(row_bits, from[0].into(), to[0].into());
        let column_weights = self
            .columns
            .weigh(column_bits, from[1].into(), to[1].into());
        std::array::from_fn(|i| row_weights[i].product(column_weights[i]))
    }
}

impl<F: Lazy> Axis<F> {
    /// The factors and tables of these coordinates.
    fn new(numbers: &[u32]) -> Axis<F> {
        let factors = factors(numbers);
        let mut tables = [[F::default(); 1 << WIDTH]; TABLES];
        let whole = numbers.len() / F::NUMBERS / WIDTH;
        for (i, table) in tables[..whole].iter_mut().enumerate() {
            table[0] = F::ONE;
            for (j, pair) in factors[WIDTH * i..WIDTH * (i + 1)].iter().enumerate() {
                for low in 0..1 << j {
                    table[low | 1 << j] = table[low].product(pair[1]);
                    table[low] = table[low].product(pair[0]);
                }
            }
        }
        Axis { factors, tables }
    }

    /// The weights of these bits, paired with the coordinates from `from` to before `to`: one
    /// product for each whole table, and one for each bit before and behind them.
    #[inline(always)]
    fn weigh<const N: usize>(&self, mut bits: [usize; N], from: usize, to: usize) -> [F; N] {
        let first = from.div_ceil(WIDTH).min(to / WIDTH);
        let behind = (to / WIDTH).max(first);
        let mut weights = [F::ONE; N];
        for pair in &self.factors[from..(WIDTH * first).clamp(from, to)] {
            for i in 0..N {
                weights[i] = weights[i].product(pair[bits[i] & 1]);
                bits[i] >>= 1;
            }
        }
        for table in &self.tables[first..behind] {
            for i in 0..N {
                weights[i] = weights[i].product(table[bits[i] % (1 << WIDTH)]);
                bits[i] >>= WIDTH;
            }
        }
        for pair in &self.factors[(WIDTH * behind).clamp(from, to)..to] {
            for i in 0..N {
                weights[i] = weights[i].product(pair[bits[i] & 1]);
                bits[i] >>= 1;
            }
        }
        weights
    }
}
