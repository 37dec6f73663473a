//! Check, evaluate and compare without unrolling, in one pass over the key's bytes, for keys too
//! large to unroll and as the measure of the benchmark.
//!
//! By Lemma 2 of document 004 a cell adds its values, and a call the values of the array it calls
//! times its factor, times eq of its bits. Every array's values stand on the sheet before a later array
//! calls it. A call is its bytes, 11 in edition 1 and 15 in edition 2.

mod accept;
mod call;
mod counter;
pub mod factors;
mod lazy;
mod records;
pub mod tables;

use super::field::Field;
use super::key::{self, MOST_ARRAYS};
use super::{refuse, CompareRefusal, Counts, Refusal};
use accept::accept;
use counter::Counter;
pub use lazy::Lazy;
use records::write;

/// The prime p.
const P: u32 = 2_147_483_647;

/// The row bits and the column bits of every array.
type Shapes = [[u8; 2]; MOST_ARRAYS];

/// A point made ready for weighing places: a way to multiply the factors of eq.
pub trait Weights {
    /// The field that the point's coordinates are from.
    type Field: Lazy;

    /// The point made ready.
    fn new(rows: &[u32], columns: &[u32]) -> Self;

    /// The weights of places, each a row and a column: bit 0 of each is paired with the coordinate
    /// at `from`, and the last bit with the one before `to`, rows and columns apart.
    fn weigh<const N: usize>(
        &self,
        places: [[u32; 2]; N],
        from: [u8; 2],
        to: [u8; 2],
    ) -> [Self::Field; N];
}

/// The counts of an accepted key, or the first of refusals 1 to 13.
pub fn check(key: &[u8]) -> Result<Counts, Refusal> {
    check_with(key, &mut [[0; 2]; MOST_ARRAYS])
}

/// The same, with the shapes of the key's arrays.
fn check_with(key: &[u8], shapes: &mut Shapes) -> Result<Counts, Refusal> {
    match accept(key, shapes) {
        Some(counts) => Ok(counts),
        None => Err(key::read(key).expect_err("a key that is not accepted is refused")),
    }
}

/// Evaluate: check, 21, 22, 23, 31; every array's values on the sheet, array i's at 3i over p and at 6i
/// over p².
pub fn evaluate<W: Weights>(
    key: &[u8],
    rows: &[u32],
    columns: &[u32],
    sheet: &mut [u32],
) -> Result<[W::Field; 3], Refusal> {
    let mut shapes = [[0; 2]; MOST_ARRAYS];
    let counts = check_with(key, &mut shapes)?;
    let shape = [counts.rows, counts.columns];
    judge::<W::Field>(shape, counts.arrays, rows, columns, sheet)?;
    Ok(write(key, &shapes, &W::new(rows, columns), sheet))
}

/// The count of factors of an accepted key: those that the pass asks for, counted apart, so that the calls that are timed
/// count nothing.
pub fn factors(key: &[u8]) -> Result<u64, Refusal> {
    let mut shapes = [[0; 2]; MOST_ARRAYS];
    check_with(key, &mut shapes)?;
    let counter = Counter::default();
    write(key, &shapes, &counter, &mut [0; 3 * MOST_ARRAYS]);
    Ok(counter.total())
}

/// Compare: the first key, the second key, 21, 22, 23, 31; whether all three values agree, each key's times the weight of
/// the coordinates that it does not use.
pub fn compare<W: Weights>(
    first: &[u8],
    second: &[u8],
    rows: &[u32],
    columns: &[u32],
    sheet: &mut [u32],
) -> Result<bool, CompareRefusal> {
    let of = |key| move |refusal| CompareRefusal { key, refusal };
    let [mut shapes, mut other_shapes] = [[[0; 2]; MOST_ARRAYS]; 2];
    let one = check_with(first, &mut shapes).map_err(of(1))?;
    let other = check_with(second, &mut other_shapes).map_err(of(2))?;
    let larger = one.larger(&other);
    let arrays = one.arrays.max(other.arrays);
    judge::<W::Field>(larger, arrays, rows, columns, sheet).map_err(of(0))?;
    let weights = W::new(rows, columns);
    let of_first = write_filled(first, &one, &shapes, larger, &weights, sheet);
    let of_second = write_filled(second, &other, &other_shapes, larger, &weights, sheet);
    Ok(of_first == of_second)
}

/// The count of factors of two accepted keys that are compared: those that compare asks for, counted apart.
pub fn factors_of_both(first: &[u8], second: &[u8]) -> Result<u64, Refusal> {
    let [mut shapes, mut other_shapes] = [[[0; 2]; MOST_ARRAYS]; 2];
    let one = check_with(first, &mut shapes)?;
    let other = check_with(second, &mut other_shapes)?;
    let larger = one.larger(&other);
    let counter = Counter::default();
    let sheet = &mut [0; 3 * MOST_ARRAYS];
    write_filled(first, &one, &shapes, larger, &counter, sheet);
    write_filled(second, &other, &other_shapes, larger, &counter, sheet);
    Ok(counter.total())
}

/// Writes every array's values of an accepted key at a point of so many row and column coordinates, and answers the last
/// array's times the weight of row 0 and column 0 over the coordinates that the key does not use.
fn write_filled<W: Weights>(
    key: &[u8],
    counts: &Counts,
    shapes: &Shapes,
    larger: [u32; 2],
    weights: &W,
    sheet: &mut [u32],
) -> [W::Field; 3] {
    let values = write(key, shapes, weights, sheet);
    let [own, larger] = [[counts.rows, counts.columns], larger].map(|bits| bits.map(|n| n as u8));
    let [unused] = weights.weigh([[0, 0]], own, larger);
    values.map(|value| value.product(unused))
}

/// Refusals 21, 22 and 23, which count numbers, for these row and column bits, and 31 for this number of arrays.
fn judge<F: Field>(
    [row_bits, column_bits]: [u32; 2],
    arrays: u32,
    rows: &[u32],
    columns: &[u32],
    sheet: &[u32],
) -> Result<(), Refusal> {
    if rows.len() != F::NUMBERS * row_bits as usize {
        return refuse(21, rows.len());
    }
    if columns.len() != F::NUMBERS * column_bits as usize {
        return refuse(22, columns.len());
    }
    let mut numbers = rows.iter().chain(columns);
    if let Some(index) = numbers.position(|&number| number >= P) {
        return refuse(23, index);
    }
    let needed = 3 * F::NUMBERS * arrays as usize;
    if sheet.len() < needed {
        return refuse(31, needed);
    }
    Ok(())
}

/// The number modulo p, of a number below 2·p.
#[inline(always)]
fn less_once(number: u64) -> u32 {
    let number = number as u32;
    match number.overflowing_sub(P) {
        (_, true) => number,
        (less, false) => less,
    }
}

/// A number that is the same modulo p, and smaller: 2^31 is 1 modulo p, so the high bits are added to
/// the low ones. Of a product of two numbers below p it is below 2·p.
#[inline(always)]
fn fold(number: u64) -> u64 {
    (number & u64::from(P)) + (number >> 31)
}

/// The number in four bytes of a record.
#[inline(always)]
fn word<const N: usize>(record: &[u8; N], at: usize) -> u32 {
    u32::from_le_bytes([record[at], record[at + 1], record[at + 2], record[at + 3]])
}
