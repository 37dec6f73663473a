//! Locate, with the sheet, on top of compare and of the unrolled matrices.

use super::calls::{compare, dense_values, evaluate, places};
use super::field::{bits, Fp};
use super::key::{read, Key};
use super::{CompareRefusal, DifferingCell};

/// Locate: compare's refusals; none where the keys are the same at the point, and the sheet as after compare there; else
/// the cell that the walk from the point ends in, and the sheet as after compare at its bits.
pub fn locate(
    first: &[u8],
    second: &[u8],
    rows: &[u32],
    columns: &[u32],
    sheet: &mut [u32],
) -> Result<Option<DifferingCell>, CompareRefusal> {
    if compare::<Fp>(first, second, rows, columns, sheet)?.same {
        return Ok(None);
    }
    let mut scratch = sheet.to_vec();
    let mut same_at = |point: &[u32]| {
        let (rows, columns) = point.split_at(rows.len());
        let answer = compare::<Fp>(first, second, rows, columns, &mut scratch);
        answer.expect("the point fits the keys").same
    };
    let point = walk([rows, columns].concat(), &mut same_at);
    let (row_bits, column_bits) = point.split_at(rows.len());
    let answer = compare::<Fp>(first, second, row_bits, column_bits, sheet);
    answer.expect("the point fits the keys");
    let (row, column) = (number(row_bits), number(column_bits));
    Ok(Some(DifferingCell {
        row,
        column,
        first: filled_at(first, row, column),
        second: filled_at(second, row, column),
    }))
}

/// The bits that a point becomes: from coordinate 0 up each is set to 0, and to 1 where two keys are the same at the point
/// so changed.
fn walk(mut point: Vec<u32>, same_at: &mut impl FnMut(&[u32]) -> bool) -> Vec<u32> {
    for i in 0..point.len() {
        point[i] = 0;
        if same_at(&point) {
            point[i] = 1;
        }
    }
    point
}

/// The number of some bits, lowest first.
fn number(bits: &[u32]) -> u32 {
    bits.iter().rev().fold(0, |number, bit| 2 * number + bit)
}

/// The dense values of an accepted key at a row and a column, zero where it has none of that number.
pub fn filled_at(bytes: &[u8], row: u32, column: u32) -> [u32; 3] {
    let key = read(bytes).expect("the key is accepted");
    if row >> key.rows != 0 || column >> key.columns != 0 {
        return [0; 3];
    }
    dense_values(&key, row, column).unwrap_or_else(|| at_bits(bytes, &key, row, column))
}

/// The values of a key too large to unroll at the bits of a row and a column.
fn at_bits(bytes: &[u8], key: &Key, row: u32, column: u32) -> [u32; 3] {
    let (rows, columns) = (bits(row, key.rows), bits(column, key.columns));
    let mut sheet = vec![0; places::<Fp>(key.arrays.len())];
    let answer = evaluate(bytes, &rows, &columns, &mut sheet);
    answer.expect("the point fits the key").values
}
