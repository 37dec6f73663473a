//! Shorter, with the sheet, on top of compare.

use super::calls::compare;
use super::field::Fp;
use super::{Compared, Handed};

/// Shorter: of two keys that are the same at the point the one with fewer bytes, the first where both have as many; where
/// compare answers anything else, the empty beginning of the first. The sheet is compare's.
pub fn shorter(
    first: &[u8],
    second: &[u8],
    rows: &[u32],
    columns: &[u32],
    sheet: &mut [u32],
) -> Handed {
    let answer = compare::<Fp>(first, second, rows, columns, sheet);
    let same = matches!(answer, Ok(Compared { same: true, .. }));
    let (key, length) = match same {
        true if second.len() < first.len() => (2, second.len()),
        true => (1, first.len()),
        false => (0, 0),
    };
    Handed { key, length }
}
