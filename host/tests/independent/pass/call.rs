//! The bytes of a call of either edition.

use super::word;

/// The length of a call of edition 1.
pub const PLAIN: usize = 11;
/// The length of a call of edition 2.
pub const SCALED: usize = 15;

/// The call of this length at the beginning, and the bytes behind it.
#[inline(always)]
pub fn call<const N: usize>(rest: &[u8]) -> Option<(&[u8; N], &[u8])> {
    let kind = if N == PLAIN { 5 } else { 8 };
    rest.split_first_chunk()
        .filter(|(record, _)| record[0] == kind)
}

/// The id of a call.
#[inline(always)]
pub fn id<const N: usize>(record: &[u8; N]) -> usize {
    u16::from_le_bytes([record[1], record[2]]).into()
}

/// The row position and the column position of a call.
#[inline(always)]
pub fn place<const N: usize>(record: &[u8; N]) -> [u32; 2] {
    [word(record, 3), word(record, 7)]
}

/// The factor of a call that has one.
#[inline(always)]
pub fn factor<const N: usize>(record: &[u8; N]) -> Option<u32> {
    (N == SCALED).then(|| word(record, 11))
}
