//! The numbers that a calling program goes by.

/// The prime p: field numbers are 0 to p - 1.
pub const P: u32 = 2_147_483_647;

/// The most bytes of a key; one more is refused with 1. So many suffice for every copy that [`crate::moved`] makes.
pub const KEY_LIMIT: usize = 65_536;

/// The most arrays of a key; one more is refused with 6.
pub const MOST_ARRAYS: usize = 1024;

/// The most row bits and the most column bits of a key; one more is refused with 5.
pub const MOST_BITS: u32 = 30;

/// The places of a sheet that suffices for every key: three for each of its arrays.
pub const SHEET: usize = 3 * MOST_ARRAYS;

/// The places of a sheet that suffices for every key over p²: six for each of its arrays.
pub const SHEET_QUADRATIC: usize = 6 * MOST_ARRAYS;

/// The greatest of the [`Rates`](crate::Rates) that [`crate::price`] takes, in hundredths of a penny; one more is refused
/// with 62.
pub const MOST_RATE: u32 = 1_000_000;

/// The bytes of stack that suffice for every call: measured, as the C header says, not proved.
pub const STACK: usize = 20_480;

/// The version of this package, as `major.minor.patch`; the library's own is [`crate::version`].
pub const VERSION: &str = env!("CARGO_PKG_VERSION");

/// The interface that this package is written for: 1,000 for each major and 1 for each minor version, since versions that
/// differ in the patch alone have one interface.
pub(crate) const INTERFACE: u32 =
    1_000 * number(env!("CARGO_PKG_VERSION_MAJOR")) + number(env!("CARGO_PKG_VERSION_MINOR"));

/// The number that decimal digits write.
const fn number(text: &str) -> u32 {
    let (digits, mut at, mut number) = (text.as_bytes(), 0, 0);
    while at < digits.len() {
        number = 10 * number + (digits[at] - b'0') as u32;
        at += 1;
    }
    number
}
