//! The numbers of the refusals that the calls of this package can give, by name.
//!
//! [`Refusal`](crate::Refusal) has the table with what each place is.

/// The key has over 65,536 bytes.
pub const KEY_TOO_LONG: u32 = 1;
/// A record is missing or cut off.
pub const RECORD_INCOMPLETE: u32 = 2;
/// A record is of an unknown kind.
pub const KIND_UNKNOWN: u32 = 3;
/// A record is not allowed at this point, as a call of the other edition, or the end comes before any array.
pub const RECORD_MISPLACED: u32 = 4;
/// The head's bits are over 30, or an array's over the head's.
pub const BITS_TOO_MANY: u32 = 5;
/// A 1,025th array is opened.
pub const ARRAYS_TOO_MANY: u32 = 6;
/// A cell's address is outside its array.
pub const CELL_OUTSIDE: u32 = 7;
/// A cell's value or a call's factor is p or more.
pub const VALUE_TOO_GREAT: u32 = 8;
/// The called array is not an earlier one.
pub const CALLED_NOT_EARLIER: u32 = 9;
/// The called array is larger in rows or columns.
pub const CALLED_TOO_LARGE: u32 = 10;
/// The position of a call is too great.
pub const POSITION_TOO_GREAT: u32 = 11;
/// The last array is not of the head's shape.
pub const LAST_SHAPE_WRONG: u32 = 12;
/// There are bytes after the end.
pub const BYTES_AFTER_END: u32 = 13;
/// The point has not n row coordinates, or N for two keys.
pub const ROW_COUNT_WRONG: u32 = 21;
/// The point has not n' column coordinates, or N' for two keys.
pub const COLUMN_COUNT_WRONG: u32 = 22;
/// A coordinate is p or more.
pub const COORDINATE_TOO_GREAT: u32 = 23;
/// The row or the column is outside the last array.
pub const ADDRESS_OUTSIDE: u32 = 24;
/// The sheet has too few places.
pub const SHEET_TOO_SHORT: u32 = 31;
/// The copy of a key does not fit the buffer.
pub const BUFFER_TOO_SHORT: u32 = 32;
/// A key of edition 2 that is to be moved has a factor other than 1.
pub const FACTOR_NOT_ONE: u32 = 55;
/// The moved key would have over 65,536 bytes.
pub const MOVED_TOO_LONG: u32 = 56;
/// A rate is over 1,000,000.
pub const RATE_TOO_GREAT: u32 = 62;
