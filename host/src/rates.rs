//! What an evaluation is priced by.

/// What [`price`](crate::price) charges for each cell, for each call and for each [factor](crate#factors) of a key, in
/// hundredths of a penny; each at most [`MOST_RATE`](crate::MOST_RATE).
#[derive(Debug, Clone, Copy, PartialEq, Eq)]
pub struct Rates {
    /// For each cell.
    pub cell: u32,
    /// For each call.
    pub call: u32,
    /// For each factor.
    pub factor: u32,
}
