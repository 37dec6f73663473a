//! A point at which keys are evaluated.

/// A point: the numbers of the row coordinates and of the column coordinates. Over p² a coordinate
/// is two numbers, u and then v.
///
/// The library judges a point where it is used: its counts with 21 and 22, its numbers with 23.
#[derive(Debug, Clone, PartialEq, Eq)]
pub struct Point {
    /// The numbers of the row coordinates.
    pub rows: Vec<u32>,
    /// The numbers of the column coordinates.
    pub columns: Vec<u32>,
}
