//! An implementation written from the request alone, to which the tests hold the archive.
//!
//! - `field`: the fields of p and of p² elements by `%`, and eq.
//! - `record`: the eight records, taken from bytes and put into bytes.
//! - `key`: a key read and judged, and its counts.
//! - `dense`: the matrices of every array unrolled, and their multilinear extensions.
//! - `edition`: a key moved into the other edition.
//! - `calls`: check, evaluate, cell and compare on top of these, evaluate and compare over either field.
//! - `locate`: a cell in which two keys differ, on top of compare and of the unrolled matrices.
//! - `shorter`: the shorter of two keys that are the same, on top of compare.
//! - `price`: what one evaluation of a key costs.
//! - `pass`: the same calls without unrolling, written for speed.

// Each test program uses a part of these modules.
#![allow(dead_code)]

pub mod calls;
pub mod dense;
pub mod edition;
pub mod field;
pub mod key;
pub mod locate;
pub mod pass;
pub mod price;
pub mod record;
pub mod shorter;

/// A refusal's number and place.
#[derive(Debug, Clone, Copy, PartialEq, Eq)]
pub struct Refusal {
    pub number: u32,
    pub place: u64,
}

/// The refusal with a number, at a place.
pub fn refuse<T>(number: u32, place: usize) -> Result<T, Refusal> {
    Err(Refusal {
        number,
        place: place as u64,
    })
}

/// What check answers of an accepted key.
#[derive(Debug, Clone, Copy, PartialEq, Eq)]
pub struct Counts {
    pub arrays: u32,
    pub cells: u32,
    pub calls: u32,
    pub rows: u32,
    pub columns: u32,
}

impl Counts {
    /// The limit of the count of factors: (n + n')·(cells + calls).
    pub fn limit(&self) -> u64 {
        u64::from(self.rows + self.columns) * u64::from(self.cells + self.calls)
    }

    /// N and N' of two keys that are compared: the larger row bits and the larger column bits.
    pub fn larger(&self, other: &Counts) -> [u32; 2] {
        [self.rows.max(other.rows), self.columns.max(other.columns)]
    }

    /// The limit of the count of factors of two keys that are compared: (N + N')·(cells + calls of both) + 2·(N + N').
    pub fn limit_with(&self, other: &Counts) -> u64 {
        let m = u64::from(self.larger(other).iter().sum::<u32>());
        let of_both = self.cells + self.calls + other.cells + other.calls;
        m * u64::from(of_both) + 2 * m
    }
}

/// What evaluate and cell answer: the last array's values, and the key's count of factors.
#[derive(Debug, Clone, Copy, PartialEq, Eq)]
pub struct Evaluated<F> {
    pub values: [F; 3],
    pub factors: u64,
}

/// What compare answers: whether all three values agree, and the count of factors of both keys.
#[derive(Debug, Clone, Copy, PartialEq, Eq)]
pub struct Compared {
    pub same: bool,
    pub factors: u64,
}

/// What locate answers where the keys are different: a row and a column, and both keys' values there.
#[derive(Debug, Clone, Copy, PartialEq, Eq)]
pub struct DifferingCell {
    pub row: u32,
    pub column: u32,
    pub first: [u32; 3],
    pub second: [u32; 3],
}

/// What shorter hands back: `key` is 1 for the first key, 2 for the second, 0 for the empty beginning of the first.
#[derive(Debug, Clone, Copy, PartialEq, Eq)]
pub struct Handed {
    pub key: u32,
    pub length: usize,
}

impl Handed {
    /// The part of the lent keys that it is.
    pub fn of<'a>(&self, first: &'a [u8], second: &'a [u8]) -> &'a [u8] {
        let key = if self.key == 2 { second } else { first };
        &key[..self.length]
    }
}

/// A refusal of compare or locate; `key` is 1 for the first, 2 for the second, 0 for neither.
#[derive(Debug, Clone, Copy, PartialEq, Eq)]
pub struct CompareRefusal {
    pub key: u32,
    pub refusal: Refusal,
}
