//! Why a call is refused, and where.

use std::error::Error;
use std::fmt::{Display, Formatter, Result};

/// A refusal: its number, and the place that the number gives a meaning to.
///
/// | number | condition | place |
/// |---|---|---|
/// | | **author of the key** | |
/// | 1 | key over 65,536 bytes | 65536 |
/// | 2 | record missing or cut off | offset of the record's first byte |
/// | 3 | unknown kind | likewise |
/// | 4 | record not allowed at this point, as a call of the other edition, or end before any array | likewise |
/// | 5 | head bits over 30, or array bits over the head's | likewise |
/// | 6 | a 1,025th array | likewise |
/// | 7 | cell address outside its array | likewise |
/// | 8 | cell value or factor p or more | likewise |
/// | 9 | called id not earlier | likewise |
/// | 10 | called array larger in rows or columns | likewise |
/// | 11 | call position too great | likewise |
/// | 12 | last array not of the head's shape | offset of the end |
/// | 13 | bytes after the end | offset of the first |
/// | | **sender of the point** | |
/// | 21 | row count not n, or N of two keys (over p²: not twice as many numbers) | the count received |
/// | 22 | column count not n', or N' of two keys (over p²: not twice as many numbers) | the count received |
/// | 23 | coordinate p or more | its index, rows first (over p²: the number's) |
/// | 24 | row or column outside the last array | 0 for the row, 1 for the column |
/// | | **calling program** | |
/// | 31 | sheet below 3·arrays (over p²: 6·arrays) | the length needed |
/// | 32 | copy doesn't fit the buffer | the copy's length |
/// | | **who moves a key** | |
/// | 55 | a factor other than 1 on the way back | offset of its call |
/// | 56 | moved key over 65,536 bytes | its length |
/// | | **who sets the rates** | |
/// | 62 | a rate over 1,000,000 | 0 per cell, 1 per call, 2 per factor |
///
/// The numbers have names in [`number`](crate::number). Of several refusals the first is answered: check's own, for
/// compare the first key's and then the second's, then 21, 22 and 23, or 24 for cell, then 31; for moved check's own,
/// then 55, 56 and 32; for price check's own, then 62, of several rates the first.
///
/// ```compile_fail
/// let refusal = morgana::Refusal { number: 2, place: 0 };
/// ```
#[derive(Debug, Clone, Copy, PartialEq, Eq)]
#[non_exhaustive]
pub struct Refusal {
    /// The number of the condition that was met.
    pub number: u32,
    /// Where: what the table gives for the number.
    pub place: u64,
}

impl Refusal {
    /// The condition that the number stands for.
    pub fn sentence(&self) -> &'static str {
        match (self.number, self.place) {
            (1, _) => "key over 65,536 bytes",
            (2, _) => "record missing or cut off",
            (3, _) => "unknown kind",
            (4, _) => "record not allowed at this point, or end before any array",
            (5, _) => "head bits over 30, or array bits over the head's",
            (6, _) => "a 1,025th array",
            (7, _) => "cell address outside its array",
            (8, _) => "cell value or factor p or more",
            (9, _) => "called id not earlier",
            (10, _) => "called array larger in rows or columns",
            (11, _) => "call position too great",
            (12, _) => "last array not of the head's shape",
            (13, _) => "bytes after the end",
            (21, _) => "row count not n (N for two keys, twice that over p²)",
            (22, _) => "column count not n' (N' for two keys, twice that over p²)",
            (23, _) => "coordinate p or more",
            (24, 0) => "row outside the last array",
            (24, _) => "column outside the last array",
            (31, _) => "sheet below 3·arrays, or 6·arrays over p²",
            (32, _) => "copy doesn't fit the buffer",
            (33, _) => "offset greater than the slice's length",
            (34, _) => "field operand p or more",
            (41, _) => "input shorter than its two counts and their coordinates",
            (42, _) => "input over 65,536 bytes",
            (55, _) => "a factor other than 1 on the way back",
            (56, _) => "moved key over 65,536 bytes",
            (62, _) => "a rate over 1,000,000",
            _ => "unknown number",
        }
    }
}

impl Display for Refusal {
    fn fmt(&self, out: &mut Formatter) -> Result {
        let (number, place) = (self.number, self.place);
        write!(out, "refused {number} at {place}: {}", self.sentence())
    }
}

impl Error for Refusal {}

/// The key that a refusal of compare is about.
#[derive(Debug, Clone, Copy, PartialEq, Eq)]
pub enum Which {
    /// The first key is at fault.
    First,
    /// The second key is at fault.
    Second,
    /// Both keys are accepted; the point or the sheet is at fault.
    Neither,
}

/// A refusal of compare, with the key that it is about.
///
/// ```compile_fail
/// let refused = morgana::compare(&[], &[], &[], &[], &mut []).unwrap_err();
/// let morgana::CompareRefusal { which, refusal } = refused;
/// ```
#[derive(Debug, Clone, Copy, PartialEq, Eq)]
#[non_exhaustive]
pub struct CompareRefusal {
    /// The key at fault.
    pub which: Which,
    /// What is wrong, and where.
    pub refusal: Refusal,
}

impl Display for CompareRefusal {
    fn fmt(&self, out: &mut Formatter) -> Result {
        match self.which {
            Which::First => write!(out, "{}; first key", self.refusal),
            Which::Second => write!(out, "{}; second key", self.refusal),
            Which::Neither => write!(out, "{}", self.refusal),
        }
    }
}

impl Error for CompareRefusal {}

#[cfg(test)]
mod tests {
    use super::*;

    #[test]
    fn each_number_of_the_library_has_its_own_sentence() {
        let numbers = [1..=13, 21..=24, 31..=34, 41..=42, 55..=56, 62..=62];
        let sentences: Vec<_> = numbers
            .into_iter()
            .flatten()
            .map(|number| Refusal { number, place: 0 }.sentence())
            .collect();
        for (index, sentence) in sentences.iter().enumerate() {
            assert_ne!(*sentence, "unknown number");
            assert!(!sentences[..index].contains(sentence), "{sentence}");
        }
    }

    #[test]
    fn a_refusal_prints_number_place_and_sentence() {
        let print = |number, place| Refusal { number, place }.to_string();
        assert_eq!(
            print(7, 12),
            "refused 7 at 12: cell address outside its array"
        );
        assert_eq!(print(24, 0), "refused 24 at 0: row outside the last array");
        assert_eq!(
            print(24, 1),
            "refused 24 at 1: column outside the last array"
        );
        assert_eq!(print(99, 5), "refused 99 at 5: unknown number");
    }

    #[test]
    fn a_refusal_of_compare_prints_its_key() {
        let print = |which, number| {
            let refusal = Refusal { number, place: 0 };
            CompareRefusal { which, refusal }.to_string()
        };
        assert_eq!(
            print(Which::First, 3),
            "refused 3 at 0: unknown kind; first key"
        );
        assert_eq!(
            print(Which::Second, 3),
            "refused 3 at 0: unknown kind; second key"
        );
        assert_eq!(
            print(Which::Neither, 23),
            "refused 23 at 0: coordinate p or more"
        );
    }
}
