//! Points drawn from the operating system's randomness.

use crate::constants::{MOST_BITS, P};
use crate::field::Field;
use crate::point::Point;
use std::fs::File;
use std::io::{self, Read};

/// The file that the operating system's randomness is read from.
const SOURCE: &str = "/dev/urandom";

/// A source of random points for a key, or for two that are compared, each point as likely as any
/// other and independent of those before.
///
/// [`Likelihood`](crate::Likelihood) speaks of points that are drawn when both keys are fixed:
/// who knows a point beforehand can make different keys that are the same there.
///
/// ```
/// # let key = [1, 0, 1, 2, 0, 1, 6];
/// use morgana::{Field, RandomPoints};
///
/// let counts = morgana::check(&key)?;
/// let mut points = RandomPoints::new(counts.rows, counts.columns, Field::Prime)?;
/// let point = points.draw()?;
/// let mut sheet = [0; morgana::SHEET];
/// let values = morgana::evaluate(&key, &point.rows, &point.columns, &mut sheet)?.values;
/// # assert_eq!((values.a, values.b, values.c), (0, 0, 0));
/// # Ok::<(), Box<dyn std::error::Error>>(())
/// ```
#[derive(Debug)]
pub struct RandomPoints {
    bytes: File,
    rows: usize,
    columns: usize,
}

impl RandomPoints {
    /// A source of points with n row coordinates and n' column coordinates from a field, where
    /// `rows` is n and `columns` is n' as [`check`](crate::check) answers them; for two keys N and
    /// N', as [`Counts::larger_shape`](crate::Counts::larger_shape) answers them. The error is that
    /// of opening `/dev/urandom`, or of bits over [`MOST_BITS`], which no key has.
    pub fn new(rows: u32, columns: u32, field: Field) -> io::Result<RandomPoints> {
        if rows.max(columns) > MOST_BITS {
            let message = format!("a key has at most {MOST_BITS} row bits and column bits");
            return Err(io::Error::new(io::ErrorKind::InvalidInput, message));
        }
        let named = |error: io::Error| io::Error::new(error.kind(), format!("{SOURCE}: {error}"));
        Ok(RandomPoints {
            bytes: File::open(SOURCE).map_err(named)?,
            rows: rows as usize * field.numbers(),
            columns: columns as usize * field.numbers(),
        })
    }

    /// Draws a point: its bytes are read now, and none of a later one. The error is that of reading
    /// `/dev/urandom`.
    pub fn draw(&mut self) -> io::Result<Point> {
        point(&mut self.bytes, self.rows, self.columns)
    }
}

/// A point with so many numbers for the rows and for the columns.
fn point(bytes: &mut impl Read, rows: usize, columns: usize) -> io::Result<Point> {
    Ok(Point {
        rows: coordinates(bytes, rows)?,
        columns: coordinates(bytes, columns)?,
    })
}

/// The numbers of coordinates, so many: each is 31 bits of a word of its own, drawn again where they are p, so that every
/// number below p is as likely as any other.
fn coordinates(bytes: &mut impl Read, count: usize) -> io::Result<Vec<u32>> {
    let mut words = vec![0; 4 * count];
    bytes.read_exact(&mut words)?;
    let number = |word: &[u8]| {
        let word = word.try_into().expect("a word has four bytes");
        u32::from_le_bytes(word) & P
    };
    let mut numbers: Vec<_> = words.chunks_exact(4).map(number).collect();
    while let Some(drawn) = numbers.iter_mut().find(|drawn| **drawn == P) {
        let mut word = [0; 4];
        bytes.read_exact(&mut word)?;
        *drawn = number(&word);
    }
    Ok(numbers)
}

#[cfg(test)]
mod tests {
    use super::*;

    #[test]
    fn p_is_drawn_again() {
        let words = [P, u32::MAX, 5, P - 1, 0x8000_0007, 0];
        let bytes: Vec<u8> = words.iter().flat_map(|word| word.to_le_bytes()).collect();
        let mut source = bytes.as_slice();
        let drawn = point(&mut source, 1, 3).unwrap();
        assert_eq!((drawn.rows, drawn.columns), (vec![5], vec![P - 1, 7, 0]));
        assert!(source.is_empty());
    }

    #[test]
    fn every_number_is_a_word_of_its_own() {
        let bytes: Vec<u8> = (1u32..=10).flat_map(u32::to_le_bytes).collect();
        let drawn = point(&mut bytes.as_slice(), 4, 6).unwrap();
        assert_eq!(drawn.rows, [1, 2, 3, 4]);
        assert_eq!(drawn.columns, [5, 6, 7, 8, 9, 10]);
    }

    #[test]
    fn a_source_that_ends_is_an_error() {
        assert!(coordinates(&mut [1, 2, 3].as_slice(), 1).is_err());
        let prime = P.to_le_bytes();
        assert!(coordinates(&mut prime.as_slice(), 1).is_err());
    }

    #[test]
    fn no_key_has_more_bits() {
        for (rows, columns) in [(31, 0), (0, 31), (u32::MAX, u32::MAX)] {
            let source = RandomPoints::new(rows, columns, Field::Quadratic);
            assert_eq!(source.unwrap_err().kind(), io::ErrorKind::InvalidInput);
        }
    }

    #[test]
    fn a_point_has_its_shape() {
        for (field, lengths) in [(Field::Prime, (2, 30)), (Field::Quadratic, (4, 60))] {
            let mut points = RandomPoints::new(2, 30, field).unwrap();
            let (first, second) = (points.draw().unwrap(), points.draw().unwrap());
            assert_eq!((first.rows.len(), first.columns.len()), lengths);
            assert_ne!(first, second);
        }
    }

    #[test]
    fn numbers_are_spread_over_the_whole_range() {
        // Each of 31 bits is 1 in about half of 3,000 numbers: further from half than 300 is
        // less likely than 1 in 10^25.
        let mut points = RandomPoints::new(30, 30, Field::Prime).unwrap();
        let mut ones = [0; 31];
        for _ in 0..50 {
            let Point { rows, columns } = points.draw().unwrap();
            for number in rows.iter().chain(&columns) {
                assert!(*number < P);
                for (bit, count) in ones.iter_mut().enumerate() {
                    *count += number >> bit & 1;
                }
            }
        }
        for count in ones {
            assert!((1200..=1800).contains(&count), "{ones:?}");
        }
    }
}
