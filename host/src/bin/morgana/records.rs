//! The records of a key, taken to be shown.

use std::fmt::{Display, Formatter};

/// An edition of the format.
#[derive(Debug, Clone, Copy, PartialEq, Eq)]
pub enum Edition {
    /// Calls have no factor.
    One,
    /// Calls have a factor.
    Two,
}

impl Edition {
    /// The edition of a key, by its head.
    pub fn of(key: &[u8]) -> Option<Edition> {
        match Kind::of(*key.first()?)? {
            Kind::Head(edition) => Some(edition),
            _ => None,
        }
    }

    /// The edition that this one is not.
    pub fn other(self) -> Edition {
        match self {
            Edition::One => Edition::Two,
            Edition::Two => Edition::One,
        }
    }

    /// The edition's number.
    pub fn number(self) -> u32 {
        match self {
            Edition::One => 1,
            Edition::Two => 2,
        }
    }
}

impl Display for Edition {
    fn fmt(&self, out: &mut Formatter) -> std::fmt::Result {
        write!(out, "edition {}", self.number())
    }
}

/// The kind of a record.
#[derive(Debug, Clone, Copy, PartialEq, Eq)]
pub enum Kind {
    /// The head of an edition.
    Head(Edition),
    /// The opening of a sparse array.
    Sparse,
    /// The opening of a recursive array.
    Recursive,
    /// A cell.
    Cell,
    /// A call of an edition.
    Call(Edition),
    /// The end.
    End,
}

impl Kind {
    /// The kinds in the order of their bytes, from 01 on.
    pub const ALL: [Kind; 8] = [
        Kind::Head(Edition::One),
        Kind::Sparse,
        Kind::Recursive,
        Kind::Cell,
        Kind::Call(Edition::One),
        Kind::End,
        Kind::Head(Edition::Two),
        Kind::Call(Edition::Two),
    ];

    /// The kind that a byte is, if it is one.
    fn of(byte: u8) -> Option<Kind> {
        let index = byte.checked_sub(1)?;
        Kind::ALL.get(usize::from(index)).copied()
    }

    /// The kind's name, which heads and calls of both editions share.
    pub fn name(self) -> &'static str {
        match self {
            Kind::Head(_) => "head",
            Kind::Sparse => "sparse",
            Kind::Recursive => "recursive",
            Kind::Cell => "cell",
            Kind::Call(_) => "call",
            Kind::End => "end",
        }
    }

    /// How many bytes a record of the kind has.
    pub fn length(self) -> usize {
        match self {
            Kind::Head(_) | Kind::Sparse | Kind::Recursive => 3,
            Kind::Cell => 21,
            Kind::Call(Edition::One) => 11,
            Kind::Call(Edition::Two) => 15,
            Kind::End => 1,
        }
    }

    /// Whether a record of the kind opens an array.
    pub fn opens(self) -> bool {
        matches!(self, Kind::Sparse | Kind::Recursive)
    }

    /// Whether a record of the kind stands in an array.
    pub fn is_entry(self) -> bool {
        matches!(self, Kind::Cell | Kind::Call(_))
    }
}

/// A record with its fields.
#[derive(Debug, Clone, Copy, PartialEq, Eq)]
pub enum Record {
    /// The head of an edition: row bits n and column bits n'.
    Head {
        edition: Edition,
        rows: u8,
        columns: u8,
    },
    /// The opening of a sparse array: row bits k and column bits k'.
    Sparse { rows: u8, columns: u8 },
    /// The opening of a recursive array: row bits k and column bits k'.
    Recursive { rows: u8, columns: u8 },
    /// A cell: its address and its values.
    Cell {
        row: u32,
        column: u32,
        a: u32,
        b: u32,
        c: u32,
    },
    /// A call: the called array's id, row position a and column position a', and in edition 2 a factor.
    Call {
        id: u16,
        row: u32,
        column: u32,
        factor: Option<u32>,
    },
    /// The end.
    End,
}

/// Why no record can be taken.
#[derive(Debug, Clone, Copy, PartialEq, Eq)]
pub enum Untaken {
    /// There is no byte.
    Missing,
    /// The byte is of no kind.
    Unknown(u8),
    /// Of the bytes that its kind has, only so many are left.
    Cut(Kind, usize),
}

impl Record {
    /// The record's kind.
    pub fn kind(self) -> Kind {
        match self {
            Record::Head { edition, .. } => Kind::Head(edition),
            Record::Sparse { .. } => Kind::Sparse,
            Record::Recursive { .. } => Kind::Recursive,
            Record::Cell { .. } => Kind::Cell,
            Record::Call { factor: None, .. } => Kind::Call(Edition::One),
            Record::Call { .. } => Kind::Call(Edition::Two),
            Record::End => Kind::End,
        }
    }
}

/// The record at an offset and the offset behind it, or why there is none.
pub fn take(key: &[u8], at: usize) -> Result<(Record, usize), Untaken> {
    let bytes = key.get(at..).unwrap_or_default();
    let byte = *bytes.first().ok_or(Untaken::Missing)?;
    let kind = Kind::of(byte).ok_or(Untaken::Unknown(byte))?;
    let cut = Untaken::Cut(kind, bytes.len());
    let bytes = bytes.get(..kind.length()).ok_or(cut)?;
    Ok((read(kind, bytes), at + kind.length()))
}

/// The record that the bytes of a kind are.
fn read(kind: Kind, bytes: &[u8]) -> Record {
    let half = |offset: usize| u16::from_le_bytes([bytes[offset], bytes[offset + 1]]);
    let word = |offset: usize| u32::from(half(offset)) | u32::from(half(offset + 2)) << 16;
    match kind {
        Kind::Head(edition) => Record::Head {
            edition,
            rows: bytes[1],
            columns: bytes[2],
        },
        Kind::Sparse => Record::Sparse {
            rows: bytes[1],
            columns: bytes[2],
        },
        Kind::Recursive => Record::Recursive {
            rows: bytes[1],
            columns: bytes[2],
        },
        Kind::Cell => Record::Cell {
            row: word(1),
            column: word(5),
            a: word(9),
            b: word(13),
            c: word(17),
        },
        Kind::Call(edition) => Record::Call {
            id: half(1),
            row: word(3),
            column: word(7),
            factor: match edition {
                Edition::One => None,
                Edition::Two => Some(word(11)),
            },
        },
        Kind::End => Record::End,
    }
}

#[cfg(test)]
mod tests {
    use super::*;

    /// One record of each kind with its bytes.
    fn samples() -> [(Vec<u8>, Record); 8] {
        let (rows, columns) = (30, 255);
        let cell = [
            4, 1, 2, 3, 4, 5, 0, 0, 0, 255, 255, 255, 127, 0, 0, 0, 128, 255, 255, 255, 255,
        ];
        let call = [5, 1, 2, 3, 0, 0, 0, 4, 5, 6, 7];
        let scaled = [8, 1, 2, 3, 0, 0, 0, 4, 5, 6, 7, 254, 255, 255, 127];
        let head = |edition| Record::Head {
            edition,
            rows,
            columns,
        };
        let called = |factor| Record::Call {
            id: 0x0201,
            row: 3,
            column: 0x0706_0504,
            factor,
        };
        [
            (vec![1, 30, 255], head(Edition::One)),
            (vec![2, 30, 255], Record::Sparse { rows, columns }),
            (vec![3, 30, 255], Record::Recursive { rows, columns }),
            (
                cell.to_vec(),
                Record::Cell {
                    row: 0x0403_0201,
                    column: 5,
                    a: 2_147_483_647,
                    b: 2_147_483_648,
                    c: 4_294_967_295,
                },
            ),
            (call.to_vec(), called(None)),
            (vec![6], Record::End),
            (vec![7, 30, 255], head(Edition::Two)),
            (scaled.to_vec(), called(Some(2_147_483_646))),
        ]
    }

    #[test]
    fn each_kind_is_taken_with_its_fields() {
        for ((bytes, record), kind) in samples().into_iter().zip(Kind::ALL) {
            assert_eq!(record.kind(), kind);
            assert_eq!(take(&bytes, 0), Ok((record, bytes.len())));
            let moved = [&[9, 9], bytes.as_slice(), &[9]].concat();
            assert_eq!(take(&moved, 2), Ok((record, bytes.len() + 2)));
        }
    }

    #[test]
    fn a_cut_record_is_not_taken() {
        for (bytes, record) in samples() {
            assert_eq!(take(&bytes[..0], 0), Err(Untaken::Missing));
            assert_eq!(record.kind().length(), bytes.len());
            for left in 1..bytes.len() {
                let cut = Untaken::Cut(record.kind(), left);
                assert_eq!(take(&bytes[..left], 0), Err(cut));
            }
        }
    }

    #[test]
    fn an_unknown_kind_is_not_taken() {
        for kind in (0..=0).chain(9..=255) {
            assert_eq!(take(&[kind; 30], 0), Err(Untaken::Unknown(kind)));
        }
        assert_eq!(take(&[6], 1), Err(Untaken::Missing));
        assert_eq!(take(&[6], usize::MAX), Err(Untaken::Missing));
    }

    #[test]
    fn the_first_byte_tells_the_edition() {
        for byte in 0..=255 {
            let wanted = match byte {
                1 => Some(Edition::One),
                7 => Some(Edition::Two),
                _ => None,
            };
            assert_eq!(Edition::of(&[byte, 1]), wanted);
        }
        assert_eq!(Edition::of(&[]), None);
        for edition in [Edition::One, Edition::Two] {
            assert_ne!(edition.other(), edition);
            assert_eq!(edition.other().other(), edition);
        }
    }
}
