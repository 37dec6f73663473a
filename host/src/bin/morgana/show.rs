//! The records of a key as lines to read, and where a refusal marks one.

use crate::records::{take, Kind, Record, Untaken};
use morgana::{number, Refusal, P};

/// A line of `show`.
#[derive(Debug, Clone, Copy, PartialEq, Eq)]
pub struct Line {
    /// The offset of the record's first byte.
    pub at: usize,
    /// The number of the array that the record opens or stands in, or of the one that is open before an unknown kind.
    pub array: Option<usize>,
    /// What stands there.
    pub entry: Entry,
    /// Whether the refusal is about it.
    pub fault: bool,
}

/// What stands at an offset.
#[derive(Debug, Clone, Copy, PartialEq, Eq)]
pub enum Entry {
    /// A record.
    Record(Record),
    /// Bytes that are no record, or none.
    Untaken(Untaken),
    /// So many bytes behind the end.
    Behind(usize),
}

/// A line for each record up to the end; of a refused key for those before the refusal's place, and one for what stands
/// there, which is marked.
pub fn lines(key: &[u8], refusal: Option<Refusal>) -> Vec<Line> {
    let place = refusal.map_or(usize::MAX, |refusal| refusal.place as usize);
    let mut lines = Vec::new();
    let (mut at, mut arrays, mut ended) = (0, 0, false);
    while at < place && !ended {
        let Ok((record, next)) = take(key, at) else {
            break;
        };
        if next > place {
            break;
        }
        lines.push(line(at, Entry::Record(record), &mut arrays));
        (at, ended) = (next, record == Record::End);
    }
    if refusal.is_some_and(|refusal| refusal.number != number::KEY_TOO_LONG) {
        let entry = match take(key, at) {
            _ if ended => Entry::Behind(key.len() - at),
            Ok((record, _)) => Entry::Record(record),
            Err(untaken) => Entry::Untaken(untaken),
        };
        lines.push(Line {
            fault: true,
            ..line(at, entry, &mut arrays)
        });
    }
    lines
}

/// The line of what stands at an offset behind so many openings.
fn line(at: usize, entry: Entry, arrays: &mut usize) -> Line {
    let array = match entry.kind() {
        Some(kind) if kind.opens() => Some(*arrays),
        Some(kind) if kind.is_entry() => arrays.checked_sub(1),
        Some(_) => None,
        None if matches!(entry, Entry::Untaken(Untaken::Unknown(_))) => arrays.checked_sub(1),
        None => None,
    };
    if entry.kind().is_some_and(Kind::opens) {
        *arrays += 1;
    }
    Line {
        at,
        array,
        entry,
        fault: false,
    }
}

impl Entry {
    /// The kind of the record, whole or cut off, if there is one.
    fn kind(self) -> Option<Kind> {
        match self {
            Entry::Record(record) => Some(record.kind()),
            Entry::Untaken(Untaken::Cut(kind, _)) => Some(kind),
            _ => None,
        }
    }
}

impl Line {
    /// The line to read: a mark where the refusal is about it, the offset, the kind and the fields. An opening has the
    /// number of its array, and so has what is at fault in an array.
    pub fn text(&self) -> String {
        let mark = if self.fault { '>' } else { ' ' };
        let (kind, fields) = match self.entry {
            Entry::Record(record) => (record.kind().name(), fields(record)),
            Entry::Untaken(Untaken::Missing) => ("missing", "the key ends here".to_owned()),
            Entry::Untaken(Untaken::Unknown(byte)) => ("unknown", format!("kind {byte:02x}")),
            Entry::Untaken(Untaken::Cut(kind, left)) => {
                let fields = format!("cut off: {left} of {} bytes", kind.length());
                (kind.name(), fields)
            }
            Entry::Behind(count) => ("more", bytes(count)),
        };
        let fields = match self.array {
            Some(array) if self.entry.kind().is_some_and(Kind::opens) => {
                format!("array {array}, {fields}")
            }
            Some(array) if self.fault => format!("{fields}, in array {array}"),
            _ => fields,
        };
        let text = format!("{mark}{:>6}  {kind:<9}  {fields}", self.at);
        text.trim_end().to_owned() + "\n"
    }
}

/// The fields of a record.
fn fields(record: Record) -> String {
    let bits = |rows, columns| format!("row bits {rows}, column bits {columns}");
    match record {
        Record::Head {
            edition,
            rows,
            columns,
        } => format!("{edition}, {}", bits(rows, columns)),
        Record::Sparse { rows, columns } | Record::Recursive { rows, columns } => {
            bits(rows, columns)
        }
        Record::Cell {
            row,
            column,
            a,
            b,
            c,
        } => format!("row {row}, column {column}, A {a}, B {b}, C {c}"),
        Record::Call {
            id,
            row,
            column,
            factor,
        } => {
            let call = format!("array {id} at row position {row}, column position {column}");
            match factor {
                Some(factor) => format!("{call}, factor {}", signed(factor)),
                None => call,
            }
        }
        Record::End => String::new(),
    }
}

/// A factor, and as a negative number too where that is shorter.
pub fn signed(factor: u32) -> String {
    let negative = format!("-{}", P.saturating_sub(factor));
    let text = factor.to_string();
    match factor < P && negative.len() < text.len() {
        true => format!("{text} = {negative}"),
        false => text,
    }
}

/// So many bytes, in words.
pub fn bytes(count: usize) -> String {
    counted(count, "byte")
}

/// So many of something, in words.
pub fn counted(count: usize, noun: &str) -> String {
    match count {
        1 => format!("1 {noun}"),
        _ => format!("{count} {noun}s"),
    }
}

#[cfg(test)]
mod tests {
    use super::*;

    /// A head, two openings, an end and two bytes more.
    const KEY: [u8; 12] = [1, 1, 0, 2, 0, 0, 3, 1, 0, 6, 6, 9];

    /// The lines of bytes, with the library's refusal of them.
    fn listing(key: &[u8]) -> Vec<String> {
        let lines = lines(key, morgana::check(key).err());
        lines.iter().map(Line::text).collect()
    }

    #[test]
    fn the_end_is_the_last_line() {
        let lines = [
            "      0  head       edition 1, row bits 1, column bits 0\n",
            "      3  sparse     array 0, row bits 0, column bits 0\n",
            "      6  recursive  array 1, row bits 1, column bits 0\n",
            "      9  end\n",
            ">    10  more       2 bytes\n",
        ];
        assert_eq!(listing(&KEY[..10]), lines[..4]);
        assert_eq!(listing(&KEY), lines);
    }

    #[test]
    fn a_factor_is_negative_where_that_is_shorter() {
        for (factor, wanted) in [
            (0, "0"),
            (1, "1"),
            (9, "9"),
            (1_073_741_823, "1073741823"),
            (2_047_483_647, "2047483647"),
            (2_047_483_648, "2047483648 = -99999999"),
            (P - 10, "2147483637 = -10"),
            (P - 1, "2147483646 = -1"),
            (P, "2147483647"),
            (u32::MAX, "4294967295"),
        ] {
            assert_eq!(signed(factor), wanted);
        }
    }

    #[test]
    fn calls_of_edition_2_have_their_factor() {
        let mut key = vec![7, 0, 0, 2, 0, 0, 3, 0, 0];
        for factor in [5, P - 1] {
            key.extend([8, 0, 0, 0, 0, 0, 0, 0, 0, 0, 0]);
            key.extend(factor.to_le_bytes());
        }
        key.push(6);
        let lines = [
            "      0  head       edition 2, row bits 0, column bits 0\n",
            "      3  sparse     array 0, row bits 0, column bits 0\n",
            "      6  recursive  array 1, row bits 0, column bits 0\n",
            "      9  call       array 0 at row position 0, column position 0, factor 5\n",
            "     24  call       array 0 at row position 0, column position 0, factor 2147483646 = -1\n",
            "     39  end\n",
        ];
        assert_eq!(listing(&key), lines);
    }

    #[test]
    fn what_is_at_fault_is_marked() {
        for (key, wanted) in [
            (&[][..], ">     0  missing    the key ends here\n"),
            (&[99], ">     0  unknown    kind 63\n"),
            (&[6], ">     0  end\n"),
            (&KEY[..9], ">     9  missing    the key ends here\n"),
            (
                &KEY[..8],
                ">     6  recursive  array 1, cut off: 2 of 3 bytes\n",
            ),
            (
                &[1, 0, 0, 2, 0, 0, 255],
                ">     6  unknown    kind ff, in array 0\n",
            ),
            (
                &[1, 0, 0, 2, 0, 0, 5, 0, 0, 0, 0, 0, 0, 0, 0, 0, 0],
                ">     6  call       array 0 at row position 0, column position 0, in array 0\n",
            ),
            (
                &[1, 0, 0, 2, 1, 0],
                ">     3  sparse     array 0, row bits 1, column bits 0\n",
            ),
        ] {
            assert_eq!(listing(key).last().map(String::as_str), Some(wanted));
        }
    }
}
