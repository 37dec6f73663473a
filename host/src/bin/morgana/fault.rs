//! What is known of a refusal beside its number and its place: which field of which record breaks which rule.

use crate::records::{take, Edition, Kind, Record, Untaken};
use crate::show::{bytes, counted, signed};
use morgana::{number, Refusal, MOST_BITS, P};

/// Row bits and column bits.
#[derive(Debug, Clone, Copy, PartialEq, Eq)]
struct Shape {
    rows: u8,
    columns: u8,
}

/// What the records before a place say.
#[derive(Debug, Default)]
struct Before {
    /// The head's edition and shape.
    head: Option<(Edition, Shape)>,
    /// The shape of each array, and whether it is sparse.
    arrays: Vec<(Shape, bool)>,
    /// The place, or where what cannot be taken or the end stands before it.
    at: usize,
}

impl Before {
    /// What the records before a place say.
    fn of(key: &[u8], place: usize) -> Before {
        let mut before = Before::default();
        while before.at < place {
            let Ok((record, next)) = take(key, before.at) else {
                break;
            };
            match record {
                Record::Head {
                    edition,
                    rows,
                    columns,
                } => before.head = Some((edition, Shape { rows, columns })),
                Record::Sparse { rows, columns } => {
                    before.arrays.push((Shape { rows, columns }, true))
                }
                Record::Recursive { rows, columns } => {
                    before.arrays.push((Shape { rows, columns }, false))
                }
                _ => {}
            }
            before.at = next;
        }
        before
    }

    /// The number and the shape of the array that is open.
    fn open(&self) -> Option<(usize, Shape)> {
        let (shape, _) = self.arrays.last()?;
        Some((self.arrays.len() - 1, *shape))
    }
}

/// Which field of the record at a key's refusal breaks which rule, or why the key cannot be moved; none where the sentence
/// says it all.
pub fn detail(key: &[u8], refusal: Refusal) -> Option<String> {
    let before = Before::of(key, refusal.place as usize);
    match (refusal.number, take(key, before.at)) {
        (number::KEY_TOO_LONG, _) => None,
        (number::MOVED_TOO_LONG, _) => moved_length(key),
        (number::FACTOR_NOT_ONE, Ok((record, _))) => other_factor(&before, record),
        (number::BYTES_AFTER_END, _) => Some(bytes(key.len() - before.at)),
        (_, Err(untaken)) => Some(untaken_detail(key, untaken)),
        (number::RECORD_MISPLACED, Ok((record, _))) => misplaced(&before, record),
        (number::BITS_TOO_MANY, Ok((record, _))) => bits(&before, record),
        (number::ARRAYS_TOO_MANY, _) => Some("arrays are numbered 0 to 1023".to_owned()),
        (number::CELL_OUTSIDE, Ok((record, _))) => address(&before, record),
        (number::VALUE_TOO_GREAT, Ok((record, _))) => value(&before, record),
        (number::LAST_SHAPE_WRONG, Ok(_)) => last_shape(&before),
        (number, Ok((record, _))) => call(&before, record, number),
    }
}

/// Why no record can be taken (2, 3).
fn untaken_detail(key: &[u8], untaken: Untaken) -> String {
    match untaken {
        Untaken::Missing => format!("the key has {} and no end", bytes(key.len())),
        Untaken::Unknown(byte) => {
            format!(
                "kind {byte:02x}, and kinds are 01 to {:02x}",
                Kind::ALL.len()
            )
        }
        Untaken::Cut(kind, left) => {
            let left = match left {
                1 => "1 is left".to_owned(),
                _ => format!("{left} are left"),
            };
            let length = bytes(kind.length());
            format!("{} has {length} and {left}", with_article(kind))
        }
    }
}

/// Why a record is not allowed at its point (4).
fn misplaced(before: &Before, record: Record) -> Option<String> {
    let name = with_article(record.kind());
    let Some((edition, _)) = before.head else {
        return Some(format!(
            "the first record is {name}, and a key begins with a head"
        ));
    };
    let inside = before.arrays.len().wrapping_sub(1);
    Some(match (record.kind(), before.arrays.last()) {
        (Kind::Head(second), _) => format!("a second head, of {second}"),
        (_, None) => format!("{name} before any array"),
        (_, Some((_, true))) => format!("{name} in array {inside}, which is sparse"),
        (Kind::Call(_), Some((_, false))) => {
            format!("{name} in array {inside}, and the key is of {edition}")
        }
        (_, Some((_, false))) => format!("{name} in array {inside}, which is recursive"),
    })
}

/// The bits that are too many (5).
fn bits(before: &Before, record: Record) -> Option<String> {
    match record {
        Record::Head { rows, columns, .. } => {
            let (word, bits) = first_over(rows, columns, MOST_BITS, MOST_BITS)?;
            Some(format!("{word} bits {bits}, at most {MOST_BITS}"))
        }
        Record::Sparse { rows, columns } | Record::Recursive { rows, columns } => {
            let (_, head) = before.head?;
            let (most_rows, most_columns) = (u32::from(head.rows), u32::from(head.columns));
            let (word, bits) = first_over(rows, columns, most_rows, most_columns)?;
            let most = if word == "row" {
                most_rows
            } else {
                most_columns
            };
            let array = before.arrays.len();
            Some(format!(
                "array {array} has {word} bits {bits}, and the head {most}"
            ))
        }
        _ => None,
    }
}

/// The first of two numbers that is over its limit, with its word.
fn first_over(
    rows: u8,
    columns: u8,
    most_rows: u32,
    most_columns: u32,
) -> Option<(&'static str, u8)> {
    if u32::from(rows) > most_rows {
        return Some(("row", rows));
    }
    (u32::from(columns) > most_columns).then_some(("column", columns))
}

/// The address that is outside (7).
fn address(before: &Before, record: Record) -> Option<String> {
    let (array, shape) = before.open()?;
    let Record::Cell { row, column, .. } = record else {
        return None;
    };
    let last = |bits: u8| (1u64 << bits.min(63)) - 1;
    let (word, number, most) = match u64::from(row) > last(shape.rows) {
        true => ("row", row, last(shape.rows)),
        false => ("column", column, last(shape.columns)),
    };
    Some(format!(
        "{word} {number} in array {array}, whose {word}s are {}",
        upto(most)
    ))
}

/// The value or the factor that is p or more (8).
fn value(before: &Before, record: Record) -> Option<String> {
    let (array, _) = before.open()?;
    let values = match record {
        Record::Cell { a, b, c, .. } => vec![("A", a), ("B", b), ("C", c)],
        Record::Call {
            factor: Some(factor),
            ..
        } => vec![("the factor", factor)],
        _ => return None,
    };
    let (name, value) = values.into_iter().find(|(_, value)| *value >= P)?;
    Some(format!(
        "{name} is {value} in array {array}, at most {}",
        P - 1
    ))
}

/// What is wrong with a call (9, 10, 11).
fn call(before: &Before, record: Record, broken: u32) -> Option<String> {
    let (array, shape) = before.open()?;
    let Record::Call {
        id, row, column, ..
    } = record
    else {
        return None;
    };
    if broken == number::CALLED_NOT_EARLIER {
        return Some(match array {
            0 => format!("array {id} called in array 0, which has none before it"),
            1 => format!("array {id} called in array 1, and only array 0 is earlier"),
            _ => format!(
                "array {id} called in array {array}, and arrays 0 to {} are earlier",
                array - 1
            ),
        });
    }
    let (called, _) = before.arrays.get(usize::from(id))?;
    if broken == number::CALLED_TOO_LARGE {
        let (word, large, small) = match called.rows > shape.rows {
            true => ("row", called.rows, shape.rows),
            false => ("column", called.columns, shape.columns),
        };
        return Some(format!(
            "array {id} has {word} bits {large}, and array {array} {small}"
        ));
    }
    let last = |outer: u8, inner: u8| (1u64 << outer.saturating_sub(inner).min(63)) - 1;
    let (most_rows, most_columns) = (
        last(shape.rows, called.rows),
        last(shape.columns, called.columns),
    );
    let (word, position, most) = match u64::from(row) > most_rows {
        true => ("row", row, most_rows),
        false => ("column", column, most_columns),
    };
    Some(format!(
        "{word} position {position} of array {id} in array {array}, at most {most}"
    ))
}

/// How the last array's shape is not the head's (12).
fn last_shape(before: &Before) -> Option<String> {
    let (array, shape) = before.open()?;
    let (_, head) = before.head?;
    Some(format!(
        "array {array} has row bits {} and column bits {}, the head {} and {}",
        shape.rows, shape.columns, head.rows, head.columns
    ))
}

/// The factor that edition 1 cannot have (55).
fn other_factor(before: &Before, record: Record) -> Option<String> {
    let (array, _) = before.open()?;
    let Record::Call { id, factor, .. } = record else {
        return None;
    };
    let factor = signed(factor?);
    Some(format!(
        "array {id} is called in array {array} with factor {factor}, and in {} every factor is 1",
        Edition::One
    ))
}

/// Why the moved key is too long (56).
fn moved_length(key: &[u8]) -> Option<String> {
    let counts = morgana::check(key).ok()?;
    let more = Kind::Call(Edition::Two).length() - Kind::Call(Edition::One).length();
    Some(format!(
        "the key has {} and {}, each {} longer in {}",
        bytes(key.len()),
        counted(counts.calls as usize, "call"),
        bytes(more),
        Edition::Two
    ))
}

/// A range from 0 in words.
pub fn upto(last: u64) -> String {
    match last {
        0 => "0 alone".to_owned(),
        _ => format!("0 to {last}"),
    }
}

/// A kind's name with its article; a call's with its edition, which it has its length by.
fn with_article(kind: Kind) -> String {
    match kind {
        Kind::End => "the end".to_owned(),
        Kind::Sparse | Kind::Recursive => format!("the opening of a {} array", kind.name()),
        Kind::Call(edition) => format!("a call of {edition}"),
        Kind::Head(_) | Kind::Cell => format!("a {}", kind.name()),
    }
}
