//! A key read and judged in the request's order of refusals.

use super::field::P;
use super::record::{take, Call, Cell, Record};
use super::{refuse, Counts, Refusal};

/// The greatest length of a key.
pub const LONGEST: usize = 65_536;
/// The greatest number of arrays.
pub const MOST_ARRAYS: usize = 1_024;
/// The greatest number of row bits and of column bits.
pub const MOST_BITS: u32 = 30;

/// The edition of a key, which its head tells.
#[derive(Debug, Clone, Copy, PartialEq, Eq)]
pub enum Edition {
    One,
    Two,
}

/// What an array holds; a call stands with its factor, which is 1 in edition 1.
#[derive(Debug, Clone, PartialEq, Eq)]
pub enum Body {
    Sparse(Vec<Cell>),
    Recursive(Vec<(Call, u32)>),
}

/// An array: its row bits k, its column bits k', and its records.
#[derive(Debug, Clone, PartialEq, Eq)]
pub struct Array {
    pub row_bits: u32,
    pub column_bits: u32,
    pub body: Body,
}

/// A key: its edition, n, n', and its arrays.
#[derive(Debug, Clone, PartialEq, Eq)]
pub struct Key {
    pub edition: Edition,
    pub rows: u32,
    pub columns: u32,
    pub arrays: Vec<Array>,
}

/// The key that the bytes hold, or the first of refusals 1 to 13.
pub fn read(bytes: &[u8]) -> Result<Key, Refusal> {
    if bytes.len() > LONGEST {
        return refuse(1, LONGEST);
    }
    let (record, mut at) = take(bytes, 0)?;
    let (edition, rows, columns) = match record {
        Record::Head(rows, columns) => (Edition::One, rows, columns),
        Record::ScaledHead(rows, columns) => (Edition::Two, rows, columns),
        _ => return refuse(4, 0),
    };
    let mut key = Key {
        edition,
        rows: rows.into(),
        columns: columns.into(),
        arrays: Vec::new(),
    };
    if key.rows > MOST_BITS || key.columns > MOST_BITS {
        return refuse(5, 0);
    }
    loop {
        let (record, next) = take(bytes, at)?;
        if let Some(number) = broken_rule(&key, &record) {
            return refuse(number, at);
        }
        if record == Record::End {
            if next < bytes.len() {
                return refuse(13, next);
            }
            return Ok(key);
        }
        add(&mut key, record);
        at = next;
    }
}

/// The first of the rules 4 to 12, in the request's order, that a record behind the head breaks.
fn broken_rule(key: &Key, record: &Record) -> Option<u32> {
    match *record {
        Record::Head(..) | Record::ScaledHead(..) => Some(4),
        Record::Sparse(row_bits, column_bits) | Record::Recursive(row_bits, column_bits) => {
            if key.arrays.len() == MOST_ARRAYS {
                return Some(6);
            }
            let fits = u32::from(row_bits) <= key.rows && u32::from(column_bits) <= key.columns;
            (!fits).then_some(5)
        }
        Record::Cell(cell) => match key.arrays.last() {
            Some(array) if matches!(array.body, Body::Sparse(_)) => broken_by_cell(array, &cell),
            _ => Some(4),
        },
        Record::Call(_) if key.edition == Edition::Two => Some(4),
        Record::ScaledCall(..) if key.edition == Edition::One => Some(4),
        Record::Call(call) => broken_by_call(&key.arrays, &call, 1),
        Record::ScaledCall(call, factor) => broken_by_call(&key.arrays, &call, factor),
        Record::End => match key.arrays.last() {
            None => Some(4),
            Some(last) => {
                let whole = last.row_bits == key.rows && last.column_bits == key.columns;
                (!whole).then_some(12)
            }
        },
    }
}

/// The first of the rules 7 and 8 that a cell of this array breaks.
fn broken_by_cell(array: &Array, cell: &Cell) -> Option<u32> {
    let inside = u64::from(cell.row) < 1 << array.row_bits
        && u64::from(cell.column) < 1 << array.column_bits;
    if !inside {
        return Some(7);
    }
    cell.values.iter().any(|&value| value >= P).then_some(8)
}

/// The first of the rules 4 and 8 to 11 that a call of the key's edition in the last of these arrays breaks.
fn broken_by_call(arrays: &[Array], call: &Call, factor: u32) -> Option<u32> {
    let array = match arrays.last() {
        Some(array) if matches!(array.body, Body::Recursive(_)) => array,
        _ => return Some(4),
    };
    if factor >= P {
        return Some(8);
    }
    let own = arrays.len() - 1;
    if usize::from(call.id) >= own {
        return Some(9);
    }
    let called = &arrays[usize::from(call.id)];
    if called.row_bits > array.row_bits || called.column_bits > array.column_bits {
        return Some(10);
    }
    let fits = u64::from(call.row) < 1 << (array.row_bits - called.row_bits)
        && u64::from(call.column) < 1 << (array.column_bits - called.column_bits);
    (!fits).then_some(11)
}

/// Adds a record that breaks no rule.
fn add(key: &mut Key, record: Record) {
    let opened = match record {
        Record::Sparse(row_bits, column_bits) => {
            Some((row_bits, column_bits, Body::Sparse(Vec::new())))
        }
        Record::Recursive(row_bits, column_bits) => {
            Some((row_bits, column_bits, Body::Recursive(Vec::new())))
        }
        _ => None,
    };
    if let Some((row_bits, column_bits, body)) = opened {
        key.arrays.push(Array {
            row_bits: row_bits.into(),
            column_bits: column_bits.into(),
            body,
        });
        return;
    }
    let last = key.arrays.last_mut().expect("an array is open");
    match (&mut last.body, record) {
        (Body::Sparse(cells), Record::Cell(cell)) => cells.push(cell),
        (Body::Recursive(calls), Record::Call(call)) => calls.push((call, 1)),
        (Body::Recursive(calls), Record::ScaledCall(call, factor)) => calls.push((call, factor)),
        _ => unreachable!("the rules admit no other record"),
    }
}

/// The counts of a key's records, with n and n'.
pub fn counts(key: &Key) -> Counts {
    let mut counts = Counts {
        arrays: key.arrays.len() as u32,
        cells: 0,
        calls: 0,
        rows: key.rows,
        columns: key.columns,
    };
    for array in &key.arrays {
        match &array.body {
            Body::Sparse(cells) => counts.cells += cells.len() as u32,
            Body::Recursive(calls) => counts.calls += calls.len() as u32,
        }
    }
    counts
}

/// The count of factors of a key's weights, one for each coordinate: a cell counts its array's bits, and a call those bits
/// less the called array's. All arrays count, and a call's own factor does not.
pub fn factors(key: &Key) -> u64 {
    key.arrays.iter().map(|array| factors_of(array, key)).sum()
}

/// The count of factors of two keys that are compared: both keys' counts, and for each key one for each coordinate that it
/// does not use.
pub fn factors_of_both(one: &Key, other: &Key) -> u64 {
    let [rows, columns] = counts(one).larger(&counts(other));
    let unused = |key: &Key| u64::from(rows - key.rows + columns - key.columns);
    factors(one) + unused(one) + factors(other) + unused(other)
}

/// The count of factors of one array.
fn factors_of(array: &Array, key: &Key) -> u64 {
    let bits = |array: &Array| u64::from(array.row_bits + array.column_bits);
    match &array.body {
        Body::Sparse(cells) => bits(array) * cells.len() as u64,
        Body::Recursive(calls) => {
            let called = |call: &Call| &key.arrays[usize::from(call.id)];
            let each = calls
                .iter()
                .map(|(call, _)| bits(array) - bits(called(call)));
            each.sum()
        }
    }
}
