//! The eight records of a key.

use super::{refuse, Refusal};

/// A cell of a sparse array.
#[derive(Debug, Clone, Copy, PartialEq, Eq)]
pub struct Cell {
    pub row: u32,
    pub column: u32,
    pub values: [u32; 3],
}

/// A call of an earlier array.
#[derive(Debug, Clone, Copy, PartialEq, Eq)]
pub struct Call {
    pub id: u16,
    pub row: u32,
    pub column: u32,
}

/// A record with its fields; the two numbers of a head or an opening are row and column bits.
#[derive(Debug, Clone, Copy, PartialEq, Eq)]
pub enum Record {
    Head(u8, u8),
    Sparse(u8, u8),
    Recursive(u8, u8),
    Cell(Cell),
    Call(Call),
    End,
    ScaledHead(u8, u8),
    /// A call of edition 2: the fields of a call, and the factor.
    ScaledCall(Call, u32),
}

/// The number of bytes of a record of this kind, with the kind.
fn length(kind: u8) -> Option<usize> {
    match kind {
        1..=3 | 7 => Some(3),
        4 => Some(21),
        5 => Some(11),
        6 => Some(1),
        8 => Some(15),
        _ => None,
    }
}

/// The record at an offset and the next offset, or refusal 2 or 3.
pub fn take(bytes: &[u8], at: usize) -> Result<(Record, usize), Refusal> {
    let Some(&kind) = bytes.get(at) else {
        return refuse(2, at);
    };
    let Some(length) = length(kind) else {
        return refuse(3, at);
    };
    let Some(body) = bytes.get(at + 1..at + length) else {
        return refuse(2, at);
    };
    let word = |from: usize| u32::from_le_bytes(body[from..from + 4].try_into().unwrap());
    let call = || Call {
        id: u16::from_le_bytes([body[0], body[1]]),
        row: word(2),
        column: word(6),
    };
    let record = match kind {
        1 => Record::Head(body[0], body[1]),
        2 => Record::Sparse(body[0], body[1]),
        3 => Record::Recursive(body[0], body[1]),
        4 => Record::Cell(Cell {
            row: word(0),
            column: word(4),
            values: [word(8), word(12), word(16)],
        }),
        5 => Record::Call(call()),
        7 => Record::ScaledHead(body[0], body[1]),
        8 => Record::ScaledCall(call(), word(10)),
        _ => Record::End,
    };
    Ok((record, at + length))
}

/// The bytes of a record, behind those already there.
pub fn put(record: &Record, bytes: &mut Vec<u8>) {
    match *record {
        Record::Head(rows, columns) => bytes.extend([1, rows, columns]),
        Record::Sparse(rows, columns) => bytes.extend([2, rows, columns]),
        Record::Recursive(rows, columns) => bytes.extend([3, rows, columns]),
        Record::Cell(cell) => {
            bytes.push(4);
            bytes.extend(cell.row.to_le_bytes());
            bytes.extend(cell.column.to_le_bytes());
            for value in cell.values {
                bytes.extend(value.to_le_bytes());
            }
        }
        Record::Call(call) => {
            bytes.push(5);
            put_call(call, bytes);
        }
        Record::End => bytes.push(6),
        Record::ScaledHead(rows, columns) => bytes.extend([7, rows, columns]),
        Record::ScaledCall(call, factor) => {
            bytes.push(8);
            put_call(call, bytes);
            bytes.extend(factor.to_le_bytes());
        }
    }
}

/// The bytes of a call's three fields.
fn put_call(call: Call, bytes: &mut Vec<u8>) {
    bytes.extend(call.id.to_le_bytes());
    bytes.extend(call.row.to_le_bytes());
    bytes.extend(call.column.to_le_bytes());
}

/// The bytes of a list of records.
pub fn bytes(records: &[Record]) -> Vec<u8> {
    let mut bytes = Vec::new();
    for record in records {
        put(record, &mut bytes);
    }
    bytes
}
