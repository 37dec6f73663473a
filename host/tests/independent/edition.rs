//! A key moved into the edition that its head is not.

use super::key::{read, LONGEST};
use super::record::{put, take, Record};
use super::{refuse, Refusal};

/// Moved: check, 55, 56, 32; the copy at the start of the buffer, and its length.
pub fn moved(key: &[u8], buffer: &mut [u8]) -> Result<usize, Refusal> {
    read(key)?;
    let copy = copied(key)?;
    if copy.len() > LONGEST {
        return refuse(56, copy.len());
    }
    match buffer.get_mut(..copy.len()) {
        Some(start) => start.copy_from_slice(&copy),
        None => return refuse(32, copy.len()),
    }
    Ok(copy.len())
}

/// An accepted key, of any length, in the other edition, or refusal 55.
fn copied(key: &[u8]) -> Result<Vec<u8>, Refusal> {
    let mut copy = Vec::new();
    let mut at = 0;
    while at < key.len() {
        let (record, next) = take(key, at)?;
        let Some(other) = other(record) else {
            return refuse(55, at);
        };
        put(&other, &mut copy);
        at = next;
    }
    Ok(copy)
}

/// The record of the other edition; none for a call whose factor is not 1.
pub fn other(record: Record) -> Option<Record> {
    match record {
        Record::Head(rows, columns) => Some(Record::ScaledHead(rows, columns)),
        Record::ScaledHead(rows, columns) => Some(Record::Head(rows, columns)),
        Record::Call(call) => Some(Record::ScaledCall(call, 1)),
        Record::ScaledCall(call, factor) => (factor == 1).then_some(Record::Call(call)),
        same => Some(same),
    }
}
