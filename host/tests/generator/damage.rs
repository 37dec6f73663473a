//! Damaged keys: every refusal of check, and beside it the neighbours that pass.

use super::editions::any_factor;
use super::keys::any;
use super::limits::push_a_limit;
use super::random::Random;
use super::variants::{arrays, shape};
use super::within::cell;
use crate::independent::edition::other;
use crate::independent::field::P;
use crate::independent::record::{bytes, Call, Record};

/// The bytes of a key with one kind of damage, sometimes two.
pub fn damaged(random: &mut Random, records: &[Record]) -> Vec<u8> {
    let mut records = records.to_vec();
    let rounds = if random.chance(4) { 2 } else { 1 };
    for _ in 0..rounds {
        if random.chance(2) {
            push_a_limit(random, &mut records);
        } else {
            shift_records(random, &mut records);
        }
    }
    let mut bytes = bytes(&records);
    if random.chance(3) {
        damage_bytes(random, &mut bytes);
    }
    bytes
}

/// Damages bytes: flipped, cut at any length or within a call, appended, an unknown kind, too many bytes.
fn damage_bytes(random: &mut Random, bytes: &mut Vec<u8>) {
    match random.below(10) {
        0 => {
            for _ in 0..random.between(1, 3) {
                let at = random.below(bytes.len());
                bytes[at] ^= 1 << random.below(8);
            }
        }
        1 => {
            let at = random.below(bytes.len());
            bytes[at] = random.pick(&[0, 1, 2, 3, 4, 5, 6, 7, 8, 9, 31, 127, 128, 255]);
        }
        2..=3 => bytes.truncate(random.below(bytes.len())),
        4 => {
            let last = bytes.len().saturating_sub(random.between(1, 24));
            bytes.truncate(last);
        }
        5 => {
            for _ in 0..random.between(1, 4) {
                bytes.push(random.pick(&[0, 1, 2, 3, 4, 5, 6, 7, 8, 9, 255]));
            }
        }
        6 => {
            let again = bytes.clone();
            bytes.extend(again);
        }
        7 => {
            let kinds = record_offsets(bytes);
            let at = random.pick(&kinds);
            bytes[at] = random.pick(&[0, 9, 10, 16, 64, 128, 255]);
        }
        8 => {
            let kinds = record_offsets(bytes);
            bytes.truncate(random.pick(&kinds));
            let (kind, most) = random.pick(&[(5, 9), (8, 13)]);
            bytes.push(kind);
            bytes.extend((0..random.between(0, most)).map(|_| 0));
        }
        _ => {
            let length = random.pick(&[65_535, 65_536, 65_537, 65_537, 65_538, 131_072]);
            let filling = random.pick(&[0, 2, 3, 6]);
            bytes.resize(length.max(bytes.len()), filling);
        }
    }
}

/// The offsets at which records begin, as far as they can be followed; at least offset 0.
fn record_offsets(bytes: &[u8]) -> Vec<usize> {
    let mut offsets = vec![0];
    let mut at = 0;
    while at < bytes.len() {
        at += match bytes[at] {
            1..=3 | 7 => 3,
            4 => 21,
            5 => 11,
            8 => 15,
            _ => 1,
        };
        if at < bytes.len() {
            offsets.push(at);
        }
    }
    offsets
}

/// Swaps, doubles, removes or inserts records, puts a call or the head into the other edition, or fills up
/// to the limit of arrays.
fn shift_records(random: &mut Random, records: &mut Vec<Record>) {
    let at = random.below(records.len());
    match random.below(10) {
        0 => {
            let other = random.below(records.len());
            records.swap(at, other);
        }
        7 => exchange_a_call(random, records),
        8 => records[0] = other(records[0]).unwrap_or(records[0]),
        1 => records.insert(at, records[at]),
        2 => {
            if records.len() > 1 {
                records.remove(at);
            }
        }
        3..=5 => {
            let inserted = foreign(random);
            records.insert(at, inserted);
        }
        6 => {
            // Without the end, or without all that stands behind the head.
            if random.chance(2) {
                records.truncate((records.len() - 1).max(1));
            } else {
                records.truncate(random.between(1, 2.min(records.len())));
                records.extend(random.chance(2).then_some(Record::End));
            }
        }
        _ => fill_with_arrays(random, records),
    }
}

/// Puts a call into the other edition, where there is one: of edition 2 without its factor, of edition 1 with one that may
/// be at fault.
fn exchange_a_call(random: &mut Random, records: &mut [Record]) {
    let is_call = |at: &usize| matches!(records[*at], Record::Call(_) | Record::ScaledCall(..));
    let calls: Vec<usize> = (0..records.len()).filter(is_call).collect();
    if calls.is_empty() {
        return;
    }
    let at = random.pick(&calls);
    records[at] = match records[at] {
        Record::ScaledCall(call, _) => Record::Call(call),
        Record::Call(call) => {
            let factors = [1, any_factor(random), P, u32::MAX];
            Record::ScaledCall(call, random.pick(&factors))
        }
        same => same,
    };
}

/// A record of any kind with fields of any size.
fn foreign(random: &mut Random) -> Record {
    let bits = random.below(34) as u8;
    let call = Call {
        id: random.below(4) as u16,
        row: 0,
        column: 0,
    };
    match random.below(8) {
        0 => Record::Head(bits, random.below(34) as u8),
        1 => Record::Sparse(bits, random.below(34) as u8),
        2 => Record::Recursive(bits, random.below(34) as u8),
        3 => cell(random, 0, 0),
        4 => Record::Call(call),
        5 => Record::ScaledHead(bits, random.below(34) as u8),
        6 => Record::ScaledCall(call, any_factor(random)),
        _ => Record::End,
    }
}

/// Opens arrays behind the head until there are 1,023 to 1,026; the last may also be too large.
fn fill_with_arrays(random: &mut Random, records: &mut Vec<Record>) {
    if !matches!(records[0], Record::Head(..) | Record::ScaledHead(..)) {
        return;
    }
    let wanted = random.pick(&[1_023, 1_024, 1_025, 1_025, 1_025, 1_026]);
    let more = usize::saturating_sub(wanted, arrays(records));
    let filling = if random.chance(2) {
        Record::Sparse(0, 0)
    } else {
        Record::Recursive(0, 0)
    };
    let (rows, columns) = shape(records);
    let at = if random.chance(2) {
        1
    } else {
        records.len() - 1
    };
    records.splice(at..at, std::iter::repeat_n(filling, more));
    if random.chance(3) && at > 1 {
        // Where this is the 1,025th array, 6 comes before 5.
        let last = at + more - 1;
        records[last] = Record::Sparse((rows as u8).saturating_add(1), columns as u8);
    }
}

/// The bytes of a key, of four keys three damaged.
pub fn mostly_damaged(random: &mut Random) -> Vec<u8> {
    let records = any(random);
    if random.chance(4) {
        bytes(&records)
    } else {
        damaged(random, &records)
    }
}
