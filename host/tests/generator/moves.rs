//! Keys to move into the other edition, and buffers for the copies.

use super::editions::{any_factor, edition, edition_of, in_other_edition};
use super::keys::any;
use super::random::Random;
use crate::independent::key::Edition;
use crate::independent::record::{Call, Record};

/// A whole key: of either edition, with and without factors that are not 1, and long ones.
pub fn to_move(random: &mut Random) -> Vec<Record> {
    let mut records = match random.below(10) {
        0 => return long(random),
        1..=2 => return any(random),
        _ => with_factors_of_one(any(random)),
    };
    if random.chance(5) {
        change_a_factor(random, &mut records);
    }
    if edition_of(&records) == Edition::One && random.chance(2) {
        // It may be too long for a key; then it is refused with 1.
        return in_other_edition(&records).expect("calls of edition 1 have factor 1");
    }
    records
}

/// The records, with factor 1 in every call.
fn with_factors_of_one(mut records: Vec<Record>) -> Vec<Record> {
    for record in &mut records {
        if let Record::ScaledCall(_, factor) = record {
            *factor = 1;
        }
    }
    records
}

/// Gives one call of edition 2 a factor, where there is one.
fn change_a_factor(random: &mut Random, records: &mut [Record]) {
    let is_scaled = |at: &usize| matches!(records[*at], Record::ScaledCall(..));
    let at: Vec<usize> = (0..records.len()).filter(is_scaled).collect();
    if let Some(&last) = at.last() {
        let chosen = [last, random.pick(&at)];
        if let Record::ScaledCall(_, factor) = &mut records[random.pick(&chosen)] {
            *factor = any_factor(random);
        }
    }
}

/// A key of about 4,368 calls, which in edition 2 has about 65,536 bytes, or of about as many as fit edition 1.
fn long(random: &mut Random) -> Vec<Record> {
    let edition = edition(random);
    let calls = match (edition, random.below(4)) {
        (Edition::One, 0) => random.between(4_400, 5_950),
        _ => random.between(4_366, 4_368),
    };
    let arrays = random.between(1, 6);
    let mut records = vec![Record::Head(1, 1)];
    records.extend(vec![Record::Sparse(1, 0); arrays]);
    records.push(Record::Recursive(1, 1));
    for _ in 0..calls {
        records.push(Record::Call(Call {
            id: random.below(arrays) as u16,
            row: 0,
            column: random.below(2) as u32,
        }));
    }
    records.push(Record::End);
    if edition == Edition::One {
        return records;
    }
    let mut scaled = in_other_edition(&records).expect("calls of edition 1 have factor 1");
    if random.chance(3) {
        change_a_factor(random, &mut scaled);
    }
    scaled
}

/// A buffer of arbitrary bytes for a copy of this length: mostly long enough, often exactly, else often one byte short.
pub fn buffer(random: &mut Random, length: usize) -> Vec<u8> {
    let room = match random.below(10) {
        0..=2 => length,
        3..=5 => length + random.between(1, 40),
        6 => length + 65_536,
        7..=8 => length.saturating_sub(1),
        _ => random.below(length + 1),
    };
    (0..room).map(|_| random.word() as u8).collect()
}
