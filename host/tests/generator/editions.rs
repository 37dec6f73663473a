//! The editions of drawn keys, and the factors of their calls.

use super::random::Random;
use crate::independent::edition::other;
use crate::independent::field::P;
use crate::independent::key::Edition;
use crate::independent::record::Record;

/// One of the two editions.
pub fn edition(random: &mut Random) -> Edition {
    random.pick(&[Edition::One, Edition::Two])
}

/// The edition that a list of records begins.
pub fn edition_of(records: &[Record]) -> Edition {
    match records[0] {
        Record::ScaledHead(..) => Edition::Two,
        _ => Edition::One,
    }
}

/// The number of bytes of a call.
pub fn call_length(edition: Edition) -> usize {
    match edition {
        Edition::One => 11,
        Edition::Two => 15,
    }
}

/// The records of a key of edition 1 written in an edition; in edition 2 a factor is drawn for each call.
pub fn written_in(
    random: &mut Random,
    edition: Edition,
    records: &[Record],
    factor: fn(&mut Random) -> u32,
) -> Vec<Record> {
    if edition == Edition::One {
        return records.to_vec();
    }
    let mut scaled = in_other_edition(records).expect("calls of edition 1 have factor 1");
    for record in &mut scaled {
        if let Record::ScaledCall(_, one) = record {
            *one = factor(random);
        }
    }
    scaled
}

/// The records in the other edition; none where a factor is not 1.
pub fn in_other_edition(records: &[Record]) -> Option<Vec<Record>> {
    records.iter().copied().map(other).collect()
}

/// A factor: often 0, 1, 2 or p - 1.
pub fn any_factor(random: &mut Random) -> u32 {
    match random.below(8) {
        0 => 0,
        1..=2 => 1,
        3 => 2,
        4 => P - 1,
        5 => P - 1 - random.below(3) as u32,
        _ => random.number() % P,
    }
}

/// A factor that is not 0 and, but for a rare chance, the sum or the negative of no others.
pub fn nonzero_factor(random: &mut Random) -> u32 {
    1 + random.number() % (P - 1)
}
