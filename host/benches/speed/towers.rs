//! The records of the towers that are timed.

use crate::generator::random::Random;
use crate::independent::record::Record;
use crate::records::{call_of, cell, BITS};

/// A tower whose levels share out the bits, so that some add none.
pub fn shared_out(levels: usize, calls: usize) -> Vec<Record> {
    let bits = |level: usize| level * usize::from(BITS) / levels;
    of_bits(levels, calls, |level| bits(level) as u8)
}

/// A tower whose levels add no bit: the array below them has all.
pub fn without_bits(levels: usize, calls: usize) -> Vec<Record> {
    of_bits(levels, calls, |_| BITS)
}

/// A tower whose levels add one bit each, as long as there are any.
pub fn of_single_bits(levels: usize, calls: usize) -> Vec<Record> {
    of_bits(levels, calls, |level| level.min(BITS.into()) as u8)
}

/// A tower: so many levels above one cell, each with so many calls of the level below. A level, and
/// the array below them as level 0, has as many row and column bits as the function says.
fn of_bits(levels: usize, calls: usize, bits: impl Fn(usize) -> u8) -> Vec<Record> {
    let mut random = Random::of_case(3, 0);
    let mut records = vec![Record::Head(BITS, BITS), Record::Sparse(bits(0), bits(0))];
    records.push(cell(&mut random, bits(0)));
    for level in 1..=levels {
        let more = bits(level) - bits(level - 1);
        records.push(Record::Recursive(bits(level), bits(level)));
        records.extend((0..calls).map(|_| call_of(&mut random, level - 1, more)));
    }
    records.push(Record::End);
    records
}
