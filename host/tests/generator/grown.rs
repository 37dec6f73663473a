//! Pairs of keys for compare: of one shape, of two that differ in rows, in columns or in both, and of two of which one is
//! larger in rows and the other in columns.

use super::keys::any;
use super::random::Random;
use super::variants::{arrays, call_the_last, second, shape};
use super::within::{cell, position};
use crate::independent::key::{LONGEST, MOST_ARRAYS, MOST_BITS};
use crate::independent::record::{bytes, Record};

/// Two keys: in most pairs both say the same or nearly the same, and one of them, or both, may have grown.
pub fn pair(random: &mut Random) -> [Vec<Record>; 2] {
    let first = any(random);
    let second = second(random, &first);
    let mut keys = [first, second];
    match random.below(8) {
        0..=2 => {}
        3 => keys[0] = grown(random, &keys[0], [true, false]),
        4 => keys[0] = grown(random, &keys[0], [false, true]),
        5 => keys[0] = grown(random, &keys[0], [true, true]),
        _ => {
            keys[0] = grown(random, &keys[0], [true, false]);
            keys[1] = grown(random, &keys[1], [false, true]);
        }
    }
    if random.chance(2) {
        keys.swap(0, 1);
    }
    keys
}

/// N and N' of two lists of records.
pub fn larger(one: &[Record], other: &[Record]) -> (usize, usize) {
    let (one, other) = (shape(one), shape(other));
    (one.0.max(other.0), one.1.max(other.1))
}

/// A key with more rows, more columns or more of both, where there is room for them. Mostly its matrices are those of the
/// key filled with zeros; else they may stand elsewhere, or have one cell more.
pub fn grown(random: &mut Random, records: &[Record], axes: [bool; 2]) -> Vec<Record> {
    let (rows, columns) = shape(records);
    let own = [rows as u8, columns as u8];
    let mut bits = own;
    for (bits, grows) in bits.iter_mut().zip(axes) {
        let room = MOST_BITS as usize - usize::from(*bits);
        if grows && room > 0 {
            let most = random.pick(&[1, 1, 2, 3, room]).min(room);
            *bits += random.between(1, most) as u8;
        }
    }
    let mut new = records.to_vec();
    set_bits(&mut new[0], bits);
    match random.below(8) {
        0..=2 => widen(&mut new, bits),
        3 => widen_and_add(random, &mut new, bits),
        4 => {
            let room = [0, 1].map(|axis| u32::from(bits[axis] - own[axis]));
            let [row, column] = room.map(|bits| position(random, bits));
            call_the_last(&mut new, bits, row, column);
        }
        _ => call_the_last(&mut new, bits, 0, 0),
    }
    if bytes(&new).len() > LONGEST || arrays(&new) > MOST_ARRAYS {
        return records.to_vec();
    }
    new
}

/// Gives a head or an opening other bits.
fn set_bits(record: &mut Record, bits: [u8; 2]) {
    if let Record::Head(rows, columns)
    | Record::ScaledHead(rows, columns)
    | Record::Sparse(rows, columns)
    | Record::Recursive(rows, columns) = record
    {
        [*rows, *columns] = bits;
    }
}

/// Gives the last array more bits: its cells and calls stay where they are.
fn widen(records: &mut [Record], bits: [u8; 2]) {
    let opens = |one: &&mut Record| matches!(one, Record::Sparse(..) | Record::Recursive(..));
    let last = records.iter_mut().rev().find(opens);
    set_bits(last.expect("a drawn key has an array"), bits);
}

/// The same, and one cell more anywhere in the last array, where that is sparse.
fn widen_and_add(random: &mut Random, records: &mut Vec<Record>, bits: [u8; 2]) {
    widen(records, bits);
    let behind = records.len() - 1;
    if matches!(records[behind - 1], Record::Sparse(..) | Record::Cell(_)) {
        let [rows, columns] = bits.map(u32::from);
        records.insert(behind, cell(random, rows, columns));
    }
}
