//! The records of the keys that are timed. Addresses, positions and values are random.

use crate::generator::random::Random;
use crate::independent::record::{bytes, Call, Cell, Record};

/// The prime p.
const P: u32 = morgana::P;
/// The row bits and the column bits of the keys, but for the small and the narrow one.
pub const BITS: u8 = 30;
/// The row bits and the column bits of the array that is called.
const CALLED_BITS: u8 = 2;

/// A key with so many cells and calls: the cells in one array of all bits, but for one in a small
/// array, which the calls call. Empty arrays fill it up to at most two bytes less than its length.
pub fn full(length: usize, cells: usize, calls: usize) -> Vec<Record> {
    let mut random = Random::of_case(2, 0);
    let mut records = vec![Record::Head(BITS, BITS)];
    if calls > 0 {
        records.push(Record::Sparse(CALLED_BITS, CALLED_BITS));
        records.push(cell(&mut random, CALLED_BITS));
    }
    let behind = records.len();
    records.push(Record::Sparse(BITS, BITS));
    let more = cells - usize::from(calls > 0);
    records.extend((0..more).map(|_| cell(&mut random, BITS)));
    if calls > 0 {
        records.push(Record::Recursive(BITS, BITS));
        records.extend((0..calls).map(|_| call(&mut random)));
    }
    records.push(Record::End);
    let empty = (length - bytes(&records).len()) / 3;
    records.splice(behind..behind, vec![Record::Sparse(0, 0); empty]);
    records
}

/// A key of edition 2 that fills so many bytes with calls of a small array of one cell, each with a random factor, behind
/// empty arrays.
pub fn scaled(length: usize) -> Vec<Record> {
    let calls = (length - 46) / 15;
    let mut random = Random::of_case(9, 0);
    let mut records = vec![Record::ScaledHead(BITS, BITS)];
    records.push(Record::Sparse(CALLED_BITS, CALLED_BITS));
    records.push(cell(&mut random, CALLED_BITS));
    records.push(Record::Recursive(BITS, BITS));
    records.extend((0..calls).map(|_| scaled_call(&mut random)));
    records.push(Record::End);
    let empty = (length - bytes(&records).len()) / 3;
    records.splice(3..3, vec![Record::Sparse(0, 0); empty]);
    records
}

/// A key of one array with so many cells.
pub fn cells(count: usize) -> Vec<Record> {
    let mut random = Random::of_case(6, count as u64);
    let mut records = vec![Record::Head(BITS, BITS), Record::Sparse(BITS, BITS)];
    records.extend((0..count).map(|_| cell(&mut random, BITS)));
    records.push(Record::End);
    records
}

/// A key with so many calls of a small array of one cell.
pub fn calls(count: usize) -> Vec<Record> {
    let mut random = Random::of_case(7, count as u64);
    let mut records = vec![
        Record::Head(BITS, BITS),
        Record::Sparse(CALLED_BITS, CALLED_BITS),
    ];
    records.push(cell(&mut random, CALLED_BITS));
    records.push(Record::Recursive(BITS, BITS));
    records.extend((0..count).map(|_| call(&mut random)));
    records.push(Record::End);
    records
}

/// A key of 4 row and 4 column bits that fills so many bytes: arrays of 200 cells, and a last one that
/// calls each of them.
pub fn narrow(length: usize) -> Vec<Record> {
    let mut random = Random::of_case(4, 0);
    let mut records = vec![Record::Head(4, 4)];
    let arrays = (length - 7) / (3 + 21 * 200 + 11);
    for _ in 0..arrays {
        records.push(Record::Sparse(4, 4));
        records.extend((0..200).map(|_| cell(&mut random, 4)));
    }
    records.push(Record::Recursive(4, 4));
    records.extend((0..arrays).map(|id| call_of(&mut random, id, 0)));
    records.push(Record::End);
    records
}

/// A key of 1,023 arrays of three records: of every three arrays the first has cells, and the others call
/// it; the last calls the first of all.
pub fn many(length: usize) -> Vec<Record> {
    let mut random = Random::of_case(5, 0);
    let mut records = vec![Record::Head(BITS, BITS)];
    for i in 0..1_023 {
        if i % 3 == 0 {
            records.push(Record::Sparse(CALLED_BITS, CALLED_BITS));
            records.extend((0..3).map(|_| cell(&mut random, CALLED_BITS)));
        } else {
            let called = if i == 1_022 { 0 } else { i - i % 3 };
            let bits = BITS - CALLED_BITS;
            records.push(Record::Recursive(BITS, BITS));
            records.extend((0..3).map(|_| call_of(&mut random, called, bits)));
        }
    }
    records.push(Record::End);
    assert!(bytes(&records).len() <= length, "the key is too long");
    records
}

/// The key of the request's keysheet input.
pub fn small() -> Vec<Record> {
    let call = Record::Call(Call {
        id: 0,
        row: 0,
        column: 0,
    });
    vec![
        Record::Head(1, 1),
        Record::Sparse(0, 1),
        Record::Cell(Cell {
            row: 0,
            column: 1,
            values: [5, 7, 0],
        }),
        Record::Recursive(1, 1),
        call,
        call,
        Record::End,
    ]
}

/// A cell at a random place of an array of so many row and column bits.
pub fn cell(random: &mut Random, bits: u8) -> Record {
    Record::Cell(Cell {
        row: number(random, bits),
        column: number(random, bits),
        values: [(); 3].map(|()| random.number() % P),
    })
}

/// A call of array 0 at a random position.
fn call(random: &mut Random) -> Record {
    call_of(random, 0, BITS - CALLED_BITS)
}

/// A call of array 0 at a random position, with a random factor.
fn scaled_call(random: &mut Random) -> Record {
    let place = place_of(random, 0, BITS - CALLED_BITS);
    Record::ScaledCall(place, random.number() % P)
}

/// A call of an array at a random position of so many row and column bits.
pub fn call_of(random: &mut Random, id: usize, bits: u8) -> Record {
    Record::Call(place_of(random, id, bits))
}

/// The fields of such a call.
fn place_of(random: &mut Random, id: usize, bits: u8) -> Call {
    Call {
        id: id as u16,
        row: number(random, bits),
        column: number(random, bits),
    }
}

/// A random number of so many bits.
fn number(random: &mut Random, bits: u8) -> u32 {
    (u64::from(random.number()) >> (32 - bits)) as u32
}
