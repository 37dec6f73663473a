//! Arrays and keys of a given number of records, of both editions. No value of a cell and no factor is 0.

use super::editions::{edition, nonzero_factor, written_in};
use super::random::Random;
use super::within::position;
use crate::independent::field::P;
use crate::independent::record::{Call, Cell, Record};

/// The row bits and the column bits of an array.
pub type Shape = [u8; 2];

/// A key of one array of 30 row and 30 column bits with so many cells.
pub fn of_cells(random: &mut Random, count: usize) -> Vec<Record> {
    let cells = sparse(random, [30, 30], count);
    key(random, [30, 30], &[cells])
}

/// A key of 30 row and 30 column bits with so many calls of a narrow array of one cell.
pub fn of_calls(random: &mut Random, count: usize) -> Vec<Record> {
    let called = [(); 2].map(|()| random.below(4) as u8);
    let below = sparse(random, called, 1);
    let calls = recursive(random, [30, 30], 0, called, count);
    key(random, [30, 30], &[below, calls])
}

/// A key of few bits a side with so many cells, or with so many calls of an array of two cells.
pub fn of_few_bits(random: &mut Random, count: usize) -> Vec<Record> {
    let shape = [(); 2].map(|()| random.below(7) as u8);
    if random.chance(2) {
        let cells = sparse(random, shape, count);
        return key(random, shape, &[cells]);
    }
    let called = shape.map(|bits| random.between(0, bits.into()) as u8);
    let below = sparse(random, called, 2);
    let calls = recursive(random, shape, 0, called, count);
    key(random, shape, &[below, calls])
}

/// A key of these arrays, in either edition; the last has the shape of the head.
pub fn key(random: &mut Random, head: Shape, arrays: &[Vec<Record>]) -> Vec<Record> {
    let mut records = vec![Record::Head(head[0], head[1])];
    records.extend(arrays.concat());
    records.push(Record::End);
    let edition = edition(random);
    written_in(random, edition, &records, nonzero_factor)
}

/// A sparse array of so many cells.
pub fn sparse(random: &mut Random, shape: Shape, count: usize) -> Vec<Record> {
    let mut records = vec![Record::Sparse(shape[0], shape[1])];
    for _ in 0..count {
        let [row, column] = shape.map(|bits| position(random, bits.into()));
        let values = [(); 3].map(|()| 1 + random.number() % (P - 1));
        records.push(Record::Cell(Cell {
            row,
            column,
            values,
        }));
    }
    records
}

/// A recursive array of so many calls of one array, which has this id and shape.
pub fn recursive(
    random: &mut Random,
    shape: Shape,
    id: u16,
    called: Shape,
    count: usize,
) -> Vec<Record> {
    let mut records = vec![Record::Recursive(shape[0], shape[1])];
    let room = [shape[0] - called[0], shape[1] - called[1]];
    for _ in 0..count {
        let [row, column] = room.map(|bits| position(random, bits.into()));
        records.push(Record::Call(Call { id, row, column }));
    }
    records
}
