//! Whole keys of all shapes and of both editions, as lists of records.

use super::editions::{any_factor, edition, written_in};
use super::random::Random;
use super::within::{cell, of_shapes, position, within, Bounds};
use crate::independent::key::LONGEST;
use crate::independent::record::{Call, Record};

/// A whole key, mostly small.
pub fn any(random: &mut Random) -> Vec<Record> {
    match random.below(100) {
        0..=69 => small(random),
        70..=89 => wide(random),
        90..=95 => tower(random),
        96..=97 => many(random),
        _ => full(random),
    }
}

/// A key small enough to unroll into whole matrices.
pub fn small(random: &mut Random) -> Vec<Record> {
    let rows = random.below(7);
    let columns = random.below(7.min(11 - rows));
    let bounds = Bounds {
        rows,
        columns,
        arrays: random.between(1, 9),
        records_per_array: random.between(1, 8),
        bytes: 2_000,
    };
    within(random, bounds)
}

/// A key of up to 30 row bits and 30 column bits.
pub fn wide(random: &mut Random) -> Vec<Record> {
    let bounds = Bounds {
        rows: bits(random),
        columns: bits(random),
        arrays: random.between(1, 30),
        records_per_array: random.between(1, 12),
        bytes: 4_000,
    };
    within(random, bounds)
}

/// A key of narrow and wide arrays, with few or with many records.
pub fn uneven(random: &mut Random) -> Vec<Record> {
    let mut shapes = Vec::new();
    for _ in 0..random.between(0, 8) {
        shapes.push([(); 2].map(|()| match random.below(2) {
            0 => random.between(0, 4) as u8,
            _ => random.between(24, 30) as u8,
        }));
    }
    let most = |axis: usize| shapes.iter().map(|shape: &[u8; 2]| shape[axis]).max();
    shapes.push([most(0).unwrap_or(30), most(1).unwrap_or(30)]);
    let records_per_array = random.pick(&[2, 10, 60, 300]);
    of_shapes(random, &shapes, records_per_array, LONGEST)
}

/// A key of 1,020 to 1,024 arrays.
pub fn many(random: &mut Random) -> Vec<Record> {
    let bounds = Bounds {
        rows: bits(random),
        columns: bits(random),
        arrays: random.between(1_020, 1_024),
        records_per_array: random.between(1, 3),
        bytes: 65_536,
    };
    within(random, bounds)
}

/// A key of about 65,536 bytes.
pub fn full(random: &mut Random) -> Vec<Record> {
    let arrays = random.pick(&[1, 2, 30, 200, 1_024]);
    let bounds = Bounds {
        rows: bits(random),
        columns: bits(random),
        arrays,
        records_per_array: 12_000 / arrays,
        bytes: 65_536,
    };
    within(random, bounds)
}

/// A number of row or column bits, often the greatest.
fn bits(random: &mut Random) -> usize {
    match random.below(4) {
        0 => 30,
        1 => random.between(27, 30),
        _ => random.between(0, 30),
    }
}

/// A key of forty and more levels, each of which calls the level before it more than once.
pub fn tower(random: &mut Random) -> Vec<Record> {
    let levels = random.pick(&[40, 41, 60, 100, 1_000]);
    let (mut rows, mut columns) = (0, 0);
    let mut records = vec![Record::Sparse(0, 0), cell(random, 0, 0)];
    for level in 1..=levels {
        let [row_room, column_room] = grow(random, &mut rows, &mut columns);
        records.push(Record::Recursive(rows, columns));
        let earlier = level - 1;
        for _ in 0..random.between(1, 3) {
            records.push(Record::Call(Call {
                id: earlier as u16,
                row: position(random, row_room),
                column: position(random, column_room),
            }));
        }
    }
    records.insert(0, Record::Head(rows, columns));
    records.push(Record::End);
    let edition = edition(random);
    written_in(random, edition, &records, any_factor)
}

/// Adds up to two bits to the rows or the columns, below 30; answers what was added to each.
fn grow(random: &mut Random, rows: &mut u8, columns: &mut u8) -> [u32; 2] {
    let mut added = [0, 0];
    for (bits, added) in [rows, columns].into_iter().zip(&mut added) {
        let more = random.below(3).min(30 - usize::from(*bits)) as u8;
        *bits += more;
        *added = more.into();
    }
    added
}
