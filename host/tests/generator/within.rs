//! The records of a key drawn within bounds.

use super::editions::{any_factor, call_length, edition, written_in};
use super::random::Random;
use crate::independent::field::P;
use crate::independent::record::{Call, Cell, Record};

/// The bounds of a key to draw.
#[derive(Debug, Clone, Copy)]
pub struct Bounds {
    pub rows: usize,
    pub columns: usize,
    pub arrays: usize,
    pub records_per_array: usize,
    pub bytes: usize,
}

/// A key within bounds: its last array has all the rows and columns, and its calls fit.
pub fn within(random: &mut Random, bounds: Bounds) -> Vec<Record> {
    let shapes = shapes(random, bounds);
    of_shapes(random, &shapes, bounds.records_per_array, bounds.bytes)
}

/// A key, of either edition, of arrays of these shapes, each with up to so many records, and of at most
/// so many bytes. The last shape is that of the head.
pub fn of_shapes(
    random: &mut Random,
    shapes: &[[u8; 2]],
    records_per_array: usize,
    bytes: usize,
) -> Vec<Record> {
    let edition = edition(random);
    let length = call_length(edition);
    let [rows, columns] = shapes[shapes.len() - 1];
    let mut records = vec![Record::Head(rows, columns)];
    let mut filled = Vec::new();
    let mut room = bytes - 4 - 3 * shapes.len();
    for (array, &shape) in shapes.iter().enumerate() {
        let opening = records.len();
        let count = match random.below(10) {
            0 => 0,
            1..=2 => records_per_array,
            _ => random.between(1, records_per_array),
        };
        if random.chance(if array == 0 { 10 } else { 3 }) == (array == 0) {
            records.push(Record::Recursive(shape[0], shape[1]));
            let count = count.min(room / length);
            room -= length * add_calls(random, &mut records, shape, shapes, &filled, count);
        } else {
            records.push(Record::Sparse(shape[0], shape[1]));
            let count = count.min(room / 21);
            room -= 21 * count;
            add_cells(random, &mut records, shape, count);
        }
        filled.push(records.len() > opening + 1);
    }
    records.push(Record::End);
    written_in(random, edition, &records, any_factor)
}

/// The shapes of the arrays, in three of four keys growing from array to array.
fn shapes(random: &mut Random, bounds: Bounds) -> Vec<[u8; 2]> {
    let mut axis = |bits: usize| {
        let mut sizes: Vec<u8> = (1..bounds.arrays)
            .map(|_| random.below(bits + 1) as u8)
            .collect();
        if !random.chance(4) {
            sizes.sort_unstable();
        }
        sizes.push(bits as u8);
        sizes
    };
    let rows = axis(bounds.rows);
    let columns = axis(bounds.columns);
    rows.into_iter()
        .zip(columns)
        .map(|(rows, columns)| [rows, columns])
        .collect()
}

/// Adds cells, some of them at the place of the cell before.
fn add_cells(random: &mut Random, records: &mut Vec<Record>, shape: [u8; 2], count: usize) {
    for i in 0..count {
        let mut new = cell(random, shape[0].into(), shape[1].into());
        if i > 0 && random.chance(4) {
            if let (Record::Cell(new), Some(Record::Cell(before))) = (&mut new, records.last()) {
                new.row = before.row;
                new.column = before.column;
            }
        }
        records.push(new);
    }
}

/// Adds calls of earlier arrays that fit, some of them twice and mostly of arrays that hold
/// something; answers how many. There are as many earlier arrays as entries of `filled`.
fn add_calls(
    random: &mut Random,
    records: &mut Vec<Record>,
    shape: [u8; 2],
    shapes: &[[u8; 2]],
    filled: &[bool],
    count: usize,
) -> usize {
    let fits = |id: &usize| shapes[*id][0] <= shape[0] && shapes[*id][1] <= shape[1];
    let callable: Vec<usize> = (0..filled.len()).filter(fits).collect();
    let filled_ones: Vec<usize> = callable.iter().copied().filter(|&id| filled[id]).collect();
    if callable.is_empty() {
        return 0;
    }
    for i in 0..count {
        let choices = if filled_ones.is_empty() || random.chance(10) {
            &callable
        } else {
            &filled_ones
        };
        let id = if random.chance(2) {
            choices[choices.len() - 1]
        } else {
            random.pick(choices)
        };
        let new = Record::Call(Call {
            id: id as u16,
            row: position(random, (shape[0] - shapes[id][0]).into()),
            column: position(random, (shape[1] - shapes[id][1]).into()),
        });
        let again = i > 0 && random.chance(6);
        records.push(if again {
            records[records.len() - 1]
        } else {
            new
        });
    }
    count
}

/// A cell of an array of this many row and column bits.
pub fn cell(random: &mut Random, row_bits: u32, column_bits: u32) -> Record {
    Record::Cell(Cell {
        row: position(random, row_bits),
        column: position(random, column_bits),
        values: [value(random), value(random), value(random)],
    })
}

/// A number of so many bits: mostly any, else near the least or the greatest.
pub fn position(random: &mut Random, bits: u32) -> u32 {
    let greatest = (1u32 << bits) - 1;
    match random.below(6) {
        0 => 0,
        1 => greatest,
        2 => (random.below(4) as u32).min(greatest),
        _ => random.number() & greatest,
    }
}

/// A number below p: mostly any, else near 0 or p - 1.
pub fn value(random: &mut Random) -> u32 {
    match random.below(8) {
        0 => random.below(3) as u32,
        1 => P - 1 - random.below(3) as u32,
        2 => 0,
        _ => random.number() % P,
    }
}
