//! Second keys for compare: the same matrices written otherwise, also in the other edition, and matrices
//! that differ.

use super::editions::{any_factor, edition_of, in_other_edition};
use super::keys::any;
use super::path::path;
use super::random::Random;
use super::within::{cell, value, within, Bounds};
use crate::independent::field::{difference, sum};
use crate::independent::key::{Edition, LONGEST};
use crate::independent::record::{bytes, Call, Record};

/// n and n' of a list of records that begins with a head.
pub fn shape(records: &[Record]) -> (usize, usize) {
    match records[0] {
        Record::Head(rows, columns) | Record::ScaledHead(rows, columns) => {
            (rows.into(), columns.into())
        }
        _ => unreachable!("a drawn key begins with its head"),
    }
}

/// The number of arrays of a list of records.
pub fn arrays(records: &[Record]) -> usize {
    let opens = |one: &&Record| matches!(one, Record::Sparse(..) | Record::Recursive(..));
    records.iter().filter(opens).count()
}

/// A second key for compare.
pub fn second(random: &mut Random, first: &[Record]) -> Vec<Record> {
    match random.below(10) {
        0 => first.to_vec(),
        1..=2 => reworded(random, first),
        3..=4 => altered(random, first),
        5..=6 => {
            let reworded = reworded(random, first);
            altered(random, &reworded)
        }
        7 => other(random, shape(first)),
        8 => other(random, (shape(first).1, shape(first).0)),
        _ => any(random),
    }
}

/// Another key of a given shape.
pub fn other(random: &mut Random, (rows, columns): (usize, usize)) -> Vec<Record> {
    let bounds = Bounds {
        rows,
        columns,
        arrays: random.between(1, 6),
        records_per_array: random.between(1, 6),
        bytes: 2_000,
    };
    within(random, bounds)
}

/// A key with the same matrices in its last array, written otherwise where there is room for it.
pub fn reworded(random: &mut Random, records: &[Record]) -> Vec<Record> {
    let mut new = records.to_vec();
    for _ in 0..random.between(1, 3) {
        match random.below(7) {
            0 => swap_neighbours(random, &mut new),
            1 => split_a_cell(random, &mut new),
            2 => insert_an_array(random, &mut new),
            3 => split_a_call(random, &mut new),
            4 => {
                let (rows, columns) = shape(&new);
                call_the_last(&mut new, [rows as u8, columns as u8], 0, 0);
            }
            _ => new = in_other_edition(&new).unwrap_or(new),
        }
    }
    if bytes(&new).len() > LONGEST || arrays(&new) > 1_024 {
        return records.to_vec();
    }
    new
}

/// Swaps two neighbours that are both cells or both calls.
fn swap_neighbours(random: &mut Random, records: &mut [Record]) {
    let at = random.below(records.len() - 1);
    let alike = matches!(
        records[at..at + 2],
        [Record::Cell(_), Record::Cell(_)]
            | [Record::Call(_), Record::Call(_)]
            | [Record::ScaledCall(..), Record::ScaledCall(..)]
    );
    if alike {
        records.swap(at, at + 1);
    }
}

/// Makes two cells of one, whose values add up to those of the one.
fn split_a_cell(random: &mut Random, records: &mut Vec<Record>) {
    let at = random.below(records.len());
    if let Record::Cell(mut one) = records[at] {
        let mut rest = one;
        for (value_of_one, rest) in one.values.iter_mut().zip(&mut rest.values) {
            *value_of_one = value(random);
            *rest = difference(*rest, *value_of_one);
        }
        records[at] = Record::Cell(one);
        records.insert(at, Record::Cell(rest));
    }
}

/// Makes two calls of one of edition 2, whose factors add up to that of the one.
fn split_a_call(random: &mut Random, records: &mut Vec<Record>) {
    let at = random.below(records.len());
    if let Record::ScaledCall(call, factor) = records[at] {
        let share = any_factor(random);
        records[at] = Record::ScaledCall(call, share);
        records.insert(at, Record::ScaledCall(call, difference(factor, share)));
    }
}

/// Puts an array that nobody calls before all others.
fn insert_an_array(random: &mut Random, records: &mut Vec<Record>) {
    let (rows, columns) = shape(records);
    for record in records.iter_mut() {
        if let Record::Call(call) | Record::ScaledCall(call, _) = record {
            call.id += 1;
        }
    }
    records.insert(1, Record::Sparse(rows as u8, columns as u8));
    if random.chance(2) {
        records.insert(2, cell(random, rows as u32, columns as u32));
    }
}

/// Puts a last array of these bits behind the last that calls it alone, at a position.
pub fn call_the_last(records: &mut Vec<Record>, bits: [u8; 2], row: u32, column: u32) {
    let id = (arrays(records) - 1) as u16;
    let call = Call { id, row, column };
    let call = match edition_of(records) {
        Edition::One => Record::Call(call),
        Edition::Two => Record::ScaledCall(call, 1),
    };
    records.pop();
    records.extend([Record::Recursive(bits[0], bits[1]), call, Record::End]);
}

/// A key of which one value, call or factor that the last array depends on is another than before; or else
/// the key as it was.
pub fn altered(random: &mut Random, records: &[Record]) -> Vec<Record> {
    let mut new = records.to_vec();
    let path = path(random, records);
    if path.is_empty() {
        return new;
    }
    let at = if random.chance(3) {
        random.pick(&path)
    } else {
        path[path.len() - 1]
    };
    match &mut new[at] {
        Record::Cell(cell) => {
            let part = random.below(4);
            if part < 3 {
                let more = if random.chance(2) { 1 } else { value(random) };
                cell.values[part] = sum(cell.values[part], more);
            } else {
                cell.values.swap(1, 2);
            }
        }
        Record::ScaledCall(_, factor) if random.chance(2) => {
            let more = if random.chance(2) { 1 } else { value(random) };
            *factor = sum(*factor, more);
        }
        Record::Call(call) | Record::ScaledCall(call, _) => {
            call.row &= random.number();
            call.column &= random.number();
        }
        _ => unreachable!("a path has calls and a cell"),
    }
    new
}
