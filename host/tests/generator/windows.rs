//! Keys whose calls are weighed by given coordinates of the rows and of the columns.

use super::counted::{key, recursive, sparse, Shape};
use super::random::Random;
use crate::independent::key::MOST_BITS;
use crate::independent::record::Record;

/// The coordinates of an axis from one index to before another: those that weigh a call of an array
/// of `from` bits in an array of `to` bits.
#[derive(Clone, Copy)]
pub struct Window {
    pub from: u8,
    pub to: u8,
}

/// Every window of the rows, each beside the same window of the columns and beside three others.
/// Every window of the columns comes as often.
pub fn windows() -> Vec<[Window; 2]> {
    let to_one = |to: u8| (0..=to).map(move |from| Window { from, to });
    let all: Vec<Window> = (0..=MOST_BITS as u8).flat_map(to_one).collect();
    let beside = |rows: usize| {
        let columns = [0, 1, 180, 333].map(|shift| (rows + shift) % all.len());
        columns.map(|columns| [all[rows], all[columns]])
    };
    (0..all.len()).flat_map(beside).collect()
}

/// A key of few records: an array is called over the windows, and the array that calls it is called
/// up to the head's bits, which are as many as the windows' or more.
pub fn short(random: &mut Random, windows: [Window; 2]) -> Vec<Record> {
    let head = windows.map(|Window { to, .. }| {
        let between = random.between(to.into(), 30) as u8;
        random.pick(&[to, between, 30])
    });
    let (cells, calls) = (random.between(1, 3), random.between(1, 4));
    let [below, above] = calling(random, windows, cells, calls);
    let count = random.between(1, 3);
    let last = recursive(random, head, 1, ends(windows), count);
    key(random, head, &[below, above, last])
}

/// A key of 30 row and 30 column bits with the same calls beside 250 cells of all bits.
pub fn long(random: &mut Random, windows: [Window; 2]) -> Vec<Record> {
    let (cells, calls) = random.pick(&[(2, 3), (2, 200), (200, 3), (20, 20)]);
    let [below, above] = calling(random, windows, cells, calls);
    let beside = sparse(random, [30, 30], 250);
    let mut last = recursive(random, [30, 30], 1, ends(windows), 2);
    last.extend_from_slice(&recursive(random, [30, 30], 2, [30, 30], 1)[1..]);
    key(random, [30, 30], &[below, above, beside, last])
}

/// A key of the windows' bits and hundreds of records: of calls over the windows, or of cells in the
/// array that is called.
pub fn alone(random: &mut Random, windows: [Window; 2]) -> Vec<Record> {
    let (cells, calls) = random.pick(&[(2, 400), (400, 2)]);
    let arrays = calling(random, windows, cells, calls);
    key(random, ends(windows), &arrays)
}

/// Array 0 with so many cells, and array 1 with so many calls of it over the windows.
fn calling(
    random: &mut Random,
    windows: [Window; 2],
    cells: usize,
    calls: usize,
) -> [Vec<Record>; 2] {
    let called = windows.map(|window| window.from);
    [
        sparse(random, called, cells),
        recursive(random, ends(windows), 0, called, calls),
    ]
}

/// The bits of an array whose coordinates end with the windows.
fn ends(windows: [Window; 2]) -> Shape {
    windows.map(|window| window.to)
}
