//! Paths from a key's last array down its calls to a cell, which show what the last array's
//! matrices depend on.

use super::random::Random;
use crate::independent::record::Record;

/// The indices of the records on a path: calls, then a cell. It is empty where none was found.
pub fn path(random: &mut Random, records: &[Record]) -> Vec<usize> {
    let openings = openings(records);
    for _ in 0..8 {
        let mut path = Vec::new();
        let mut array = openings.len() - 1;
        loop {
            let first = openings[array] + 1;
            let behind = match openings.get(array + 1) {
                Some(&next) => next,
                None => records.len() - 1,
            };
            if first == behind {
                break;
            }
            let at = random.between(first, behind - 1);
            path.push(at);
            match records[at] {
                Record::Call(call) | Record::ScaledCall(call, _) => array = call.id.into(),
                _ => return path,
            }
        }
    }
    Vec::new()
}

/// The row and column of the last array to which a path leads.
pub fn end_of(path: &[usize], records: &[Record]) -> (u32, u32) {
    let openings = openings(records);
    let (mut row, mut column) = (0, 0);
    for &at in path {
        match records[at] {
            Record::Call(call) | Record::ScaledCall(call, _) => {
                let (row_bits, column_bits) = match records[openings[usize::from(call.id)]] {
                    Record::Sparse(rows, columns) | Record::Recursive(rows, columns) => {
                        (rows, columns)
                    }
                    _ => unreachable!("an opening is sparse or recursive"),
                };
                row += call.row << row_bits;
                column += call.column << column_bits;
            }
            Record::Cell(cell) => {
                row += cell.row;
                column += cell.column;
            }
            _ => unreachable!("a path has calls and a cell"),
        }
    }
    (row, column)
}

/// The indices of the records that open arrays.
fn openings(records: &[Record]) -> Vec<usize> {
    let opens = |at: &usize| matches!(records[*at], Record::Sparse(..) | Record::Recursive(..));
    (0..records.len()).filter(opens).collect()
}
