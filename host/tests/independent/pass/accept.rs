//! Accepting a key: the counts alone, without the refusal.

use super::call::{call, factor, id, place, PLAIN, SCALED};
use super::{word, Shapes, P};
use crate::independent::key::{LONGEST, MOST_ARRAYS, MOST_BITS};
use crate::independent::Counts;

/// The counts of an accepted key, with the shapes of its arrays; none for every other key.
pub fn accept(key: &[u8], shapes: &mut Shapes) -> Option<Counts> {
    match key.first()? {
        1 => accept_edition::<PLAIN>(key, shapes),
        7 => accept_edition::<SCALED>(key, shapes),
        _ => None,
    }
}

/// The same of a key whose calls have N bytes.
fn accept_edition<const N: usize>(key: &[u8], shapes: &mut Shapes) -> Option<Counts> {
    let [_, rows, columns, rest @ ..] = key else {
        return None;
    };
    let (rows, columns) = (*rows, *columns);
    if key.len() > LONGEST || u32::from(rows.max(columns)) > MOST_BITS {
        return None;
    }
    let mut rest = rest;
    let [mut arrays, mut cells, mut calls] = [0; 3];
    while let [kind @ (2 | 3), row_bits, column_bits, behind @ ..] = rest {
        let shape = [*row_bits, *column_bits];
        if arrays == MOST_ARRAYS || shape[0] > rows || shape[1] > columns {
            return None;
        }
        rest = if *kind == 2 {
            let behind_cells = skip_cells(behind, shape);
            cells += (behind.len() - behind_cells.len()) / 21;
            behind_cells
        } else {
            let behind_calls = skip_calls::<N>(behind, shape, &shapes[..arrays]);
            calls += (behind.len() - behind_calls.len()) / N;
            behind_calls
        };
        shapes[arrays] = shape;
        arrays += 1;
    }
    let whole = rest == [6] && arrays > 0 && shapes[arrays - 1] == [rows, columns];
    whole.then_some(Counts {
        arrays: arrays as u32,
        cells: cells as u32,
        calls: calls as u32,
        rows: rows.into(),
        columns: columns.into(),
    })
}

/// The bytes behind the cells that an array of this shape may hold.
fn skip_cells(mut rest: &[u8], shape: [u8; 2]) -> &[u8] {
    while let Some((record, behind)) = rest.split_first_chunk::<21>() {
        let inside = word(record, 1) >> shape[0] == 0 && word(record, 5) >> shape[1] == 0;
        let below = word(record, 9) < P && word(record, 13) < P && word(record, 17) < P;
        if record[0] != 4 || !inside || !below {
            break;
        }
        rest = behind;
    }
    rest
}

/// The bytes behind the calls of N bytes that an array of this shape behind the earlier ones may hold.
fn skip_calls<'a, const N: usize>(
    mut rest: &'a [u8],
    shape: [u8; 2],
    earlier: &[[u8; 2]],
) -> &'a [u8] {
    while let Some((record, behind)) = call::<N>(rest) {
        let Some(called) = earlier.get(id(record)) else {
            break;
        };
        let [row, column] = place(record);
        let fits = called[0] <= shape[0]
            && called[1] <= shape[1]
            && row >> (shape[0] - called[0]) == 0
            && column >> (shape[1] - called[1]) == 0
            && factor(record).is_none_or(|factor| factor < P);
        if !fits {
            break;
        }
        rest = behind;
    }
    rest
}
