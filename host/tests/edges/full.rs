//! Keys of 65,536 bytes, compared with closed forms.

use crate::factors;
use crate::generator::random::Random;
use crate::independent::field::{sum, Fp};
use crate::independent::pass;
use crate::independent::pass::factors::Factors;
use crate::independent::record::Record::{Recursive, Sparse};
use crate::written::closed::*;
use crate::written::*;

/// A key of 65,536 bytes of cells that fill all places of 32 rows and 64 columns, one and a half
/// times, with one value: the extension of a constant is the constant.
#[test]
fn full_of_cells() {
    let mut body = vec![Sparse(0, 0); 3];
    body.push(Sparse(5, 6));
    for i in 0..3_072 {
        let place = i % 2_048;
        body.push(cell(place % 32, place / 32, [P - 1, 3, 0]));
    }
    // 48 further cells of value zero.
    body.extend([cell(31, 63, [0; 3]); 48]);
    let full = key(5, 6, &body);
    assert_eq!(full.len(), 65_536);
    accepts(&full, 4, 3_120, 0);
    factors::hold(&full, 3_120 * (5 + 6));
    // The second round has filled the columns below 32 alone: 1 for all places and once more
    // 1 less the last column coordinate.
    let (rows, columns) = (coordinates(4, 5), coordinates(5, 6));
    let weight = sum(1, sum(1, P - columns[5]));
    let wanted = times([P - 1, 3, 0], weight);
    assert_eq!(values(&full, &rows, &columns), Ok(wanted));
    assert_eq!(dense(&full, 31, 31), Ok([P - 2, 6, 0]));
    assert_eq!(dense(&full, 31, 32), Ok([P - 1, 3, 0]));
}

/// A key of 65,536 bytes of calls, 5,952 at one place: the cell's values times their number.
#[test]
fn full_of_calls() {
    let mut body = vec![Sparse(0, 0), cell(0, 0, VALUES)];
    body.extend([Sparse(0, 0); 11]);
    body.push(Recursive(30, 30));
    let greatest = (1 << 30) - 1;
    body.extend(vec![call(0, greatest, greatest); 5_952]);
    let full = key(30, 30, &body);
    assert_eq!(full.len(), 65_536);
    accepts(&full, 13, 1, 5_952);
    factors::hold(&full, 5_952 * (30 + 30));
    let (rows, columns) = (vec![P - 1; 30], vec![P - 2; 30]);
    let weight = power_of_two(30);
    let wanted = times(times(VALUES, 5_952), weight);
    assert_eq!(values(&full, &rows, &columns), Ok(wanted));
    assert_eq!(dense(&full, greatest, greatest), Ok(times(VALUES, 5_952)));
    assert_eq!(dense(&full, greatest, 0), Ok([0; 3]));
}

/// A key of 65,536 bytes of both, compared with the pass.
#[test]
fn full_of_both() {
    let mut random = Random::of_case(6, 0);
    let mut body = vec![Sparse(15, 15)];
    for _ in 0..1_560 {
        let (row, column) = (random.number() >> 17, random.number() >> 17);
        let values = [(); 3].map(|()| random.number() % P);
        body.push(cell(row, column, values));
    }
    body.extend([Sparse(0, 0); 10]);
    body.push(Recursive(30, 30));
    for _ in 0..2_976 {
        body.push(call(0, random.number() >> 17, random.number() >> 17));
    }
    let full = key(30, 30, &body);
    assert_eq!(full.len(), 65_536);
    accepts(&full, 12, 1_560, 2_976);
    let (rows, columns) = (coordinates(7, 30), coordinates(8, 30));
    let mut wanted = vec![7; 3_072];
    let answer = pass::evaluate::<Factors<Fp>>(&full, &rows, &columns, &mut wanted);
    let mut sheet = vec![7; 3_072];
    assert_eq!(evaluate(&full, &rows, &columns, &mut sheet), answer);
    // A cell has 15 and 15 bits, and a call adds as many.
    factors::hold(&full, 30 * (1_560 + 2_976));
    assert_eq!(sheet, wanted);
}
