//! The starred cases, and the shortcuts that give wrong evaluations.

use crate::independent::field::{difference, eq, product, sum};
use crate::independent::record::Record::{Recursive, Sparse};
use crate::written::*;

/// The starred sums, differences, products and weights, which bind the independent field too, and
/// the weights again as the value of a key with one cell.
#[test]
fn field_and_weights() {
    assert_eq!(product(P - 1, P - 1), 1);
    assert_eq!(sum(P - 1, 1), 0);
    assert_eq!(difference(0, 1), P - 1);
    let starred: [(u32, &[u32], u32); 4] = [
        (0, &[], 1),
        (1, &[3], 3),
        (0, &[3], P - 2),
        (2, &[3, 4], 2_147_483_639),
    ];
    for (number, coordinates, weight) in starred {
        assert_eq!(eq(number, coordinates), weight);
        let bits = coordinates.len() as u8;
        let by_rows = key(bits, 0, &[Sparse(bits, 0), cell(number, 0, [1, 0, 2])]);
        let wanted = [weight, 0, sum(weight, weight)];
        assert_eq!(values(&by_rows, coordinates, &[]), Ok(wanted));
        let by_columns = key(0, bits, &[Sparse(0, bits), cell(0, number, [1, 0, 2])]);
        assert_eq!(values(&by_columns, &[], coordinates), Ok(wanted));
    }
    let negative = key(0, 0, &[Sparse(0, 0), cell(0, 0, [P - 1, 1, 0])]);
    assert_eq!(values(&negative, &[], &[]), Ok([P - 1, 1, 0]));
}

/// Five cells at one place: the products are reduced before they are added up.
#[test]
fn five_cells_at_one_place() {
    let mut body = vec![Sparse(1, 0)];
    body.extend([cell(0, 0, [P - 1, 0, 0]); 5]);
    let five = key(1, 0, &body);
    assert_eq!(values(&five, &[2], &[]), Ok([5, 0, 0]));
    assert_eq!(dense(&five, 0, 0), Ok([P - 5, 0, 0]));
    assert_eq!(dense(&five, 1, 0), Ok([0, 0, 0]));
}

/// Two cells at one place add up, modulo p; a sum of p is 0.
#[test]
fn two_cells_at_one_place() {
    let body = [
        Sparse(1, 0),
        cell(0, 0, [P - 1, 3, P - 1]),
        cell(0, 0, [2, 4, 1]),
        cell(1, 0, [P - 5, 0, 5]),
        cell(1, 0, [5, 0, P - 5]),
    ];
    let two = key(1, 0, &body);
    assert_eq!(dense(&two, 0, 0), Ok([1, 7, 0]));
    assert_eq!(dense(&two, 1, 0), Ok([0, 0, 0]));
    let weight = difference(1, 100);
    let wanted = [weight, product(7, weight), 0];
    assert_eq!(values(&two, &[100], &[]), Ok(wanted));
}

/// A recursive array without calls is zero, and so is a sparse one without cells; the sheet is
/// written.
#[test]
fn empty_arrays() {
    let empty = key(2, 1, &[Sparse(1, 1), Recursive(2, 1)]);
    accepts(&empty, 2, 0, 0);
    let mut sheet = [8; 7];
    let answer = evaluate(&empty, &[3, 4], &[5], &mut sheet);
    assert_eq!(answer, Ok([0, 0, 0]));
    assert_eq!(sheet, [0, 0, 0, 0, 0, 0, 8]);
}

/// A call at a = 1 of an array of one row bit moves by 2 rows and weighs the second coordinate.
#[test]
fn call_moves_by_the_called_size() {
    let moved = key(
        2,
        0,
        &[
            Sparse(1, 0),
            cell(0, 0, [9, 0, 1]),
            Recursive(2, 0),
            call(0, 1, 0),
        ],
    );
    let answer = values(&moved, &[3, 4], &[]);
    assert_eq!(answer.map(|values| values[0]), Ok(2_147_483_575));
    assert_eq!(dense(&moved, 2, 0), Ok([9, 0, 1]));
    for row in [0, 1, 3] {
        assert_eq!(dense(&moved, row, 0), Ok([0, 0, 0]));
    }
}

/// The key of the keysheet input: its counts and both triples.
#[test]
fn keysheet_input() {
    let sample = sample();
    assert_eq!(sample.len(), 53);
    accepts(&sample, 2, 1, 2);
    let mut sheet = [1; 8];
    let answer = evaluate(&sample, &[3], &[4], &mut sheet);
    assert_eq!(answer, Ok([2_147_483_567, 2_147_483_535, 0]));
    let wanted = [20, 28, 0, 2_147_483_567, 2_147_483_535, 0, 1, 1];
    assert_eq!(sheet, wanted);
    let mut sheet = [1; 7];
    let answer = cell_of(&sample, 0, 1, &mut sheet);
    assert_eq!(answer, Ok([10, 14, 0]));
    assert_eq!(sheet, [5, 7, 0, 10, 14, 0, 1]);
}

/// An array is weighed by its own prefix of the point: coordinate 1 has no part in a one-bit array.
#[test]
fn own_prefix_of_the_point() {
    let prefix = key(
        2,
        2,
        &[Sparse(1, 1), cell(1, 0, [1, 2, 3]), Recursive(2, 2)],
    );
    let mut sheet = [0; 6];
    let answer = evaluate(&prefix, &[10, 20], &[30, 40], &mut sheet);
    assert_eq!(answer, Ok([0, 0, 0]));
    let weight = product(10, difference(1, 30));
    let wanted = [1, 2, 3].map(|value| product(value, weight));
    assert_eq!(sheet[..3], wanted);
}

/// Coordinate 0 is paired with the lowest bit, on both axes.
#[test]
fn lowest_bit_first() {
    let body = [Sparse(3, 3), cell(1, 4, [1, 0, 0])];
    let weight = [
        10,
        difference(1, 11),
        difference(1, 12),
        difference(1, 13),
        difference(1, 14),
        15,
    ];
    let weight = weight.into_iter().fold(1, product);
    let answer = values(&key(3, 3, &body), &[10, 11, 12], &[13, 14, 15]);
    assert_eq!(answer, Ok([weight, 0, 0]));
}
