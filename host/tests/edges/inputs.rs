//! Refusals 21 to 24 and 31: points, rows, columns and sheets.

use crate::independent::field::eq;
use crate::independent::record::Record::Sparse;
use crate::written::*;

/// Refusals 21, 22 and 23 of evaluate, in this order, with the count or the index as place.
#[test]
fn points() {
    let two_by_three = key(2, 3, &[Sparse(2, 3), cell(0, 0, [1; 3])]);
    let mut sheet = [5; 4];
    let mut refused = |rows: &[u32], columns: &[u32], number, place| {
        let answer = evaluate(&two_by_three, rows, columns, &mut sheet);
        assert_eq!(answer, refusal(number, place));
        let answer = evaluate(&two_by_three, rows, columns, &mut sheet[..2]);
        assert_eq!(answer, refusal(number, place));
        assert_eq!(sheet, [5; 4]);
    };
    refused(&[], &[], 21, 0);
    refused(&[P], &[P], 21, 1);
    refused(&[P; 3], &[0; 3], 21, 3);
    refused(&[P; 2], &[], 22, 0);
    refused(&[P; 2], &[P; 2], 22, 2);
    refused(&[0; 2], &[0; 4], 22, 4);
    refused(&[P, P], &[P, P, P], 23, 0);
    refused(&[0, P], &[P, P, P], 23, 1);
    refused(&[0, 0], &[P, P, P], 23, 2);
    refused(&[0, 0], &[0, u32::MAX, P], 23, 3);
    refused(&[0, 0], &[0, 0, P], 23, 4);
    refused(&[u32::MAX, 0], &[0, 0, 0], 23, 0);
    refused(&[0, 1 << 31], &[0, 0, 0], 23, 1);
    for coordinate in [0, 1, P - 1] {
        let (rows, columns) = ([coordinate; 2], [coordinate; 3]);
        let weight = eq(0, &[coordinate; 5]);
        assert_eq!(values(&two_by_three, &rows, &columns), Ok([weight; 3]));
    }
}

/// Refusal 31: a sheet of the needed length and of one less, for evaluate and cell.
#[test]
fn sheets() {
    let sample = sample();
    for length in 0..6 {
        let mut sheet = vec![5; length];
        let answer = evaluate(&sample, &[3], &[4], &mut sheet);
        assert_eq!(answer, refusal(31, 6));
        let answer = cell_of(&sample, 0, 0, &mut sheet);
        assert_eq!(answer, refusal(31, 6));
        assert_eq!(sheet, vec![5; length]);
    }
    for length in 6..12 {
        let mut sheet = vec![5; length];
        assert!(evaluate(&sample, &[3], &[4], &mut sheet).is_ok());
        assert_eq!(sheet[6..], vec![5; length - 6]);
        assert!(cell_of(&sample, 0, 0, &mut sheet).is_ok());
        assert_eq!(sheet[6..], vec![5; length - 6]);
    }
    let many = key(0, 0, &[Sparse(0, 0); 1_024]);
    let mut sheet = vec![5; 3_072];
    let answer = evaluate(&many, &[], &[], &mut sheet[..3_071]);
    assert_eq!(answer, refusal(31, 3_072));
    assert_eq!(evaluate(&many, &[], &[], &mut sheet), Ok([0; 3]));
    assert_eq!(sheet, vec![0; 3_072]);
}

/// Refusal 24: row and column at their limits, the row first, before 31.
#[test]
fn rows_and_columns_of_cell() {
    let body = [Sparse(2, 1), cell(3, 1, [4, 5, 6]), cell(0, 0, [7, 8, 9])];
    let small = key(2, 1, &body);
    assert_eq!(dense(&small, 3, 1), Ok([4, 5, 6]));
    assert_eq!(dense(&small, 0, 0), Ok([7, 8, 9]));
    assert_eq!(dense(&small, 3, 0), Ok([0, 0, 0]));
    let mut sheet = [5; 3];
    let mut refused = |row, column, number, place| {
        let answer = cell_of(&small, row, column, &mut sheet);
        assert_eq!(answer, refusal(number, place));
        let answer = cell_of(&small, row, column, &mut sheet[..2]);
        assert_eq!(answer, refusal(number, place));
        assert_eq!(sheet, [5; 3]);
    };
    refused(4, 0, 24, 0);
    refused(4, 2, 24, 0);
    refused(u32::MAX, u32::MAX, 24, 0);
    refused(1 << 31, 0, 24, 0);
    refused(3, 2, 24, 1);
    refused(0, u32::MAX, 24, 1);
    let single = key(0, 0, &[Sparse(0, 0), cell(0, 0, [4, 5, 6])]);
    assert_eq!(dense(&single, 0, 0), Ok([4, 5, 6]));
    assert_eq!(dense(&single, 1, 0), refusal(24, 0));
    assert_eq!(dense(&single, 0, 1), refusal(24, 1));
    let greatest = (1 << 30) - 1;
    let corner = cell(greatest, greatest, [4, 5, 6]);
    let wide = key(30, 30, &[Sparse(30, 30), corner]);
    assert_eq!(dense(&wide, greatest, greatest), Ok([4, 5, 6]));
    assert_eq!(dense(&wide, greatest - 1, greatest), Ok([0; 3]));
    assert_eq!(dense(&wide, 1 << 29, greatest), Ok([0; 3]));
    assert_eq!(dense(&wide, 1 << 30, greatest), refusal(24, 0));
    assert_eq!(dense(&wide, greatest, 1 << 30), refusal(24, 1));
}
