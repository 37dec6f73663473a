//! Points of two numbers a coordinate: products, the old answers, and every refusal about its edge.

use crate::independent::field::{elements, eq, Field, Quadratic};
use crate::independent::record::Record::{Recursive, Sparse};
use crate::independent::{CompareRefusal, Refusal};
use crate::written::{call, cell, key, refusal, sample, P};
use crate::written::{compare_quadratic as compare, evaluate_quadratic as evaluate};

/// The element -1 - i, whose two numbers are p - 1.
const GREATEST: Quadratic = [P - 1, P - 1];

/// The product of two elements as the weight of a cell: i·i is -1.
#[test]
fn products() {
    let one = key(1, 1, &[Sparse(1, 1), cell(1, 1, [1, 0, P - 1])]);
    for (row, column, product) in [
        ([0, 1], [0, 1], [P - 1, 0]),
        ([0, 1], [0, P - 1], [1, 0]),
        ([1, 1], [1, 1], [0, 2]),
        (GREATEST, GREATEST, [0, 2]),
        (GREATEST, [0, 1], [1, P - 1]),
        ([3, 4], [5, 6], [P - 9, 38]),
        ([P - 1, 0], GREATEST, [1, 1]),
    ] {
        let negative = [0, 0].minus(product);
        let wanted = Ok([product, [0, 0], negative]);
        assert_eq!(evaluate(&one, &row, &column, &mut [9; 6]), wanted);
        let both = [row, column].concat();
        let rows = key(2, 0, &[Sparse(2, 0), cell(3, 0, [1, 0, P - 1])]);
        assert_eq!(evaluate(&rows, &both, &[], &mut [9; 6]), wanted);
        let columns = key(0, 2, &[Sparse(0, 2), cell(0, 3, [1, 0, P - 1])]);
        assert_eq!(evaluate(&columns, &[], &both, &mut [9; 6]), wanted);
    }
}

/// Numbers p - 1 in both parts, on 30 bits a side and on fewer.
#[test]
fn greatest_numbers() {
    for bits in [30, 29, 26, 25, 11, 5, 4, 1] {
        for place in [0, (1u32 << bits) - 1, (1u32 << bits) / 3] {
            let body = [Sparse(bits, bits), cell(place, place, [P - 1, 1, 0])];
            let numbers = vec![P - 1; 2 * usize::from(bits)];
            let weight = eq::<Quadratic>(place, &elements(&numbers));
            let weight = weight.times(weight);
            let wanted = Ok([[0, 0].minus(weight), weight, [0, 0]]);
            let answer = evaluate(&key(bits, bits, &body), &numbers, &numbers, &mut [9; 6]);
            assert_eq!(answer, wanted, "{bits} bits, place {place}");
        }
    }
}

/// Points with every v zero give the old answers as u, with v zero, on every place of the sheet.
#[test]
fn old_points() {
    let sample = sample();
    let mut sheet = [1; 14];
    let answer = evaluate(&sample, &[3, 0], &[4, 0], &mut sheet);
    assert_eq!(answer, Ok([[2_147_483_567, 0], [2_147_483_535, 0], [0, 0]]));
    let wanted = [
        20,
        0,
        28,
        0,
        0,
        0,
        2_147_483_567,
        0,
        2_147_483_535,
        0,
        0,
        0,
        1,
        1,
    ];
    assert_eq!(sheet, wanted);
}

/// Refusals 21, 22 and 23, in this order: counts that differ by one number and by one coordinate, and the
/// index of a u or a v.
#[test]
fn points() {
    let two_by_three = key(2, 3, &[Sparse(2, 3), cell(0, 0, [1; 3])]);
    let mut sheet = [5; 7];
    let mut refused = |rows: &[u32], columns: &[u32], number, place| {
        for length in [7, 5] {
            let answer = evaluate(&two_by_three, rows, columns, &mut sheet[..length]);
            assert_eq!(answer, refusal(number, place));
            let (one, other) = (&two_by_three, &two_by_three);
            let answer = compare(one, other, rows, columns, &mut sheet[..length]);
            let refusal = Refusal { number, place };
            assert_eq!(answer, Err(CompareRefusal { key: 0, refusal }));
        }
        assert_eq!(sheet, [5; 7]);
    };
    for count in [0, 1, 2, 3, 5, 6, 8] {
        refused(&vec![P; count], &[P], 21, count as u64);
    }
    for count in [0, 1, 3, 4, 5, 7, 8, 12] {
        refused(&[P; 4], &vec![P; count], 22, count as u64);
    }
    for index in 0..10 {
        let mut numbers = [P - 1; 10];
        numbers[index..].fill(P);
        refused(&numbers[..4], &numbers[4..], 23, index as u64);
        numbers[index + 1..].fill(0);
        refused(&numbers[..4], &numbers[4..], 23, index as u64);
    }
}

/// Refusal 31: six places an array, for compare those of the key with more arrays.
#[test]
fn sheets() {
    let sample = sample();
    let short = key(1, 1, &[Sparse(1, 1)]);
    let point = (&[0, 1][..], &GREATEST[..]);
    for length in 0..16 {
        let mut sheet = vec![5; length];
        let answer = evaluate(&sample, point.0, point.1, &mut sheet);
        if length < 12 {
            assert_eq!(answer, refusal(31, 12));
            assert_eq!(sheet, vec![5; length]);
        } else {
            assert_eq!(answer, Ok([[P - 20, 0], [P - 28, 0], [0, 0]]));
            assert_eq!(sheet[12..], vec![5; length - 12]);
        }
        for [one, other] in [[&sample[..], &short], [&short, &sample]] {
            let mut sheet = vec![5; length];
            let answer = compare(one, other, point.0, point.1, &mut sheet);
            if length < 12 {
                let (number, place) = (31, 12);
                let refusal = Refusal { number, place };
                assert_eq!(answer, Err(CompareRefusal { key: 0, refusal }));
                assert_eq!(sheet, vec![5; length]);
            } else {
                assert_eq!(answer, Ok(false));
                assert_eq!(sheet[12..], vec![5; length - 12]);
            }
        }
    }
    let many = key(0, 0, &[Sparse(0, 0); 1_024]);
    let mut sheet = vec![5; 6_144];
    let answer = evaluate(&many, &[], &[], &mut sheet[..6_143]);
    assert_eq!(answer, refusal(31, 6_144));
    assert_eq!(evaluate(&many, &[], &[], &mut sheet), Ok([[0; 2]; 3]));
    assert_eq!(sheet, vec![0; 6_144]);
}

/// Keys that differ: 1 + r·s is 0 at r = s = i, and only v tells others apart.
#[test]
fn same_and_different() {
    let body = [
        Sparse(1, 1),
        cell(0, 0, [1, 0, 0]),
        cell(0, 1, [1, 0, 0]),
        cell(1, 0, [1, 0, 0]),
        cell(1, 1, [2, 0, 0]),
    ];
    let (one, none) = (key(1, 1, &body), key(1, 1, &[Recursive(1, 1)]));
    for (row, column, same) in [
        ([0, 1], [0, 1], true),
        ([0, P - 1], [0, P - 1], true),
        ([0, 1], [0, P - 1], false),
        ([1, 0], [P - 1, 0], true),
        ([0, 1], [0, 2], false),
    ] {
        for [one, other] in [[&one[..], &none], [&none, &one]] {
            assert_eq!(compare(one, other, &row, &column, &mut [9; 6]), Ok(same));
        }
    }
    let single = |value| key(1, 0, &[Sparse(1, 0), cell(1, 0, [0, value, 0])]);
    for (row, same) in [([0, 1], false), ([0, 0], true)] {
        let answer = compare(&single(1), &single(2), &row, &[], &mut [9; 6]);
        assert_eq!(answer, Ok(same));
    }
}

/// Compare's sheet: the second key's numbers, the first's beyond them, then as lent.
#[test]
fn sheet_of_compare() {
    let body = [
        Sparse(0, 0),
        cell(0, 0, [1, 2, 3]),
        Recursive(1, 0),
        call(0, 1, 0),
    ];
    let long = key(1, 0, &body);
    let short = key(1, 0, &[Sparse(1, 0), cell(1, 0, [7, 8, 9])]);
    let mut sheet = [11; 14];
    let answer = compare(&long, &short, &[5, 6], &[], &mut sheet);
    assert_eq!(answer, Ok(false));
    assert_eq!(
        sheet,
        [35, 42, 40, 48, 45, 54, 5, 6, 10, 12, 15, 18, 11, 11]
    );
    let mut sheet = [11; 12];
    let answer = compare(&short, &long, &[5, 6], &[], &mut sheet);
    assert_eq!(answer, Ok(false));
    assert_eq!(sheet, [1, 0, 2, 0, 3, 0, 5, 6, 10, 12, 15, 18]);
}
