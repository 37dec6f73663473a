//! Compare: its answers, its sheet and its refusals.

use crate::independent::record::Record::{Recursive, Sparse};
use crate::independent::{CompareRefusal, Refusal};
use crate::written::*;

/// Compare's answers: every part counts, and the bytes of the keys do not.
#[test]
fn same_and_different() {
    let one = |values| key(1, 1, &[Sparse(1, 1), cell(1, 0, values)]);
    let first = one([4, 5, 6]);
    let mut sheet = [0; 9];
    let mut same = |second: &[u8]| {
        let there = compare(&first, second, &[3], &[4], &mut sheet).unwrap();
        let back = compare(second, &first, &[3], &[4], &mut sheet).unwrap();
        assert_eq!(there, back);
        there
    };
    assert!(same(&first));
    for other in [[3, 5, 6], [4, 4, 6], [4, 5, 5], [4, 6, 5], [5, 4, 6]] {
        assert!(!same(&one(other)));
    }
    let halves = [
        Sparse(1, 1),
        cell(1, 0, [P - 1, 2, 3]),
        cell(1, 0, [5, 3, 3]),
    ];
    assert!(same(&key(1, 1, &halves)));
    let called = [
        Sparse(0, 0),
        cell(0, 0, [4, 5, 6]),
        Sparse(1, 1),
        Recursive(1, 1),
        call(0, 1, 0),
    ];
    assert!(same(&key(1, 1, &called)));
    let single = |a| key(0, 0, &[Sparse(0, 0), cell(0, 0, [a, 5, 6])]);
    for a in [4 + (1 << 8), 4 + (1 << 16), 4 + (1 << 30)] {
        let answer = compare(&single(4), &single(a), &[], &[], &mut sheet);
        assert_eq!(answer, Ok(false));
    }
    // At row 0 both cells weigh 0, so keys that differ are found the same there.
    let point = (&[0][..], &[4][..]);
    let answer = compare(&first, &one([1; 3]), point.0, point.1, &mut sheet);
    assert_eq!(answer, Ok(true));
}

/// Compare's sheet: the second key's triples, the first's beyond them, then as lent.
#[test]
fn sheet_of_compare() {
    let long = key(
        0,
        0,
        &[
            Sparse(0, 0),
            cell(0, 0, [1, 2, 3]),
            Recursive(0, 0),
            call(0, 0, 0),
            Sparse(0, 0),
            cell(0, 0, [4, 5, 6]),
        ],
    );
    let short = key(0, 0, &[Sparse(0, 0), cell(0, 0, [7, 8, 9])]);
    let mut sheet = [11; 11];
    let answer = compare(&long, &short, &[], &[], &mut sheet);
    assert_eq!(answer, Ok(false));
    assert_eq!(sheet, [7, 8, 9, 1, 2, 3, 4, 5, 6, 11, 11]);
    let mut sheet = [11; 9];
    let answer = compare(&short, &long, &[], &[], &mut sheet);
    assert_eq!(answer, Ok(false));
    assert_eq!(sheet, [1, 2, 3, 1, 2, 3, 4, 5, 6]);
    let mut sheet = [11; 8];
    for (first, second) in [(&long, &short), (&short, &long)] {
        let answer = compare(first, second, &[], &[], &mut sheet);
        assert_eq!(answer, neither(31, 9));
    }
    assert_eq!(sheet, [11; 8]);
}

/// Compare's refusals: the first key, the second, 21, 22, 23, 31.
#[test]
fn refusals_of_compare() {
    let wide = key(1, 2, &[Sparse(1, 2)]);
    let tall = key(2, 1, &[Sparse(2, 1)]);
    let mut sheet = [11; 2];
    let bad = [1, 31, 0];
    let other = [6];
    let of = |key, number, place| {
        Err(CompareRefusal {
            key,
            refusal: Refusal { number, place },
        })
    };
    let mut held = |first: &[u8], second: &[u8], rows: &[u32], columns: &[u32], wanted| {
        let answer = compare(first, second, rows, columns, &mut sheet);
        assert_eq!(answer, wanted);
        assert_eq!(sheet, [11; 2]);
    };
    held(&bad, &other, &[], &[], of(1, 5, 0));
    held(&other, &bad, &[], &[], of(1, 4, 0));
    held(&wide, &bad, &[], &[], of(2, 5, 0));
    held(&wide, &[], &[], &[], of(2, 2, 0));
    held(&[], &[], &[], &[], of(1, 2, 0));
    held(&wide, &tall, &[P], &[P], of(0, 21, 1));
    held(&tall, &wide, &[P, P], &[P], of(0, 22, 1));
    let wider = key(1, 3, &[Sparse(1, 3)]);
    held(&wide, &wider, &[P], &[P, P], of(0, 22, 2));
    let taller = key(2, 2, &[Sparse(2, 2)]);
    held(&wide, &taller, &[P], &[P, P], of(0, 21, 1));
    held(&wide, &wide, &[P, P], &[P], of(0, 21, 2));
    held(&wide, &wide, &[P], &[P], of(0, 22, 1));
    held(&wide, &wide, &[P], &[P, P], of(0, 23, 0));
    held(&wide, &wide, &[P - 1], &[0, P], of(0, 23, 2));
    held(&wide, &wide, &[P - 1], &[0, P - 1], of(0, 31, 3));
}
