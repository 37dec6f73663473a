//! Sheets, refusals and counts of factors where keys of two shapes are compared.

use crate::archive;
use crate::generator::random::Random;
use crate::grown::{drawn, larger, sample_in, small_keys, SHEET};
use crate::independent::field::{with_zeros, Fp};
use crate::independent::record::Record::{Recursive, Sparse};
use crate::independent::{CompareRefusal, Compared, Refusal};
use crate::written::*;

/// The sheet: every key's own numbers at its own coordinates, not multiplied, the second's over the first's.
#[test]
fn sheets() {
    // Array 0 has one place, array 1 two rows; in the smaller key all are of one place.
    let long = key(
        1,
        0,
        &[
            Sparse(0, 0),
            cell(0, 0, [1, 2, 3]),
            Recursive(1, 0),
            call(0, 1, 0),
        ],
    );
    let short = key(0, 0, &[Sparse(0, 0), cell(0, 0, [7, 8, 9])]);
    for ([first, second], wanted) in [
        ([&long, &short], [7, 8, 9, 5, 10, 15, 11, 11]),
        ([&short, &long], [1, 2, 3, 5, 10, 15, 11, 11]),
    ] {
        let mut sheet = [11; 8];
        let answer = compare(first, second, &[5], &[], &mut sheet);
        assert_eq!(answer, Ok(false));
        assert_eq!(sheet, wanted);
        let mut sheet = [11; 14];
        let answer = compare_quadratic(first, second, &[5, 6], &[], &mut sheet);
        assert_eq!(answer, Ok(false));
        assert_eq!(sheet[..2], [wanted[0], 0]);
        assert_eq!(sheet[6..], [5, 6, 10, 12, 15, 18, 11, 11]);
        for length in 0..6 {
            let mut sheet = vec![11; length];
            assert_eq!(
                compare(first, second, &[5], &[], &mut sheet),
                neither(31, 6)
            );
            assert_eq!(sheet, vec![11; length]);
        }
        for length in 0..12 {
            let mut sheet = vec![11; length];
            let answer = compare_quadratic(first, second, &[5, 6], &[], &mut sheet);
            assert_eq!(answer, neither(31, 12));
            assert_eq!(sheet, vec![11; length]);
        }
    }
    // The key with more arrays may be the smaller.
    let many = key(0, 0, &[Sparse(0, 0); 1_024]);
    let wide = key(30, 30, &[Sparse(30, 30)]);
    let point = vec![2; 30];
    for [first, second] in [[&many, &wide], [&wide, &many]] {
        let mut sheet = vec![11; 3_073];
        let answer = compare(first, second, &point, &point, &mut sheet[..3_071]);
        assert_eq!(answer, neither(31, 3_072));
        let answer = compare(first, second, &point, &point, &mut sheet);
        assert_eq!(answer, Ok(true));
        assert_eq!(sheet[3_072], 11);
        assert!(sheet[..3_072].iter().all(|&number| number == 0));
    }
}

/// A sheet ends as if the first key, at its own coordinates, and then the second, at its own, had been evaluated on it.
#[test]
fn sheets_as_after_two_evaluations() {
    let mut random = Random::of_case(20, 0);
    let keys = small_keys();
    for one in &keys {
        for other in &keys {
            let [rows, columns] = larger(one, other).map(|bits| drawn::<Fp>(&mut random, bits));
            let mut wanted = [11; 7];
            for key in [one, other] {
                let (rows, columns) = (&rows[..key[1].into()], &columns[..key[2].into()]);
                evaluate(key, rows, columns, &mut wanted).expect("the point fits");
            }
            let mut sheet = [11; 7];
            compare(one, other, &rows, &columns, &mut sheet).expect("the point fits");
            assert_eq!(sheet, wanted);
        }
    }
}

/// Refusals 21, 22 and 23 by the larger bits, in this order and before 31: one key larger in rows and the other in columns.
#[test]
fn points() {
    let tall = key(3, 1, &[Sparse(3, 1)]);
    let wide = key(2, 2, &[Sparse(2, 2)]);
    for keys in [[&tall[..], &wide], [&wide, &tall]] {
        let refused = |rows: &[u32], columns: &[u32], number, place| {
            let mut sheet = [5; 2];
            let answer = compare(keys[0], keys[1], rows, columns, &mut sheet);
            assert_eq!(answer, neither(number, place));
            assert_eq!(sheet, [5; 2]);
        };
        for count in [0, 1, 2, 4, 30, 31] {
            refused(&vec![P; count], &[P], 21, count as u64);
        }
        for count in [0, 1, 3, 30] {
            refused(&[P; 3], &vec![P; count], 22, count as u64);
        }
        for index in 0..5 {
            let mut numbers = [P - 1; 5];
            numbers[index..].fill(P);
            refused(&numbers[..3], &numbers[3..], 23, index as u64);
        }
        refused(&[P - 1; 3], &[P - 1; 2], 31, 3);
        let answer = compare(keys[0], keys[1], &[P - 1; 3], &[P - 1; 2], &mut [5; 3]);
        assert_eq!(answer, Ok(true));

        let refused = |rows: &[u32], columns: &[u32], number, place| {
            let mut sheet = [5; 5];
            let answer = compare_quadratic(keys[0], keys[1], rows, columns, &mut sheet);
            assert_eq!(answer, neither(number, place));
            assert_eq!(sheet, [5; 5]);
        };
        for count in [0, 1, 3, 4, 5, 7, 8, 60] {
            refused(&vec![P; count], &[P], 21, count as u64);
        }
        for count in [0, 1, 2, 3, 5, 6] {
            refused(&[P; 6], &vec![P; count], 22, count as u64);
        }
        for index in 0..10 {
            let mut numbers = [P - 1; 10];
            numbers[index..].fill(P);
            refused(&numbers[..6], &numbers[6..], 23, index as u64);
        }
        refused(&[P - 1; 6], &[P - 1; 4], 31, 6);
        let answer = compare_quadratic(keys[0], keys[1], &[P - 1; 6], &[P - 1; 4], &mut [5; 6]);
        assert_eq!(answer, Ok(true));
    }
}

/// The keys' own refusals come before those of the point, whatever the shapes are.
#[test]
fn keys_before_points() {
    let tall = key(3, 0, &[Sparse(3, 0)]);
    let bad = [1, 31, 0];
    let named = |key, number, place| {
        let refusal = Refusal { number, place };
        Err(CompareRefusal { key, refusal })
    };
    for (keys, wanted) in [
        ([&bad[..], &tall], named(1, 5, 0)),
        ([&tall, &bad], named(2, 5, 0)),
        ([&bad, &[]], named(1, 5, 0)),
        ([&[], &bad], named(1, 2, 0)),
    ] {
        assert_eq!(compare(keys[0], keys[1], &[P], &[], &mut []), wanted);
        assert_eq!(
            compare_quadratic(keys[0], keys[1], &[P], &[], &mut []),
            wanted
        );
    }
}

/// Points with every v zero give the answers over p.
#[test]
fn old_points() {
    let mut random = Random::of_case(21, 0);
    let keys = small_keys();
    let others = [
        sample_in(2, 3, 0, 0),
        sample_in(2, 3, 1, 1),
        sample_in(3, 1, 0, 0),
    ];
    for one in keys.iter().chain(&others) {
        for other in &others {
            let [rows, columns] = larger(one, other).map(|bits| drawn::<Fp>(&mut random, bits));
            let wanted = archive::compare(one, other, &rows, &columns, &mut [9; SHEET]);
            let [rows, columns] = [rows, columns].map(|side| with_zeros(&side));
            let answer = archive::compare_quadratic(one, other, &rows, &columns, &mut [9; SHEET]);
            assert_eq!(answer, wanted);
        }
    }
}

/// What compare over either field answers, in either order.
fn hold_count(one: &[u8], other: &[u8], same: bool, factors: u64) {
    let wanted = Ok(Compared { same, factors });
    for [first, second] in [[one, other], [other, one]] {
        let [rows, columns] = larger(first, second).map(|bits| vec![3; bits as usize]);
        let answer = archive::compare(first, second, &rows, &columns, &mut [9; SHEET]);
        assert_eq!(answer, wanted);
        let [rows, columns] = [rows, columns].map(|side| with_zeros(&side));
        let answer = archive::compare_quadratic(first, second, &rows, &columns, &mut [9; SHEET]);
        assert_eq!(answer, wanted);
    }
}

/// The count of factors: both keys' sums, and one for each coordinate that a key does not use, whether they are the same
/// or different; a coordinate over p² counts once.
#[test]
fn factors() {
    let empty = |rows, columns| key(rows, columns, &[Sparse(rows, columns)]);
    for (one, other, unused) in [
        ((0, 0), (0, 0), 0),
        ((1, 0), (0, 0), 1),
        ((3, 2), (3, 5), 3),
        ((3, 2), (1, 5), 2 + 3),
        ((4, 1), (2, 0), 2 + 1),
        ((0, 0), (30, 30), 60),
        ((30, 0), (0, 30), 60),
    ] {
        hold_count(&empty(one.0, one.1), &empty(other.0, other.1), true, unused);
    }
    // The sample counts 3, and in a larger array as many and the new bits once more.
    for (rows, columns, more) in [(2, 1, 1), (1, 2, 1), (2, 2, 2), (30, 30, 58)] {
        let grown = sample_in(rows, columns, 0, 0);
        hold_count(&sample(), &grown, true, 3 + more + 3 + more);
        let moved = sample_in(rows, columns, u32::from(rows > 1), u32::from(columns > 1));
        hold_count(&sample(), &moved, false, 3 + more + 3 + more);
    }
    let other = key(0, 2, &[Sparse(0, 2), cell(0, 3, [1, 0, 0])]);
    hold_count(&sample(), &other, false, 3 + 1 + 2 + 1);
}

/// The limit (N + N')·(cells + calls of both) + 2·(N + N'). Both keys together leave at most N + N' coordinates unused, so
/// that only keys without bits meet it; keys whose records weigh all bits, and that leave so many, come next.
#[test]
fn limit() {
    let limit = |one: &[u8], other: &[u8]| {
        let counts = [one, other].map(|key| check(key).expect("the key is accepted"));
        counts[0].limit_with(&counts[1])
    };
    let none = key(0, 0, &[Sparse(0, 0)]);
    hold_count(&none, &none, true, 0);
    assert_eq!(limit(&none, &none), 0);
    for (rows, columns) in [(1, 0), (0, 1), (5, 6), (30, 30)] {
        let m = u64::from(rows + columns);
        for cells in [0, 1, 40, 3_000] {
            let body = [vec![Sparse(rows, columns)], vec![cell(0, 0, [0; 3]); cells]].concat();
            let full = key(rows, columns, &body);
            hold_count(&full, &none, true, m * cells as u64 + m);
            assert_eq!(limit(&full, &none), m * cells as u64 + 2 * m);
            hold_count(&full, &full, true, 2 * m * cells as u64);
            assert_eq!(limit(&full, &full), 2 * m * cells as u64 + 2 * m);
        }
    }
    // One key fills the rows and the other the columns: each does not use what the other has.
    let rows = key(30, 0, &[Sparse(30, 0), cell(0, 0, [0; 3])]);
    let columns = key(0, 30, &[Sparse(0, 30), cell(0, 0, [0; 3])]);
    hold_count(&rows, &columns, true, 30 + 30 + 30 + 30);
    assert_eq!(limit(&rows, &columns), 60 * 2 + 2 * 60);
}
