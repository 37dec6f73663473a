//! Edition 2: factors and their refusals, calls and heads of the other edition, and what factors give.

use crate::factors;
use crate::independent::field::product;
use crate::independent::record::bytes;
use crate::independent::record::Record::{self, End, Head, Recursive, ScaledHead, Sparse};
use crate::written::closed::*;
use crate::written::*;

/// An array of one place and one cell, and the opening of a recursive array of one row bit.
fn one_place() -> Vec<Record> {
    vec![Sparse(0, 0), cell(0, 0, VALUES), Recursive(1, 0)]
}

/// A key of edition 2 of one row bit with these calls of one place.
fn calling(calls: &[Record]) -> Vec<u8> {
    scaled_key(1, 0, &[&one_place()[..], calls].concat())
}

/// Factors 0, 1 and p - 1 pass; p, 2^31 and 2^32 - 1 give 8 at the call.
#[test]
fn factors_at_their_limits() {
    for factor in [0, 1, 2, P - 2, P - 1] {
        accepts(&calling(&[scaled_call(0, 1, 0, factor)]), 2, 1, 1);
    }
    for factor in [P, P + 1, 1 << 31, u32::MAX] {
        let wrong = scaled_call(0, 1, 0, factor);
        let good = scaled_call(0, 0, 0, P - 1);
        refuses(&calling(&[wrong]), 8, 30);
        refuses(&calling(&[good, good, wrong, wrong]), 8, 60);
    }
}

/// Of a call's faults the first counts: 4, 8, 9, 10, 11.
#[test]
fn factors_before_ids_sizes_and_positions() {
    let earlier = [Sparse(1, 0), Sparse(0, 1), Sparse(3, 2)];
    let with = |head: fn(u8, u8, &[Record]) -> Vec<u8>, opening, call| {
        let body = [&earlier[..], &[opening, call, Recursive(3, 2)]].concat();
        head(3, 2, &body)
    };
    for (id, row, column, number) in [
        (3, 0, 0, 9),
        (65_535, u32::MAX, u32::MAX, 9),
        (2, 0, 0, 10),
        (2, u32::MAX, u32::MAX, 10),
        (0, 4, 0, 11),
        (0, 0, u32::MAX, 11),
    ] {
        let good = scaled_call(id, row, column, P - 1);
        refuses(&with(scaled_key, Recursive(3, 1), good), number, 15);
        for factor in [P, u32::MAX] {
            let wrong = scaled_call(id, row, column, factor);
            refuses(&with(scaled_key, Recursive(3, 1), wrong), 8, 15);
            refuses(&with(scaled_key, Sparse(3, 1), wrong), 4, 15);
            refuses(&with(key, Recursive(3, 1), wrong), 4, 15);
            refuses(&with(key, Sparse(3, 1), wrong), 4, 15);
        }
    }
    accepts(
        &with(scaled_key, Recursive(3, 1), scaled_call(0, 3, 1, P - 1)),
        5,
        0,
        1,
    );
}

/// A call of the other edition gives 4, wherever it stands and whatever its fields are.
#[test]
fn calls_of_the_other_edition() {
    let own = scaled_call(0, 0, 0, 1);
    for other in [call(0, 0, 0), call(9, 9, 9)] {
        refuses(&calling(&[other]), 4, 30);
        refuses(&calling(&[own, other, own]), 4, 45);
    }
    let plain = |calls: &[Record]| key(1, 0, &[&one_place()[..], calls].concat());
    for factor in [0, 1, P - 1, P, u32::MAX] {
        let other = scaled_call(0, 0, 0, factor);
        refuses(&plain(&[other]), 4, 30);
        refuses(&plain(&[call(0, 0, 0), other, call(0, 0, 0)]), 4, 41);
    }
    for first in [Head(0, 0), ScaledHead(0, 0)] {
        refuses(&bytes(&[first, own]), 4, 3);
        refuses(&bytes(&[first, Sparse(0, 0), own]), 4, 6);
    }
    refuses(&bytes(&[own]), 4, 0);
}

/// A second head of either edition gives 4; the bits of a head of edition 2 are judged as those of the other.
#[test]
fn heads() {
    for first in [Head(1, 1), ScaledHead(1, 1)] {
        for second in [
            Head(1, 1),
            ScaledHead(1, 1),
            Head(31, 31),
            ScaledHead(31, 0),
        ] {
            refuses(&bytes(&[first, second]), 4, 3);
            refuses(&bytes(&[first, Sparse(1, 1), second, End]), 4, 6);
            refuses(&bytes(&[first, Recursive(1, 1), second, End]), 4, 6);
            refuses(&bytes(&[first, Sparse(1, 1), End, second]), 13, 7);
        }
    }
    for (rows, columns) in [(30, 0), (0, 30), (30, 30), (0, 0)] {
        accepts(
            &scaled_key(rows, columns, &[Sparse(rows, columns)]),
            1,
            0,
            0,
        );
    }
    for (rows, columns) in [(31, 0), (0, 31), (255, 255)] {
        refuses(&scaled_key(rows, columns, &[Sparse(rows, columns)]), 5, 0);
    }
    refuses(&[7], 2, 0);
    refuses(&[7, 0], 2, 0);
    refuses(&[7, 0, 0], 2, 3);
    refuses(&bytes(&[ScaledHead(0, 0), End]), 4, 3);
    refuses(&scaled_key(1, 1, &[Sparse(1, 0)]), 12, 6);
}

/// A call that is cut off gives 2 in either edition, before 4 and 8, at each of its lengths.
#[test]
fn calls_cut_off() {
    for first in [Head(1, 0), ScaledHead(1, 0)] {
        let front = bytes(&[&[first], &one_place()[..]].concat());
        let sparse = bytes(&[first, Sparse(1, 0)]);
        for (before, place) in [(&front[..], 30), (&sparse, 6), (&[], 0)] {
            for cut in [scaled_call(0, 0, 0, u32::MAX), call(0, 0, 0)] {
                let record = bytes(&[cut]);
                for length in 1..record.len() {
                    refuses(&[before, &record[..length]].concat(), 2, place);
                }
            }
        }
    }
}

/// The factor multiplies the called values, and the weight of the position.
#[test]
fn factors_multiply() {
    for factor in [0, 1, 2, 1 << 30, P - 2, P - 1] {
        for (row, weight) in [(0, P - 2), (1, 3)] {
            let one = calling(&[scaled_call(0, row, 0, factor)]);
            let mut sheet = [9; 7];
            let wanted = times(times(VALUES, factor), weight);
            assert_eq!(evaluate(&one, &[3], &[], &mut sheet), Ok(wanted));
            assert_eq!(sheet[..3], VALUES);
            assert_eq!(sheet[3..6], wanted);
            assert_eq!(sheet[6], 9);
            assert_eq!(dense(&one, row, 0), Ok(times(VALUES, factor)));
            assert_eq!(dense(&one, 1 - row, 0), Ok([0; 3]));
            let over_p_squared = evaluate_quadratic(&one, &[0, 1], &[], &mut [9; 12]);
            let [u, v] = if row == 1 { [0, 1] } else { [1, P - 1] };
            let scaled = times(VALUES, factor);
            let wanted = scaled.map(|value| [product(value, u), product(value, v)]);
            assert_eq!(over_p_squared, Ok(wanted));
        }
    }
}

/// The sample in edition 2, with two calls of factor 1 and with one of factor 2.
#[test]
fn sample_in_edition_two() {
    let front = [Sparse(0, 1), cell(0, 1, [5, 7, 0]), Recursive(1, 1)];
    let one = scaled_call(0, 0, 0, 1);
    for calls in [&[one, one][..], &[scaled_call(0, 0, 0, 2)]] {
        let scaled = scaled_key(1, 1, &[&front[..], calls].concat());
        let mut sheet = [1; 7];
        let answer = evaluate(&scaled, &[3], &[4], &mut sheet);
        assert_eq!(answer, Ok([2_147_483_567, 2_147_483_535, 0]));
        assert_eq!(sheet, [20, 28, 0, 2_147_483_567, 2_147_483_535, 0, 1]);
        assert_eq!(dense(&scaled, 0, 1), Ok([10, 14, 0]));
        for keys in [[&scaled[..], &sample()], [&sample(), &scaled]] {
            let answer = compare(keys[0], keys[1], &[3], &[4], &mut sheet);
            assert_eq!(answer, Ok(true));
        }
    }
}

/// A call and the same call with factor p - 1 cancel, everywhere.
#[test]
fn calls_that_cancel() {
    let part = [
        Sparse(1, 1),
        cell(0, 1, VALUES),
        cell(1, 1, [P - 1, 1, 2]),
        Recursive(2, 1),
    ];
    let none = key(2, 1, &[Sparse(2, 1)]);
    for factor in [1, 5, P - 1] {
        let calls = [
            scaled_call(0, 1, 0, factor),
            scaled_call(0, 1, 0, P - factor),
        ];
        let zero = scaled_key(2, 1, &[&part[..], &calls].concat());
        for row in 0..4 {
            for column in 0..2 {
                assert_eq!(dense(&zero, row, column), Ok([0; 3]));
            }
        }
        for point in [[3, 4, 5], [P - 1, 0, 1], [1 << 30, P - 2, 7]] {
            let (rows, columns) = (&point[..2], &point[2..]);
            assert_eq!(values(&zero, rows, columns), Ok([0; 3]));
            let answer = compare(&zero, &none, rows, columns, &mut [9; 6]);
            assert_eq!(answer, Ok(true));
        }
        let other = scaled_key(2, 1, &[&part[..], &calls[..1]].concat());
        let answer = compare(&zero, &other, &[3, 4], &[5], &mut [9; 6]);
        assert_eq!(answer, Ok(false));
    }
}

/// Sums of many products of values, factors and weights, each p - 1: (-1)·(-1)·(-1), so often.
#[test]
fn sums_of_the_greatest() {
    for count in [1, 2, 5, 17, 4_000] {
        let mut body = vec![Sparse(0, 0), cell(0, 0, [P - 1; 3]), Recursive(1, 0)];
        body.extend(vec![scaled_call(0, 1, 0, P - 1); count]);
        let many = scaled_key(1, 0, &body);
        accepts(&many, 2, 1, count as u32);
        assert_eq!(values(&many, &[P - 1], &[]), Ok([P - count as u32; 3]));
        assert_eq!(dense(&many, 1, 0), Ok([count as u32; 3]));
    }
}

/// A key of 65,536 bytes of calls with factors, and a tower whose factors multiply through a thousand levels.
#[test]
fn full_of_factors() {
    let mut body = vec![Sparse(0, 0), cell(0, 0, VALUES), Recursive(30, 30)];
    let greatest = (1 << 30) - 1;
    body.extend(vec![scaled_call(0, greatest, greatest, P - 1); 4_366]);
    body.splice(0..0, [Sparse(0, 0); 5]);
    for record in &mut body {
        if let Record::ScaledCall(call, _) = record {
            call.id = 5;
        }
    }
    let full = scaled_key(30, 30, &body);
    assert_eq!(full.len(), 65_536);
    accepts(&full, 7, 1, 4_366);
    factors::hold(&full, 4_366 * (30 + 30));
    let wanted = times(VALUES, P - 4_366);
    assert_eq!(dense(&full, greatest, greatest), Ok(wanted));
    let (rows, columns) = (vec![P - 1; 30], vec![P - 2; 30]);
    let weighed = times(wanted, power_of_two(30));
    assert_eq!(values(&full, &rows, &columns), Ok(weighed));

    let mut body = vec![Sparse(0, 0), cell(0, 0, VALUES)];
    for level in 0..1_023 {
        body.extend([Recursive(0, 0), scaled_call(level, 0, 0, 2)]);
    }
    let tower = scaled_key(0, 0, &body);
    accepts(&tower, 1_024, 1, 1_023);
    factors::hold(&tower, 0);
    let doubled = times(VALUES, power_of_two(1_023));
    assert_eq!(values(&tower, &[], &[]), Ok(doubled));
}

/// Compare takes one key of each edition: one call of factor k is k calls, and another factor is told apart.
#[test]
fn one_of_each_edition() {
    for count in [0, 1, 3, 100] {
        let plain = [one_place(), vec![call(0, 1, 0); count as usize]].concat();
        let plain = key(1, 0, &plain);
        for (factor, same) in [(count, true), (count + 1, false), (P - 1, false)] {
            let scaled = calling(&[scaled_call(0, 1, 0, factor)]);
            for keys in [[&plain[..], &scaled], [&scaled, &plain]] {
                let answer = compare(keys[0], keys[1], &[3], &[], &mut [9; 6]);
                assert_eq!(answer, Ok(same));
                let answer = compare_quadratic(keys[0], keys[1], &[3, 5], &[], &mut [9; 12]);
                assert_eq!(answer, Ok(same));
            }
            // At row 0 the call weighs 0, so that keys that differ are found the same there.
            let answer = compare(&plain, &scaled, &[0], &[], &mut [9; 6]);
            assert_eq!(answer, Ok(true));
        }
    }
}
