//! Shorter: which of two keys it hands back, where that begins in memory, its sheet and what it hands back of nothing.

use std::ptr;

use crate::generator::random::Random;
use crate::grown::{drawn, larger, sample_in, small_keys, SHEET};
use crate::independent;
use crate::independent::field::Fp;
use crate::independent::record::Record::{self, Recursive, Sparse};
use crate::independent::Handed;
use crate::written::*;

/// The first of two keys, whole.
fn first_of(key: &[u8]) -> Handed {
    let (key, length) = (1, key.len());
    Handed { key, length }
}

/// The second of two keys, whole.
fn second_of(key: &[u8]) -> Handed {
    let (key, length) = (2, key.len());
    Handed { key, length }
}

/// Asserts what shorter hands back of two keys at a point.
fn hold(first: &[u8], second: &[u8], rows: &[u32], columns: &[u32], wanted: Handed) {
    let handed = shorter(first, second, rows, columns, &mut [9; SHEET]);
    assert_eq!(handed, wanted, "at {rows:?} {columns:?}");
}

/// Asserts that of two keys, which are the same, this one is handed back, wherever it stands.
fn hold_less(less: &[u8], more: &[u8], rows: &[u32], columns: &[u32]) {
    assert!(less.len() < more.len());
    hold(less, more, rows, columns, first_of(less));
    hold(more, less, rows, columns, second_of(less));
}

/// Asserts that of two keys of one length, which are the same, the first is handed back.
fn hold_tie(one: &[u8], other: &[u8], rows: &[u32], columns: &[u32]) {
    assert_eq!(one.len(), other.len());
    hold(one, other, rows, columns, first_of(one));
    hold(other, one, rows, columns, first_of(other));
}

/// A key without bits with these cells at its one place.
fn single(cells: &[[u32; 3]]) -> Vec<u8> {
    let cells = cells.iter().map(|&values| cell(0, 0, values));
    let body: Vec<Record> = [Sparse(0, 0)].into_iter().chain(cells).collect();
    key(0, 0, &body)
}

/// A key in the other edition.
fn in_other_edition(key: &[u8]) -> Vec<u8> {
    let mut buffer = vec![0; 65_536];
    let length = moved(key, &mut buffer).expect("it is moved");
    buffer.truncate(length);
    buffer
}

/// Keys of one length: the first, be its bytes the second's or others.
#[test]
fn one_length() {
    let sample = sample();
    hold_tie(&sample, &sample.clone(), &[3], &[4]);
    let halves = single(&[[1, 2, 3], [4, 5, 6]]);
    hold_tie(&halves, &single(&[[4, 5, 6], [1, 2, 3]]), &[], &[]);
    hold_tie(&halves, &single(&[[P - 1, 7, 0], [6, 0, 9]]), &[], &[]);
    // The same calls in another order.
    let calling = |row: u32| {
        let calls = [call(0, row, 0), call(0, 1 - row, 0)];
        let body = [Sparse(0, 0), cell(0, 0, [5; 3]), Recursive(1, 0)];
        key(1, 0, &[&body[..], &calls].concat())
    };
    hold_tie(&calling(0), &calling(1), &[7], &[]);
    // Without calls a key has one length in both editions.
    hold_tie(&halves, &in_other_edition(&halves), &[], &[]);
}

/// Keys of two lengths: the shorter, wherever it stands.
#[test]
fn two_lengths() {
    let sum = single(&[[5, 7, 9]]);
    hold_less(&sum, &single(&[[1, 2, 3], [4, 5, 6]]), &[], &[]);
    let unused = key(0, 0, &[Sparse(0, 0), Sparse(0, 0), cell(0, 0, [5, 7, 9])]);
    assert_eq!(unused.len(), sum.len() + 3);
    hold_less(&sum, &unused, &[], &[]);
    let flat = key(1, 1, &[Sparse(1, 1), cell(0, 1, [10, 14, 0])]);
    hold_less(&flat, &sample(), &[3], &[4]);
    hold_less(&flat, &sample(), &[0], &[P - 1]);
}

/// One byte less: two cells in two arrays, and one cell called twice.
#[test]
fn one_byte() {
    let called = [Sparse(0, 0), cell(0, 0, [1, 2, 3]), Recursive(0, 0)];
    let calls = [call(0, 0, 0), call(0, 0, 0)];
    let calling = key(0, 0, &[&called[..], &calls].concat());
    let cells = [cell(0, 0, [1, 2, 3]); 2];
    let celled = key(0, 0, &[&[Sparse(0, 0); 2][..], &cells].concat());
    assert_eq!(calling.len(), celled.len() + 1);
    hold_less(&celled, &calling, &[], &[]);
    hold_less(
        &[1, 0, 0, 2, 0, 0, 6],
        &[1, 0, 0, 2, 0, 0, 2, 0, 0, 6],
        &[],
        &[],
    );
}

/// The same circuit in two editions: the one of edition 1 where it has calls.
#[test]
fn both_editions() {
    let copy = in_other_edition(&sample());
    assert_eq!((sample().len(), copy.len()), (53, 61));
    hold_less(&sample(), &copy, &[3], &[4]);
    // In edition 2 a factor has a call stand for two.
    let once = |call: Record| {
        scaled_key(
            1,
            1,
            &[Sparse(0, 1), cell(0, 1, [5, 7, 0]), Recursive(1, 1), call],
        )
    };
    let doubled = once(scaled_call(0, 0, 0, 2));
    assert_eq!(doubled.len(), 46);
    hold_less(&doubled, &sample(), &[3], &[4]);
    hold_less(&doubled, &copy, &[3], &[4]);
    hold(
        &doubled,
        &once(scaled_call(0, 0, 0, 3)),
        &[3],
        &[4],
        NOTHING,
    );
    hold(
        &sample(),
        &once(scaled_call(0, 0, 0, 3)),
        &[3],
        &[4],
        NOTHING,
    );
}

/// Keys of two shapes, in both editions: the length counts, not the shape.
#[test]
fn unequal_shapes() {
    let mut random = Random::of_case(51, 0);
    for (rows, columns) in [(2, 1), (1, 3), (4, 5), (30, 30)] {
        let grown = sample_in(rows, columns, 0, 0);
        let [rows, columns] = [rows, columns].map(|bits| drawn::<Fp>(&mut random, bits.into()));
        for small in [sample(), in_other_edition(&sample())] {
            hold_less(&small, &grown, &rows, &columns);
        }
    }
    let cells = |rows, columns| key(rows, columns, &[Sparse(rows, columns), cell(0, 0, [4; 3])]);
    hold_tie(&cells(0, 0), &cells(30, 30), &[2; 30], &[3; 30]);
    hold_tie(&cells(2, 0), &cells(0, 2), &[2; 2], &[3; 2]);
    let more = key(1, 1, &[Sparse(0, 0), Sparse(1, 1), cell(0, 0, [4; 3])]);
    hold_less(&cells(30, 30), &more, &[2; 30], &[3; 30]);
    // In its second row the large key has another cell.
    let far = key(1, 0, &[Sparse(1, 0), cell(1, 0, [4; 3])]);
    hold(&cells(0, 0), &far, &[3], &[], NOTHING);
    hold(&far, &cells(0, 0), &[3], &[], NOTHING);
}

/// Different keys: nothing, whichever is shorter, and the sheet of the comparison.
#[test]
fn different() {
    let single = single(&[[1, 2, 3]]);
    let mut other = sample();
    other[15] = 6;
    for (one, two) in [(&sample(), &other), (&sample(), &single), (&other, &single)] {
        hold(one, two, &[3], &[4], NOTHING);
        hold(two, one, &[3], &[4], NOTHING);
    }
    for part in 0..3 {
        let mut values = [1, 2, 3];
        values[part] = P - 1;
        let changed = key(0, 0, &[Sparse(0, 0), cell(0, 0, values)]);
        hold(&single, &changed, &[], &[], NOTHING);
    }
}

/// What compare says at the point counts: keys that differ are the same where their cells weigh nothing.
#[test]
fn the_same_at_a_point_alone() {
    let low = key(1, 0, &[Sparse(1, 0), cell(1, 0, [5; 3])]);
    let none = key(1, 0, &[Sparse(1, 0)]);
    hold_less(&none, &low, &[0], &[]);
    hold(&none, &low, &[1], &[], NOTHING);
    hold(&low, &none, &[P - 1], &[], NOTHING);
}

/// Keys of as many bytes as a key may have, and one byte more.
#[test]
fn full_size() {
    let body = |values: &[[u32; 3]], count: usize| {
        let mut body = vec![Sparse(0, 0); 4];
        body.extend(values.iter().map(|&values| cell(0, 0, values)));
        body.extend(vec![cell(0, 0, [1, 0, 2]); count]);
        key(0, 0, &body)
    };
    let full = body(&[], 3_120);
    let (other, less) = (body(&[[0; 3], [2, 0, 4]], 3_118), body(&[[2, 0, 4]], 3_118));
    assert_eq!(
        (full.len(), other.len(), less.len()),
        (65_536, 65_536, 65_515)
    );
    hold_tie(&full, &other, &[], &[]);
    hold_less(&less, &full, &[], &[]);
    hold_less(&single(&[[3_120, 0, 6_240]]), &full, &[], &[]);
    hold(&full, &body(&[], 3_119), &[], &[], NOTHING);
    let over = [&full[..], &[0]].concat();
    for (one, two) in [(&over, &full), (&full, &over), (&over, &over)] {
        hold(one, two, &[], &[], NOTHING);
    }
    // 5,952 calls of edition 1, and the same circuit by one call of edition 2.
    let calling = |calls: Vec<Record>| {
        let openings = [
            vec![Sparse(0, 0), cell(0, 0, [1, 2, 3])],
            vec![Sparse(0, 0); 11],
        ];
        [openings.concat(), vec![Recursive(30, 30)], calls].concat()
    };
    let calls = key(30, 30, &calling(vec![call(0, 5, 7); 5_952]));
    let scaled = scaled_key(30, 30, &calling(vec![scaled_call(0, 5, 7, 5_952)]));
    assert_eq!(calls.len(), 65_536);
    hold_less(&scaled, &calls, &[3; 30], &[4; 30]);
}

/// The sheet: the first key's triples, then the second's over them, then as lent, also of keys that are different.
#[test]
fn sheet_of_shorter() {
    let long = |last| {
        let body = [
            Sparse(0, 0),
            cell(0, 0, [1, 2, 3]),
            Recursive(0, 0),
            call(0, 0, 0),
        ];
        key(
            0,
            0,
            &[&body[..], &[Sparse(0, 0), cell(0, 0, last)]].concat(),
        )
    };
    let short = single(&[[7, 8, 9]]);
    for (last, keys_are_same) in [([7, 8, 9], true), ([4, 5, 6], false)] {
        let long = long(last);
        let [a, b, c] = last;
        let when = |handed| if keys_are_same { handed } else { NOTHING };
        let mut sheet = [11; 11];
        let handed = shorter(&long, &short, &[], &[], &mut sheet);
        assert_eq!(handed, when(second_of(&short)));
        assert_eq!(sheet, [7, 8, 9, 1, 2, 3, a, b, c, 11, 11]);
        let mut sheet = [11; 9];
        let handed = shorter(&short, &long, &[], &[], &mut sheet);
        assert_eq!(handed, when(first_of(&short)));
        assert_eq!(sheet, [1, 2, 3, 1, 2, 3, a, b, c]);
        for (first, second) in [(&long, &short), (&short, &long)] {
            let mut sheet = [11; 8];
            assert_eq!(shorter(first, second, &[], &[], &mut sheet), NOTHING);
            assert_eq!(sheet, [11; 8]);
        }
    }
    let mut sheet = [11; 7];
    let handed = shorter(&sample(), &sample(), &[3], &[4], &mut sheet);
    assert_eq!(handed, first_of(&sample()));
    assert_eq!(sheet, [20, 28, 0, P - 80, P - 112, 0, 11]);
}

/// What compare refuses: nothing, and a sheet that stays as it was. Of each key all else fits, so that it alone is at
/// fault.
#[test]
fn refusals() {
    let (sample, copy) = (sample(), in_other_edition(&sample()));
    let held = |first: &[u8], second: &[u8], rows: &[u32], columns: &[u32], places: usize| {
        let mut sheet = vec![11; places];
        let handed = shorter(first, second, rows, columns, &mut sheet);
        assert_eq!(handed, NOTHING);
        assert_eq!(sheet, vec![11; places]);
    };
    let behind = [&sample[..], &[0]].concat();
    let wrong = [1, 31, 0];
    for bad in [
        &[][..],
        &[6],
        &[9],
        &wrong,
        &sample[..52],
        &sample[3..],
        &behind,
        &copy[..60],
    ] {
        held(bad, &sample, &[3], &[4], 9);
        held(&sample, bad, &[3], &[4], 9);
        held(bad, &copy, &[3], &[4], 9);
        held(&copy, bad, &[3], &[4], 9);
        held(bad, bad, &[3], &[4], 9);
    }
    for (first, second) in [(&sample, &copy), (&copy, &sample), (&sample, &sample)] {
        held(first, second, &[], &[4], 9);
        held(first, second, &[3, 5], &[4], 9);
        held(first, second, &[3], &[], 9);
        held(first, second, &[3], &[4, 6], 9);
        held(first, second, &[P], &[4], 9);
        held(first, second, &[3], &[P], 9);
        held(first, second, &[u32::MAX], &[u32::MAX], 9);
        for places in [0, 1, 3, 5] {
            held(first, second, &[3], &[4], places);
        }
        assert_ne!(shorter(first, second, &[3], &[4], &mut [11; 6]), NOTHING);
    }
    let grown = sample_in(2, 3, 0, 0);
    held(&sample, &grown, &[3], &[4], 9);
    held(&grown, &sample, &[3, 5], &[4], 9);
    held(&grown, &sample, &[3, 5], &[4, 6, P], 9);
}

/// The part that is handed back lies in the lent memory, from its first byte to its last.
#[test]
fn what_is_handed_back_is_lent() {
    let (sample, copy) = (sample(), in_other_edition(&sample()));
    let memory = [&[9; 5][..], &copy, &[9; 3], &sample, &[9; 2], &sample, &[9]].concat();
    let (long, one, other) = (&memory[5..66], &memory[69..122], &memory[124..177]);
    assert_eq!((long, one, other), (&copy[..], &sample[..], &sample[..]));
    let part = |first, second| morgana::shorter(first, second, &[3], &[4], &mut [0; 6]);
    for (first, second, wanted) in [
        (long, one, one),
        (one, long, one),
        (other, long, other),
        (one, other, one),
        (other, one, other),
        (long, long, long),
        // Refused and different: from where the first begins, and nothing more.
        (&memory[4..], one, &memory[4..4]),
        (one, &memory[123..], &memory[69..69]),
        (&memory[6..], &memory[7..], &memory[6..6]),
        (long, &[1, 1, 1, 2, 1, 1, 6], &memory[5..5]),
    ] {
        assert_eq!(part(first, second).as_ptr_range(), wanted.as_ptr_range());
    }
}

/// One slice lent as both keys: it is the first.
#[test]
fn one_slice_twice() {
    for key in small_keys() {
        let [rows, columns] = larger(&key, &key);
        let (rows, columns) = (vec![3; rows as usize], vec![4; columns as usize]);
        hold(&key, &key, &rows, &columns, first_of(&key));
    }
}

/// Keys that lie in one memory: the last seven bytes of a key whose cells add up to zero are the key of zeros.
#[test]
fn keys_within_keys() {
    let cells = [[0, P - 65_536, P - 512], [0, 65_536, 512]];
    let whole = single(&cells);
    let within = &whole[whole.len() - 7..];
    assert_eq!(within, [1, 0, 0, 2, 0, 0, 6]);
    hold_less(within, &whole, &[], &[]);
    let part = morgana::shorter(&whole, within, &[], &[], &mut [0; 3]);
    assert!(ptr::eq(part, within));
    // One cell alone is not zero, and with a byte more or less either key is none.
    let alone = single(&cells[1..]);
    hold(&alone, &alone[21..], &[], &[], NOTHING);
    hold(&whole, &whole[1..], &[], &[], NOTHING);
    hold(&whole, &whole[..48], &[], &[], NOTHING);
    hold(&whole[..48], &whole, &[], &[], NOTHING);
    hold(within, &whole[43..], &[], &[], NOTHING);
}

/// Every pair of small keys, also with an array that nothing calls, at drawn points, beside the independent
/// implementation, with every place of the sheet.
#[test]
fn every_pair_of_small_keys() {
    let mut random = Random::of_case(52, 0);
    let padded = |key: &Vec<u8>| [&key[..3], &[2, 0, 0], &key[3..]].concat();
    let mut keys = small_keys();
    // The calls of a key with two arrays would be of the array that is put before them.
    let with_one = keys.iter().filter(|key| key[0] == 1).map(padded);
    keys.extend(with_one.collect::<Vec<_>>());
    let mut count = [0; 3];
    for one in &keys {
        for other in &keys {
            let [rows, columns] = larger(one, other).map(|bits| drawn::<Fp>(&mut random, bits));
            let (mut sheet, mut wanted) = ([9; SHEET], [9; SHEET]);
            let handed = shorter(one, other, &rows, &columns, &mut sheet);
            let expected = independent::shorter::shorter(one, other, &rows, &columns, &mut wanted);
            assert_eq!(
                handed, expected,
                "{one:?} {other:?} at {rows:?} {columns:?}"
            );
            assert_eq!(sheet, wanted);
            count[handed.key as usize] += 1;
        }
    }
    assert!(
        count[0] > 5_000 && count[1] > 300 && count[2] > 100,
        "{count:?}"
    );
}
