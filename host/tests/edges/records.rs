//! Refusals 1 to 6, 12 and 13: the records of a key, their order and their number.

use crate::independent::record::bytes;
use crate::independent::record::Record::{End, Head, Recursive, Sparse};
use crate::written::closed::VALUES;
use crate::written::*;

/// Refusal 1: 65,536 bytes pass, 65,537 are refused whatever they hold.
#[test]
fn length_of_the_key() {
    let mut body = vec![Sparse(0, 0); 10];
    body.push(Sparse(1, 1));
    body.extend([cell(1, 1, [1, 2, 3]); 3_119]);
    let mut longest = key(1, 1, &body);
    assert_eq!(longest.len(), 65_536);
    accepts(&longest, 11, 3_119, 0);
    assert_eq!(dense(&longest, 1, 1), Ok([3_119, 6_238, 9_357]));
    longest.push(6);
    refuses(&longest, 1, 65_536);
    refuses(&vec![0; 65_537], 1, 65_536);
    refuses(&vec![1; 1_000_000], 1, 65_536);
    refuses(&vec![0; 65_536], 3, 0);
}

/// Refusals 2, 3 and 4: what is taken before it is judged, and what may not stand where.
#[test]
fn records_taken_and_allowed() {
    refuses(&[], 2, 0);
    refuses(&bytes(&[Head(1, 1)]), 2, 3);
    refuses(&[1], 2, 0);
    refuses(&[1, 0], 2, 0);
    refuses(&bytes(&[End]), 4, 0);
    refuses(&bytes(&[Head(0, 0), End]), 4, 3);
    refuses(&bytes(&[Head(0, 0), End, End]), 4, 3);
    refuses(&bytes(&[Sparse(0, 0), End]), 4, 0);
    refuses(&bytes(&[Recursive(0, 0), End]), 4, 0);
    refuses(&bytes(&[cell(0, 0, [0; 3])]), 4, 0);
    refuses(&bytes(&[call(0, 0, 0)]), 4, 0);
    refuses(&bytes(&[cell(0, 0, [0; 3])])[..20], 2, 0);
    refuses(&bytes(&[call(0, 0, 0)])[..10], 2, 0);
    refuses(&bytes(&[Head(0, 0), Head(0, 0)]), 4, 3);
    refuses(&bytes(&[Head(0, 0), Sparse(0, 0), Head(31, 31)]), 4, 6);
    refuses(&bytes(&[Head(0, 0), cell(9, 9, [P; 3])]), 4, 3);
    refuses(&bytes(&[Head(0, 0), call(9, 9, 9)]), 4, 3);
    let in_recursive = bytes(&[Head(0, 0), Recursive(0, 0), cell(9, 9, [P; 3])]);
    refuses(&in_recursive, 4, 6);
    refuses(&in_recursive[..26], 2, 6);
    let in_sparse = bytes(&[Head(0, 0), Sparse(0, 0), call(9, 9, 9)]);
    refuses(&in_sparse, 4, 6);
    refuses(&in_sparse[..16], 2, 6);
    refuses(&bytes(&[Head(0, 0), Sparse(0, 0)]), 2, 6);
    refuses(&[2, 0], 2, 0);
    for kind in (0..=255).filter(|kind| !(1..=8).contains(kind)) {
        refuses(&[kind], 3, 0);
        refuses(&[1, 0, 0, kind], 3, 3);
        refuses(&[1, 0, 0, 2, 0, 0, kind, 0, 0], 3, 6);
    }
}

/// The sample cut at every length: 2 at the record that is missing or cut off.
#[test]
fn sample_cut_everywhere() {
    let sample = sample();
    let offsets = [0, 3, 6, 27, 30, 41, 52];
    for length in 0..sample.len() {
        let cut = offsets.iter().rfind(|&&offset| offset <= length);
        refuses(&sample[..length], 2, *cut.unwrap() as u64);
    }
}

/// Refusal 5: head bits over 30, and array bits over the head's; rows and columns alike.
#[test]
fn bits() {
    for (rows, columns) in [(30, 0), (0, 30), (30, 30), (0, 0)] {
        accepts(&key(rows, columns, &[Sparse(rows, columns)]), 1, 0, 0);
    }
    for (rows, columns) in [(31, 0), (0, 31), (32, 0), (0, 255), (255, 255)] {
        refuses(&key(rows, columns, &[Sparse(rows, columns)]), 5, 0);
        refuses(&[1, rows, columns], 5, 0);
    }
    refuses(&key(2, 2, &[Sparse(3, 2), Sparse(2, 2)]), 5, 3);
    refuses(&key(2, 2, &[Sparse(2, 2), Recursive(2, 3)]), 5, 6);
    refuses(&key(30, 30, &[Recursive(31, 30)]), 5, 3);
    refuses(&key(30, 30, &[Sparse(30, 255)]), 5, 3);
}

/// Refusal 6: the 1,025th array, before 5, and after 2 to 4.
#[test]
fn number_of_arrays() {
    let many = vec![Sparse(0, 0); 1_024];
    accepts(&key(0, 0, &many), 1_024, 0, 0);
    let mut more = many.clone();
    more.push(Recursive(0, 0));
    let place = 3 + 3 * 1_024;
    refuses(&key(0, 0, &more), 6, place);
    more[1_024] = Sparse(1, 255);
    refuses(&key(0, 0, &more), 6, place);
    let cut = key(0, 0, &more);
    refuses(&cut[..place as usize + 2], 2, place);
    let mut last = many[..1_023].to_vec();
    last.extend([Recursive(0, 0), call(1_022, 0, 0), call(0, 0, 0)]);
    accepts(&key(0, 0, &last), 1_024, 0, 2);
}

/// Keys that are nothing but arrays have as many as their bytes allow: every call has a place for each, whatever the key's length.
#[test]
fn nothing_but_arrays() {
    let empty = |arrays: u32| key(0, 0, &vec![Sparse(0, 0); arrays as usize]);
    for arrays in (1..=130).chain([1_023, 1_024]) {
        let bytes = empty(arrays);
        assert_eq!(bytes.len() as u32, 4 + 3 * arrays);
        accepts(&bytes, arrays, 0, 0);
        refuses(&bytes[..bytes.len() - 1], 2, 3 + 3 * u64::from(arrays));
        let mut sheet = vec![9; 3 * arrays as usize];
        assert_eq!(evaluate(&bytes, &[], &[], &mut sheet), Ok([0; 3]));
        assert!(sheet.iter().all(|&value| value == 0));
        assert_eq!(dense(&bytes, 0, 0), Ok([0; 3]));
        let mut sheet = vec![9; 3 * 1_024];
        for other in [empty(1), empty(62), empty(63), empty(1_024)] {
            let there = compare(&bytes, &other, &[], &[], &mut sheet);
            let back = compare(&other, &bytes, &[], &[], &mut sheet);
            assert_eq!((there, back), (Ok(true), Ok(true)));
        }
    }
}

/// A last array that calls the first and the one before it, behind so many arrays that the key's length passes every border of a
/// table's size.
#[test]
fn calls_behind_many_arrays() {
    for between in (0..=70).chain([1_020, 1_021]) {
        let mut body = vec![Sparse(0, 0), cell(0, 0, VALUES)];
        body.extend(vec![Sparse(0, 0); between as usize]);
        body.extend([Sparse(0, 0), cell(0, 0, [1, 0, P - 1])]);
        body.push(Recursive(0, 0));
        body.extend([call(0, 0, 0), call(between + 1, 0, 0)]);
        let bytes = key(0, 0, &body);
        accepts(&bytes, u32::from(between) + 3, 2, 2);
        let wanted = [VALUES[0] + 1, VALUES[1], VALUES[2] - 1];
        assert_eq!(values(&bytes, &[], &[]), Ok(wanted));
        assert_eq!(dense(&bytes, 0, 0), Ok(wanted));
        *body.last_mut().unwrap() = call(between + 2, 0, 0);
        refuses(&key(0, 0, &body), 9, bytes.len() as u64 - 12);
    }
}

/// Refusals 12 and 13: the last array's shape, then bytes behind the end, which are not read.
#[test]
fn ends() {
    refuses(&key(1, 1, &[Sparse(0, 1)]), 12, 6);
    refuses(&key(1, 1, &[Sparse(1, 0)]), 12, 6);
    refuses(&key(1, 1, &[Sparse(1, 1), Sparse(0, 0)]), 12, 9);
    for behind in [0, 1, 6, 255] {
        let mut key_and_more = key(1, 1, &[Sparse(1, 1)]);
        key_and_more.push(behind);
        refuses(&key_and_more, 13, 7);
        key_and_more.push(behind);
        refuses(&key_and_more, 13, 7);
        let mut odd = key(1, 1, &[Sparse(1, 0)]);
        odd.push(behind);
        refuses(&odd, 12, 6);
    }
}
