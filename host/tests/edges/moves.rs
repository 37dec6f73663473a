//! The move into the other edition: the copy, the buffer around it, and its refusals in their order.

use crate::independent::record::Record::{self, Recursive, Sparse};
use crate::written::*;

/// Two arrays, the second with two calls of the first: 53 bytes in edition 1, and 61 in edition 2.
fn body(call: fn(u32) -> Record) -> Vec<Record> {
    vec![
        Sparse(0, 1),
        cell(0, 1, [5, 7, 8]),
        Recursive(1, 1),
        call(0),
        call(1),
    ]
}

/// The key of edition 1.
fn plain() -> Vec<u8> {
    key(1, 1, &body(|row| call(0, row, 0)))
}

/// The key of edition 2, with factors 1.
fn scaled() -> Vec<u8> {
    scaled_key(1, 1, &body(|row| scaled_call(0, row, 0, 1)))
}

/// Asserts that a key moves to a copy, that the bytes behind the copy stay, and that 32 comes in every shorter buffer.
fn moves(key: &[u8], copy: &[u8]) {
    for more in [0, 1, 4, 100] {
        let mut buffer = vec![0xaa; copy.len() + more];
        assert_eq!(moved(key, &mut buffer), Ok(copy.len()));
        assert_eq!(buffer[..copy.len()], *copy);
        assert_eq!(buffer[copy.len()..], vec![0xaa; more]);
    }
    let shorter = [0, 1, copy.len() / 2, copy.len() - 4, copy.len() - 1];
    for length in shorter {
        let mut buffer = vec![0xaa; length];
        let answer = moved(key, &mut buffer);
        assert_eq!(answer, refusal(32, copy.len() as u64));
        assert_eq!(buffer, vec![0xaa; length]);
    }
}

/// Asserts that a key is refused with this number and place in buffers of all lengths, which stay.
fn not_moved(key: &[u8], number: u32, place: u64) {
    for length in [0, key.len(), 65_535, 65_536, 100_000] {
        let mut buffer = vec![0xaa; length];
        assert_eq!(moved(key, &mut buffer), refusal(number, place));
        assert_eq!(buffer, vec![0xaa; length]);
    }
}

/// There and back: head and calls change, all else is as it was.
#[test]
fn there_and_back() {
    assert_eq!((plain().len(), scaled().len()), (53, 61));
    moves(&plain(), &scaled());
    moves(&scaled(), &plain());
    let mut sheet = [9; 6];
    let answer = compare(&plain(), &scaled(), &[3], &[4], &mut sheet);
    assert_eq!(answer, Ok(true));
}

/// Keys without calls have the same length in both editions.
#[test]
fn keys_without_calls() {
    for body in [
        &[Sparse(1, 1)][..],
        &[Recursive(1, 1)],
        &[Sparse(0, 0), Sparse(1, 1), cell(1, 0, [7, 1, 8])],
    ] {
        moves(&key(1, 1, body), &scaled_key(1, 1, body));
        moves(&scaled_key(1, 1, body), &key(1, 1, body));
    }
}

/// Refusal 55 at the first call whose factor is not 1, before 32.
#[test]
fn factors_that_are_not_one() {
    for factor in [0, 2, P - 1, 257, 1 << 24] {
        let with = |factors: [u32; 3]| {
            let mut body = vec![Sparse(0, 0), cell(0, 0, [1, 1, 1]), Recursive(0, 0)];
            body.extend(factors.map(|factor| scaled_call(0, 0, 0, factor)));
            scaled_key(0, 0, &body)
        };
        not_moved(&with([factor, 1, 1]), 55, 30);
        not_moved(&with([1, factor, 1]), 55, 45);
        not_moved(&with([1, 1, factor]), 55, 60);
        not_moved(&with([1, factor, factor]), 55, 45);
        not_moved(&with([factor, 1, 0]), 55, 30);
    }
}

/// Refusal 56: a moved key has 65,536 bytes at most. In edition 2 a key has 1 byte more than a multiple of 3, so that 65,539
/// is the first length that is too long.
#[test]
fn moved_keys_that_are_too_long() {
    let with = |calls: usize, arrays: usize| {
        let mut body = vec![Sparse(0, 0); arrays];
        body.push(Recursive(0, 0));
        body.extend(vec![call(0, 0, 0); calls]);
        key(0, 0, &body)
    };
    let full = with(4_368, 3);
    let mut copy = vec![0xaa; 65_540];
    assert_eq!(moved(&full, &mut copy), Ok(65_536));
    assert_eq!(copy[65_536..], [0xaa; 4]);
    copy.truncate(65_536);
    accepts(&copy, 4, 0, 4_368);
    moves(&full, &copy);
    moves(&copy, &full);
    not_moved(&with(4_368, 4), 56, 65_539);
    not_moved(&with(4_369, 3), 56, 65_551);
    let longest = with(5_956, 1);
    assert_eq!(longest.len(), 65_526);
    not_moved(&longest, 56, 89_350);
    // The last of many factors.
    let last = copy.len() - 5;
    copy[last] = 2;
    not_moved(&copy, 55, 65_520);
}

/// A key of 65,536 bytes without calls moves both ways.
#[test]
fn longest_keys_without_calls() {
    let mut body = vec![Sparse(0, 0); 10];
    body.push(Sparse(1, 1));
    body.extend([cell(1, 1, [1, 7, 8]); 3_119]);
    let (first, second) = (key(1, 1, &body), scaled_key(1, 1, &body));
    assert_eq!(first.len(), 65_536);
    moves(&first, &second);
    moves(&second, &first);
}

/// The key's own refusals come before 55, 56 and 32.
#[test]
fn faults_of_the_key_first() {
    let front = [Sparse(0, 0), Recursive(1, 0), scaled_call(0, 1, 0, 2)];
    let with = |more: &[Record]| scaled_key(1, 0, &[&front[..], more].concat());
    let whole = with(&[]);
    not_moved(&whole, 55, 9);
    not_moved(&whole[..24], 2, 24);
    not_moved(&whole[..23], 2, 9);
    not_moved(&with(&[call(0, 0, 0)]), 4, 24);
    not_moved(&with(&[scaled_call(0, 0, 0, P)]), 8, 24);
    not_moved(&with(&[scaled_call(1, 0, 0, 2)]), 9, 24);
    not_moved(&with(&[scaled_call(0, 2, 0, 2)]), 11, 24);
    not_moved(&with(&[Sparse(0, 0)]), 12, 27);
    not_moved(&[&whole[..], &[6]].concat(), 13, 25);
    let mut body = vec![Sparse(0, 0), Recursive(0, 0)];
    body.extend(vec![call(0, 0, 0); 4_400]);
    let long = key(0, 0, &body);
    not_moved(&long, 56, 66_010);
    not_moved(&long[..long.len() - 1], 2, long.len() as u64 - 1);
    not_moved(&[&long[..], &[0]].concat(), 13, long.len() as u64);
    not_moved(&vec![7; 65_537], 1, 65_536);
    not_moved(&[], 2, 0);
}
