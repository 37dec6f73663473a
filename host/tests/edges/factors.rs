//! The count of factors: sums worked out on paper, the limit and the keys that meet it, both editions, and refusals.

use crate::archive;
use crate::independent::record::Record::{self, Recursive, Sparse};
use crate::independent::{CompareRefusal, Compared};
use crate::written::*;

/// The places of a sheet that is long enough for every key over either field.
const SHEET: usize = 6 * 1_024;

/// Asserts that every call answers this count for a key, at points of zeros, of ones and of others; compare, which counts
/// the key twice, answers it twice, and price answers it at a penny for each factor and nothing else.
pub fn hold(key: &[u8], wanted: u64) {
    assert_eq!(price(key, [0, 0, 100]), Ok(wanted));
    for number in [0, 1, 3, P - 1] {
        let [rows, columns] = [key[1], key[2]].map(|bits| vec![number; bits.into()]);
        let evaluated = archive::evaluate(key, &rows, &columns, &mut [9; SHEET]);
        assert_eq!(evaluated.map(|answer| answer.factors), Ok(wanted));
        let compared = archive::compare(key, key, &rows, &columns, &mut [9; SHEET]);
        assert_eq!(compared, same(2 * wanted));
        let [rows, columns] = [rows, columns].map(|side| side.repeat(2));
        let evaluated = archive::evaluate_quadratic(key, &rows, &columns, &mut [9; SHEET]);
        assert_eq!(evaluated.map(|answer| answer.factors), Ok(wanted));
        let compared = archive::compare_quadratic(key, key, &rows, &columns, &mut [9; SHEET]);
        assert_eq!(compared, same(2 * wanted));
    }
    for (row, column) in [(0, 0), ((1 << key[1]) - 1, (1 << key[2]) - 1)] {
        let celled = archive::cell(key, row, column, &mut [9; SHEET]);
        assert_eq!(celled.map(|answer| answer.factors), Ok(wanted));
    }
}

/// The answer "same" with a count of factors.
fn same(factors: u64) -> Result<Compared, CompareRefusal> {
    let same = true;
    Ok(Compared { same, factors })
}

/// The answer "different" with a count of factors.
fn different(factors: u64) -> Result<Compared, CompareRefusal> {
    let same = false;
    Ok(Compared { same, factors })
}

/// A cell counts k + k', also where its values are zero or its place has another; a call (k - K) + (k' - K'), also where
/// the called array is empty; and an array counts that nobody calls.
#[test]
fn sums_on_paper() {
    hold(&sample(), 3);
    hold(&key(3, 2, &[Sparse(3, 2)]), 0);
    hold(&key(3, 2, &[Recursive(3, 2)]), 0);
    hold(&key(3, 2, &[Sparse(3, 2), cell(7, 3, [1, 2, 3])]), 5);
    let zero = cell(0, 0, [0; 3]);
    hold(&key(3, 2, &[Sparse(3, 2), zero, zero, zero]), 15);
    hold(&key(30, 0, &[Sparse(30, 0), zero]), 30);
    hold(&key(0, 30, &[Sparse(0, 30), zero]), 30);
    let called = |rows, columns| {
        let body = [Sparse(rows, columns), Recursive(5, 4), call(0, 0, 0)];
        key(5, 4, &body)
    };
    for (rows, columns, wanted) in [(5, 4, 0), (5, 0, 4), (0, 4, 5), (2, 3, 4), (0, 0, 9)] {
        hold(&called(rows, columns), wanted);
    }
    // Two cells of 1 + 2 bits, three calls that add 1 + 0, one that adds 3 + 3, and an array of 4 + 5 bits besides.
    let body = [
        Sparse(1, 2),
        zero,
        cell(1, 3, [4, 5, 6]),
        Recursive(2, 2),
        call(0, 1, 0),
        call(0, 0, 0),
        call(0, 1, 0),
        Sparse(4, 5),
        zero,
        Recursive(5, 5),
        call(1, 7, 7),
    ];
    hold(&key(5, 5, &body), 2 * 3 + 3 + 9 + 6);
}

/// Without row and column bits every weight is 1 and has no factor, however many records there are.
#[test]
fn no_bits() {
    let zero = cell(0, 0, [4, 5, 6]);
    hold(&key(0, 0, &[Sparse(0, 0), zero]), 0);
    let body = [Sparse(0, 0), zero, Recursive(0, 0), call(0, 0, 0)];
    hold(&key(0, 0, &body), 0);
    let mut body = vec![Sparse(0, 0); 4];
    body.extend([zero; 3_120]);
    let full = key(0, 0, &body);
    assert_eq!(full.len(), 65_536);
    hold(&full, 0);
}

/// The limit (n + n')·(cells + calls) is met by cells alone in arrays of the head's shape, and by calls of arrays without
/// bits from such arrays; whatever else stands in a key stays below it.
#[test]
fn limit() {
    let limit = |key: &[u8]| check(key).expect("the key is accepted").limit();
    let zero = cell(0, 0, [0; 3]);
    for (rows, columns) in [(0, 0), (1, 0), (0, 1), (5, 6), (30, 0), (30, 30)] {
        let own = u64::from(rows + columns);
        for (arrays, cells) in [(1, 0), (1, 1), (1, 40), (3, 2), (1_024, 1)] {
            let array = [vec![Sparse(rows, columns)], vec![zero; cells]].concat();
            let cells_alone = key(rows, columns, &array.repeat(arrays));
            hold(&cells_alone, own * (arrays * cells) as u64);
            assert_eq!(limit(&cells_alone), own * (arrays * cells) as u64);
        }
        let calls = [call(0, 0, 0); 3];
        let body = [&[Sparse(0, 0), Recursive(rows, columns)], &calls[..]].concat();
        let calls_alone = key(rows, columns, &body);
        hold(&calls_alone, own * 3);
        assert_eq!(limit(&calls_alone), own * 3);
        if own > 0 {
            // A cell of the called array has no factor.
            let body = [&[Sparse(0, 0), zero], &body[1..]].concat();
            let both = key(rows, columns, &body);
            hold(&both, own * 3);
            assert_eq!(limit(&both), own * 4);
        }
    }
}

/// Keys as long as they can be: of cells 3,120, and of calls, which are shorter, 5,956, each with 60 factors. No key has
/// more: every record but a head, an opening or an end has 11 bytes or more, and 5,957 of them do not fit.
#[test]
fn greatest_counts() {
    let mut body = vec![Sparse(30, 30); 4];
    body.extend([cell(1, 2, [3, 4, 5]); 3_120]);
    hold(&key(30, 30, &body), 187_200);
    let mut body = vec![Sparse(0, 0), Recursive(30, 30)];
    body.extend([call(0, 1, 2); 5_956]);
    let longest = key(30, 30, &body);
    assert_eq!(longest.len() + 10, 65_536);
    hold(&longest, 357_360);
}

/// A call of edition 2 counts as the same call of edition 1, whatever its factor is.
#[test]
fn both_editions() {
    let with = |calls: &[Record]| [&[Sparse(1, 2), Recursive(3, 3)], calls].concat();
    let plain = key(3, 3, &with(&[call(0, 3, 1), call(0, 0, 0)]));
    hold(&plain, 6);
    for factor in [0, 1, 2, P - 1] {
        let calls = [(3, 1), (0, 0)].map(|(row, column)| scaled_call(0, row, column, factor));
        hold(&scaled_key(3, 3, &with(&calls)), 6);
    }
}

/// A moved key counts the same, there and back.
#[test]
fn moved_keys() {
    let mut body = vec![Sparse(2, 0), Sparse(1, 1), cell(1, 0, [4, 5, 6])];
    for below in 1..=10 {
        body.extend([Recursive(below + 1, below + 1), call(below.into(), 0, 1)]);
    }
    let plain = key(11, 11, &body);
    hold(&plain, 2 + 10 * 2);
    let mut buffer = vec![0; 65_536];
    let length = moved(&plain, &mut buffer).expect("the key is moved");
    assert_eq!(length, plain.len() + 10 * 4);
    hold(&buffer[..length], 2 + 10 * 2);
}

/// Compare adds both keys' counts, in either order, of one edition and of both, with "same" and with "different".
#[test]
fn sums_of_compare() {
    let flat = |a| key(1, 1, &[Sparse(1, 1), cell(0, 1, [a, 14, 0])]);
    let front = [Sparse(0, 1), cell(0, 1, [5, 7, 0]), Recursive(1, 1)];
    let scaled = |factor| {
        let body = [&front[..], &[scaled_call(0, 0, 0, factor)]].concat();
        scaled_key(1, 1, &body)
    };
    let empty = key(1, 1, &[Recursive(1, 1)]);
    for (other, wanted) in [
        (flat(10), same(3 + 2)),
        (flat(11), different(3 + 2)),
        (scaled(2), same(3 + 2)),
        (scaled(0), different(3 + 2)),
        (empty, different(3)),
        (sample(), same(3 + 3)),
    ] {
        for [first, second] in [[&sample(), &other], [&other, &sample()]] {
            let answer = archive::compare(first, second, &[3], &[4], &mut [9; 6]);
            assert_eq!(answer, wanted);
            let (rows, columns) = ([3, 1], [4, 2]);
            let answer = archive::compare_quadratic(first, second, &rows, &columns, &mut [9; 12]);
            assert_eq!(answer, wanted);
        }
    }
}

/// The reply of a refused call counts 0, whatever is at fault.
#[test]
fn refused_calls() {
    let sample = sample();
    let other = key(1, 0, &[Sparse(1, 0), cell(0, 0, [4, 5, 6])]);
    let (good, cut) = (&sample[..], &sample[..52]);
    let sheet = &mut [9; 12];
    for (key, rows, columns, length, number) in [
        (cut, &[3][..], &[4][..], 12, 2),
        (good, &[], &[4], 12, 21),
        (good, &[3], &[], 12, 22),
        (good, &[P], &[4], 12, 23),
        (good, &[3], &[4], 5, 31),
    ] {
        let reply = archive::raw_evaluate(key, rows, columns, &mut sheet[..length]);
        assert_eq!((reply.number, reply.factors), (number, 0));
        let reply = archive::raw_compare(good, key, rows, columns, &mut sheet[..length]);
        assert_eq!((reply.number, reply.factors), (number, 0));
        let [rows, columns] = [rows, columns].map(|side| side.repeat(2));
        let sheet = &mut sheet[..length];
        let reply = archive::raw_evaluate_quadratic(key, &rows, &columns, sheet);
        assert_eq!((reply.number, reply.factors), (number, 0));
        let reply = archive::raw_compare_quadratic(key, good, &rows, &columns, sheet);
        assert_eq!((reply.number, reply.factors), (number, 0));
    }
    for (key, row, length, number) in [(cut, 0, 6, 2), (good, 2, 6, 24), (good, 0, 5, 31)] {
        let reply = archive::raw_cell(key, row, 0, &mut sheet[..length]);
        assert_eq!((reply.number, reply.factors), (number, 0));
    }
    let reply = archive::raw_compare(good, &other, &[3], &[], sheet);
    assert_eq!((reply.number, reply.factors), (22, 0));
    let reply = archive::raw_compare_quadratic(good, &other, &[3, 0], &[], sheet);
    assert_eq!((reply.number, reply.factors), (22, 0));
    assert_eq!(sheet, &[9; 12]);
}
