//! Keys written out record by record, and short calls for the written cases.

// Each test program uses a part of this module.
#![allow(dead_code)]

pub mod closed;

use crate::archive::{self, Served};
use crate::independent::field::{Fp, Quadratic};
use crate::independent::key;
use crate::independent::record::{bytes, Call, Cell, Record};
use crate::independent::{
    CompareRefusal, Compared, Counts, DifferingCell, Evaluated, Handed, Refusal,
};

/// The prime p.
pub const P: u32 = morgana::P;

/// A cell.
pub fn cell(row: u32, column: u32, values: [u32; 3]) -> Record {
    Record::Cell(Cell {
        row,
        column,
        values,
    })
}

/// A call.
pub fn call(id: u16, row: u32, column: u32) -> Record {
    Record::Call(Call { id, row, column })
}

/// A call of edition 2.
pub fn scaled_call(id: u16, row: u32, column: u32, factor: u32) -> Record {
    Record::ScaledCall(Call { id, row, column }, factor)
}

/// The bytes of a head, these records and an end.
pub fn key(rows: u8, columns: u8, body: &[Record]) -> Vec<u8> {
    let mut records = vec![Record::Head(rows, columns)];
    records.extend_from_slice(body);
    records.push(Record::End);
    bytes(&records)
}

/// The bytes of a head of edition 2, these records and an end.
pub fn scaled_key(rows: u8, columns: u8, body: &[Record]) -> Vec<u8> {
    let mut bytes = key(rows, columns, body);
    bytes[0] = 7;
    bytes
}

/// The key of the request's keysheet input.
pub fn sample() -> Vec<u8> {
    key(
        1,
        1,
        &[
            Record::Sparse(0, 1),
            cell(0, 1, [5, 7, 0]),
            Record::Recursive(1, 1),
            call(0, 0, 0),
            call(0, 0, 0),
        ],
    )
}

/// What check answers, held through the raw call too.
pub fn check(key: &[u8]) -> Result<Counts, Refusal> {
    let answer = archive::check(key);
    assert_eq!(archive::raw_check(key), archive::check_reply(answer));
    answer
}

/// Asserts that check accepts a key with these counts of arrays, cells and calls.
pub fn accepts(key: &[u8], arrays: u32, cells: u32, calls: u32) {
    let counts = check(key).unwrap_or_else(|refusal| panic!("refused: {refusal:?}"));
    assert_eq!(
        [counts.arrays, counts.cells, counts.calls],
        [arrays, cells, calls]
    );
    assert_eq!(
        [counts.rows, counts.columns],
        [key[1].into(), key[2].into()]
    );
}

/// Asserts that all calls refuse a key alike and leave the sheet and the buffer as they were.
pub fn refuses(key: &[u8], number: u32, place: u64) {
    let refusal = Refusal { number, place };
    assert_eq!(
        check(key),
        Err(refusal),
        "key {:?}",
        &key[..key.len().min(99)]
    );
    let mut sheet = [7; 12];
    assert_eq!(evaluate(key, &[P], &[], &mut sheet), Err(refusal));
    let got = cell_of(key, u32::MAX, u32::MAX, &mut sheet);
    assert_eq!(got, Err(refusal));
    let of = |key| CompareRefusal { key, refusal };
    let sample = sample();
    let got = compare(key, &sample, &[], &[P], &mut sheet);
    assert_eq!(got, Err(of(1)));
    let got = compare(&sample, key, &[], &[P], &mut sheet);
    assert_eq!(got, Err(of(2)));
    let got = locate(key, &sample, &[], &[P], &mut sheet);
    assert_eq!(got, Err(of(1)));
    let got = locate(&sample, key, &[], &[P], &mut sheet);
    assert_eq!(got, Err(of(2)));
    // At points that fit the sample, of which nothing else is refused.
    assert_eq!(shorter(key, &sample, &[3], &[4], &mut sheet), NOTHING);
    assert_eq!(shorter(&sample, key, &[3], &[4], &mut sheet), NOTHING);
    let got = evaluate_quadratic(key, &[P], &[], &mut sheet);
    assert_eq!(got, Err(refusal));
    let got = compare_quadratic(key, &sample, &[], &[P], &mut sheet);
    assert_eq!(got, Err(of(1)));
    let got = compare_quadratic(&sample, key, &[], &[P], &mut sheet);
    assert_eq!(got, Err(of(2)));
    assert_eq!(sheet, [7; 12]);
    for rate in [0, 1_000_000, 1_000_001, u32::MAX] {
        assert_eq!(price(key, [rate; 3]), Err(refusal));
    }
    for length in [0, 99] {
        let mut buffer = vec![7; length];
        assert_eq!(moved(key, &mut buffer), Err(refusal));
        assert_eq!(buffer, vec![7; length]);
    }
}

/// What price answers at rates per cell, per call and per factor, held through the raw call too.
pub fn price(key: &[u8], rates: [u32; 3]) -> Result<u64, Refusal> {
    let answer = archive::price(key, rates);
    let reply = archive::raw_price(key, rates);
    assert_eq!(reply, archive::price_reply(answer));
    answer
}

/// What the move answers, held through the raw call too.
pub fn moved(key: &[u8], buffer: &mut [u8]) -> Result<usize, Refusal> {
    let mut other = buffer.to_vec();
    let answer = archive::moved(key, buffer);
    let reply = archive::raw_move(key, &mut other);
    assert_eq!(reply, archive::move_reply(answer));
    assert_eq!(buffer, other);
    answer
}

/// The values that evaluate answers, held through the raw call too.
pub fn evaluate(
    key: &[u8],
    rows: &[u32],
    columns: &[u32],
    sheet: &mut [u32],
) -> Result<[Fp; 3], Refusal> {
    evaluate_over(key, rows, columns, sheet)
}

/// The values that evaluate answers over p², held through the raw call too.
pub fn evaluate_quadratic(
    key: &[u8],
    rows: &[u32],
    columns: &[u32],
    sheet: &mut [u32],
) -> Result<[Quadratic; 3], Refusal> {
    evaluate_over(key, rows, columns, sheet)
}

/// The same over any field.
fn evaluate_over<F: Served>(
    key: &[u8],
    rows: &[u32],
    columns: &[u32],
    sheet: &mut [u32],
) -> Result<[F; 3], Refusal> {
    let mut other = sheet.to_vec();
    let answer = F::evaluate(key, rows, columns, sheet);
    let reply = F::raw_evaluate(key, rows, columns, &mut other);
    assert_eq!(reply, F::reply(answer));
    assert_eq!(sheet, other);
    counted(key, answer)
}

/// The values of an answer about a key, whose count of factors must be that of the key's records.
fn counted<F>(key: &[u8], answer: Result<Evaluated<F>, Refusal>) -> Result<[F; 3], Refusal> {
    let Evaluated { values, factors } = answer?;
    assert_eq!(factors, factors_of(key));
    Ok(values)
}

/// The count of factors of an accepted key, by its records.
fn factors_of(key: &[u8]) -> u64 {
    key::factors(&read(key))
}

/// An accepted key, read.
fn read(key: &[u8]) -> key::Key {
    key::read(key).expect("the key is accepted")
}

/// What evaluate answers on a sheet that is long enough.
pub fn values(key: &[u8], rows: &[u32], columns: &[u32]) -> Result<[u32; 3], Refusal> {
    evaluate(key, rows, columns, &mut [9; 3 * 1_024])
}

/// The values that cell answers, held through the raw call too.
pub fn cell_of(key: &[u8], row: u32, column: u32, sheet: &mut [u32]) -> Result<[u32; 3], Refusal> {
    let mut other = sheet.to_vec();
    let answer = archive::cell(key, row, column, sheet);
    let reply = archive::raw_cell(key, row, column, &mut other);
    assert_eq!(reply, archive::evaluate_reply(answer));
    assert_eq!(sheet, other);
    counted(key, answer)
}

/// The values that cell answers on a sheet that is long enough.
pub fn dense(key: &[u8], row: u32, column: u32) -> Result<[u32; 3], Refusal> {
    cell_of(key, row, column, &mut [9; 3 * 1_024])
}

/// Whether compare answers "same", held through the raw call too.
pub fn compare(
    first: &[u8],
    second: &[u8],
    rows: &[u32],
    columns: &[u32],
    sheet: &mut [u32],
) -> Result<bool, CompareRefusal> {
    compare_over::<Fp>(first, second, rows, columns, sheet)
}

/// Whether compare answers "same" over p², held through the raw call too.
pub fn compare_quadratic(
    first: &[u8],
    second: &[u8],
    rows: &[u32],
    columns: &[u32],
    sheet: &mut [u32],
) -> Result<bool, CompareRefusal> {
    compare_over::<Quadratic>(first, second, rows, columns, sheet)
}

/// The same over any field.
pub fn compare_over<F: Served>(
    first: &[u8],
    second: &[u8],
    rows: &[u32],
    columns: &[u32],
    sheet: &mut [u32],
) -> Result<bool, CompareRefusal> {
    let mut other = sheet.to_vec();
    let answer = F::compare(first, second, rows, columns, sheet);
    let reply = F::raw_compare(first, second, rows, columns, &mut other);
    assert_eq!(reply, archive::compare_reply(answer));
    assert_eq!(sheet, other);
    counted_in_both([first, second], answer)
}

/// Whether an answer about two keys is "same"; its count of factors must be that of both keys' records and of the
/// coordinates that each does not use.
fn counted_in_both(
    keys: [&[u8]; 2],
    answer: Result<Compared, CompareRefusal>,
) -> Result<bool, CompareRefusal> {
    let Compared { same, factors } = answer?;
    let [one, other] = keys.map(read);
    assert_eq!(factors, key::factors_of_both(&one, &other));
    Ok(same)
}

/// The cell that locate answers, none for "same", held through the raw call too. It answers "same" and refuses where
/// compare does.
pub fn locate(
    first: &[u8],
    second: &[u8],
    rows: &[u32],
    columns: &[u32],
    sheet: &mut [u32],
) -> Result<Option<DifferingCell>, CompareRefusal> {
    let mut other = sheet.to_vec();
    let mut compared = sheet.to_vec();
    let answer = archive::locate(first, second, rows, columns, sheet);
    let reply = archive::raw_locate(first, second, rows, columns, &mut other);
    assert_eq!(reply, archive::locate_reply(answer));
    assert_eq!(sheet, other);
    let same = archive::compare(first, second, rows, columns, &mut compared);
    assert_eq!(answer.map(|cell| cell.is_none()), same.map(|it| it.same));
    answer
}

/// What shorter hands back of keys that are not the same: the empty beginning of the first.
pub const NOTHING: Handed = Handed { key: 0, length: 0 };

/// What shorter hands back by the raw call; the safe call hands back that part of the lent keys, from where it begins in
/// memory. It is empty where compare does not answer "same", and the sheet is as compare leaves it.
pub fn shorter(
    first: &[u8],
    second: &[u8],
    rows: &[u32],
    columns: &[u32],
    sheet: &mut [u32],
) -> Handed {
    let (mut other, mut compared) = (sheet.to_vec(), sheet.to_vec());
    let part = archive::shorter(first, second, rows, columns, sheet);
    let reply = archive::raw_shorter(first, second, rows, columns, &mut other);
    let (key, length) = (reply.key, reply.length as usize);
    let handed = Handed { key, length };
    let wanted = handed.of(first, second);
    assert_eq!(part.as_ptr_range(), wanted.as_ptr_range());
    assert_eq!(sheet, other);
    let answer = archive::compare(first, second, rows, columns, &mut compared);
    let same = answer.is_ok_and(|answer| answer.same);
    assert_eq!(part.is_empty(), !same);
    assert_eq!(sheet, compared);
    handed
}

/// The refusal of compare with a number, at a place, that names neither key.
pub fn neither<T>(number: u32, place: u64) -> Result<T, CompareRefusal> {
    Err(CompareRefusal {
        key: 0,
        refusal: Refusal { number, place },
    })
}

/// The refusal with a number, at a place.
pub fn refusal<T>(number: u32, place: u64) -> Result<T, Refusal> {
    Err(Refusal { number, place })
}
