//! The calls of the library as safe functions: all unsafe code of this package's library stands here.
#![allow(unsafe_code)]

use crate::answers::{Compared, Counts, DifferingCell, Evaluated, Located};
use crate::answers::{Quadratic, QuadraticValues, Values};
use crate::constants::INTERFACE;
use crate::rates::Rates;
use crate::raw;
use crate::refusal::{CompareRefusal, Refusal, Which};
use std::sync::OnceLock;

/// Answers the version of the library that is linked: 1,000,000 for each major, 1,000 for each minor and 1 for each
/// patch version.
///
/// ```
/// let (major, rest) = (morgana::version() / 1_000_000, morgana::version() % 1_000_000);
/// assert!(morgana::VERSION.starts_with(&format!("{major}.{}.", rest / 1_000)));
/// ```
pub fn version() -> u32 {
    // SAFETY: the call takes nothing, and answers a number in every version.
    unsafe { raw::morgana_version() }
}

/// Panics where the library that is linked has another interface: its replies may be longer than those declared here.
fn same_interface() {
    static LINKED: OnceLock<u32> = OnceLock::new();
    want_interface(*LINKED.get_or_init(version));
}

/// Panics where a version has another interface than this package is written for.
fn want_interface(version: u32) {
    let linked = version / 1_000;
    assert_eq!(linked, INTERFACE, "libmorgana.a is of another version");
}

/// Answers the counts of an accepted key, with n and n'; or refuses with 1, then record by record with 2 for no byte, 3,
/// 2 for a cut body, 4, 6, 5, 7 to 12 by number, 13.
pub fn check(key: &[u8]) -> Result<Counts, Refusal> {
    same_interface();
    // SAFETY: the pointer and the length are of one slice, which is lent until the call returns; replies are of this
    // interface.
    let reply = unsafe { raw::morgana_check(key.as_ptr(), key.len()) };
    refused(reply.number, reply.place)?;
    Ok(Counts {
        arrays: reply.arrays,
        cells: reply.cells,
        calls: reply.calls,
        rows: reply.rows,
        columns: reply.columns,
    })
}

/// Answers the last array's A, B and C at a point and the count of factors, and writes array i's triple into the sheet
/// at 3i; or refuses as check does, or with 21, 22, 23 or 31.
pub fn evaluate(
    key: &[u8],
    rows: &[u32],
    columns: &[u32],
    sheet: &mut [u32],
) -> Result<Evaluated<Values>, Refusal> {
    same_interface();
    // SAFETY: each pointer and length are of one slice, lent until the call returns, and the sheet, lent for
    // writing, overlaps no other; replies are of this interface.
    evaluated(unsafe {
        raw::morgana_evaluate(
            key.as_ptr(),
            key.len(),
            rows.as_ptr(),
            rows.len(),
            columns.as_ptr(),
            columns.len(),
            sheet.as_mut_ptr(),
            sheet.len(),
        )
    })
}

/// Answers the last array's dense A, B and C at a row and a column and the count of factors, the sheet as after evaluate
/// at the point of their bits; or refuses as check does, or with 24 or 31.
pub fn cell(
    key: &[u8],
    row: u32,
    column: u32,
    sheet: &mut [u32],
) -> Result<Evaluated<Values>, Refusal> {
    same_interface();
    // SAFETY: each pointer and length are of one slice, lent until the call returns, and the sheet, lent for
    // writing, overlaps no other; replies are of this interface.
    evaluated(unsafe {
        raw::morgana_cell(
            key.as_ptr(),
            key.len(),
            row,
            column,
            sheet.as_mut_ptr(),
            sheet.len(),
        )
    })
}

/// Answers whether two keys have the same A, B and C at a point, each [read as filled with zeros](crate#comparing), and the count of factors of both; or refuses as check does for the first key and then for the second, naming the key,
/// or with 21, 22, 23 or 31, naming neither.
///
/// Any two accepted keys are taken. The point has N row coordinates (else 21) and N' column coordinates (else 22), the
/// larger bits of the two keys: [`Counts::larger_shape`]. The sheet is then as after evaluating the first key at its own
/// coordinates and then the second at its own; it needs three places for each array of the key with more arrays (else 31).
///
/// "Different" is certain; how sure "same" is at random points, [`Likelihood`](crate::Likelihood) says.
///
/// ```
/// let small = [
///     1, 0, 0, // head: no bits
///     2, 0, 0, // a sparse array of that shape
///     4, 0, 0, 0, 0, 0, 0, 0, 0, 5, 0, 0, 0, 7, 0, 0, 0, 0, 0, 0, 0, // a cell: A 5, B 7, C 0
///     6, // end
/// ];
/// let mut grown = small;
/// (grown[1], grown[4]) = (1, 1); // one row bit, and so a second row, of zeros
///
/// let compared = morgana::compare(&small, &grown, &[3], &[], &mut [0; 3])?;
/// assert!(compared.same);
/// assert_eq!(compared.factors, 2); // of the coordinate that the first key does not use, and of the second key's cell
/// # Ok::<(), morgana::CompareRefusal>(())
/// ```
pub fn compare(
    first: &[u8],
    second: &[u8],
    rows: &[u32],
    columns: &[u32],
    sheet: &mut [u32],
) -> Result<Compared, CompareRefusal> {
    same_interface();
    // SAFETY: each pointer and length are of one slice, lent until the call returns, and the sheet, lent for
    // writing, overlaps no other; replies are of this interface.
    compared(unsafe {
        raw::morgana_compare(
            first.as_ptr(),
            first.len(),
            second.as_ptr(),
            second.len(),
            rows.as_ptr(),
            rows.len(),
            columns.as_ptr(),
            columns.len(),
            sheet.as_mut_ptr(),
            sheet.len(),
        )
    })
}

/// Compares two keys at a point as [`compare`] does, and answers "same" or a cell in which they differ, with both keys'
/// dense A, B and C there, [zero beyond a key's own shape](crate#comparing); or refuses as compare does.
///
/// At least one of A, B and C differs in the cell. It is found from the point by N + N' further comparisons: the
/// coordinates are gone through once, rows first, and each is set to 0, or to 1 where the keys are the same at the point
/// with 0. Cells before it may differ too, and another point may lead to another cell. The sheet is then as after compare
/// at the bits of the row and of the column, lowest first; where the answer is "same", as after compare at the point.
///
/// ```
/// use morgana::{DifferingCell, Located, Values};
///
/// let old = [
///     1, 1, 0, // head: one row bit
///     2, 1, 0, // a sparse array of that shape
///     4, 1, 0, 0, 0, 0, 0, 0, 0, 5, 0, 0, 0, 7, 0, 0, 0, 0, 0, 0, 0, // a cell: row 1, column 0, A 5, B 7, C 0
///     6, // end
/// ];
/// let mut new = old;
/// new[19] = 8; // B
///
/// let (first, second) = (Values { a: 5, b: 7, c: 0 }, Values { a: 5, b: 8, c: 0 });
/// let cell = DifferingCell { row: 1, column: 0, first, second };
/// assert_eq!(morgana::locate(&old, &new, &[3], &[], &mut [0; 3])?, Located::Differs(cell));
/// assert_eq!(morgana::locate(&old, &old, &[3], &[], &mut [0; 3])?, Located::Same);
/// # Ok::<(), morgana::CompareRefusal>(())
/// ```
pub fn locate(
    first: &[u8],
    second: &[u8],
    rows: &[u32],
    columns: &[u32],
    sheet: &mut [u32],
) -> Result<Located, CompareRefusal> {
    same_interface();
    // SAFETY: each pointer and length are of one slice, lent until the call returns, and the sheet, lent for
    // writing, overlaps no other; replies are of this interface.
    located(unsafe {
        raw::morgana_locate(
            first.as_ptr(),
            first.len(),
            second.as_ptr(),
            second.len(),
            rows.as_ptr(),
            rows.len(),
            columns.as_ptr(),
            columns.len(),
            sheet.as_mut_ptr(),
            sheet.len(),
        )
    })
}

/// Compares two keys at a point as [`compare`] does, and hands back the shorter of the two lent slices itself where that
/// says "same", the first where both have one length; else the empty beginning of the first.
///
/// No accepted key is empty, so the result is empty exactly where compare does not say "same"; a refusal's number and
/// place are what compare tells. The sheet is as compare leaves it: where it refuses, as it was. A key with calls has
/// another length once [`moved`] has moved it, so that the other of the two keys may be handed back then.
///
/// ```
/// let new = [
///     1, 0, 0, // head: no bits
///     2, 0, 0, // a sparse array of that shape
///     4, 0, 0, 0, 0, 0, 0, 0, 0, 5, 0, 0, 0, 7, 0, 0, 0, 0, 0, 0, 0, // a cell: A 5, B 7, C 0
///     6, // end
/// ];
/// let old = [&new[..3], &[2, 0, 0], &new[3..]].concat(); // with an array that nothing calls
///
/// let mut sheet = [0; 6];
/// assert!(std::ptr::eq(morgana::shorter(&old, &new, &[], &[], &mut sheet), &new[..]));
///
/// let zero = [1, 0, 0, 2, 0, 0, 6]; // different
/// assert!(morgana::shorter(&old, &zero, &[], &[], &mut sheet).is_empty());
/// ```
pub fn shorter<'a>(
    first: &'a [u8],
    second: &'a [u8],
    rows: &[u32],
    columns: &[u32],
    sheet: &mut [u32],
) -> &'a [u8] {
    same_interface();
    // SAFETY: each pointer and length are of one slice, lent until the call returns, and the sheet, lent for
    // writing, overlaps no other; replies are of this interface.
    let reply = unsafe {
        raw::morgana_shorter(
            first.as_ptr(),
            first.len(),
            second.as_ptr(),
            second.len(),
            rows.as_ptr(),
            rows.len(),
            columns.as_ptr(),
            columns.len(),
            sheet.as_mut_ptr(),
            sheet.len(),
        )
    };
    match reply.key {
        1 => first,
        2 => second,
        _ => &first[..0],
    }
}

/// Answers the last array's A, B and C at a point whose coordinates u + v·i are two numbers each, u first, and the count
/// of factors, and writes array i's six numbers into the sheet at 6i; or refuses as evaluate does, with 21 and 22 where
/// there are not 2n and 2n' numbers, and with 23 at the index of a number.
pub fn evaluate_quadratic(
    key: &[u8],
    rows: &[u32],
    columns: &[u32],
    sheet: &mut [u32],
) -> Result<Evaluated<QuadraticValues>, Refusal> {
    same_interface();
    // SAFETY: each pointer and length are of one slice, lent until the call returns, and the sheet, lent for
    // writing, overlaps no other; replies are of this interface.
    let reply = unsafe {
        raw::morgana_evaluate_quadratic(
            key.as_ptr(),
            key.len(),
            rows.as_ptr(),
            rows.len(),
            columns.as_ptr(),
            columns.len(),
            sheet.as_mut_ptr(),
            sheet.len(),
        )
    };
    refused(reply.number, reply.place)?;
    let element = |u, v| Quadratic { u, v };
    let values = QuadraticValues {
        a: element(reply.a_u, reply.a_v),
        b: element(reply.b_u, reply.b_v),
        c: element(reply.c_u, reply.c_v),
    };
    let factors = reply.factors;
    Ok(Evaluated { values, factors })
}

/// Answers what compare does, at a point whose coordinates are two numbers each: 2N for the rows and 2N' for the columns.
/// The sheet is then as after evaluate_quadratic of the first key at its own coordinates and then of the second at its
/// own; it needs six places for each array of the key with more arrays. Refuses as compare does, counting numbers as
/// evaluate_quadratic does.
pub fn compare_quadratic(
    first: &[u8],
    second: &[u8],
    rows: &[u32],
    columns: &[u32],
    sheet: &mut [u32],
) -> Result<Compared, CompareRefusal> {
    same_interface();
    // SAFETY: each pointer and length are of one slice, lent until the call returns, and the sheet, lent for
    // writing, overlaps no other; replies are of this interface.
    compared(unsafe {
        raw::morgana_compare_quadratic(
            first.as_ptr(),
            first.len(),
            second.as_ptr(),
            second.len(),
            rows.as_ptr(),
            rows.len(),
            columns.as_ptr(),
            columns.len(),
            sheet.as_mut_ptr(),
            sheet.len(),
        )
    })
}

/// Answers in whole pence what one evaluation of a key costs at these rates; or refuses as check does, or with 62 for a
/// rate over [`MOST_RATE`](crate::MOST_RATE).
///
/// The total over the key's cells, calls and [factors](crate#factors), in hundredths of a penny, is divided by 100 once,
/// half a penny upwards. At the rates 0, 0 and 100 the price is the count of factors that evaluate answers at every point.
///
/// ```
/// use morgana::Rates;
///
/// let key = [
///     1, 1, 1, // head: one row bit, one column bit
///     2, 0, 1, // array 0, sparse, of one column bit
///     4, 0, 0, 0, 0, 1, 0, 0, 0, 5, 0, 0, 0, 7, 0, 0, 0, 0, 0, 0, 0, // a cell: one factor
///     3, 1, 1, // array 1, recursive
///     5, 0, 0, 0, 0, 0, 0, 0, 0, 0, 0, // a call of array 0: one factor
///     5, 0, 0, 0, 0, 0, 0, 0, 0, 0, 0, // and one more
///     6, // end
/// ];
/// let rates = Rates { cell: 150, call: 75, factor: 3 };
/// assert_eq!(morgana::price(&key, rates)?, 3); // of 1·150 + 2·75 + 3·3, which is 309
/// let of_factors = Rates { cell: 0, call: 0, factor: 100 };
/// assert_eq!(morgana::price(&key, of_factors)?, 3);
///
/// let refusal = morgana::price(&key, Rates { call: morgana::MOST_RATE + 1, ..rates }).unwrap_err();
/// assert_eq!(refusal.to_string(), "refused 62 at 1: a rate over 1,000,000");
/// # Ok::<(), morgana::Refusal>(())
/// ```
pub fn price(key: &[u8], rates: Rates) -> Result<u64, Refusal> {
    same_interface();
    // SAFETY: the pointer and the length are of one slice, which is lent until the call returns; replies are of this
    // interface.
    let reply = unsafe {
        raw::morgana_price(
            key.as_ptr(),
            key.len(),
            rates.cell,
            rates.call,
            rates.factor,
        )
    };
    refused(reply.number, reply.place)?;
    Ok(reply.pence)
}

/// Copies a key, to the start of the buffer, into the edition that its head is not, and answers the copy's length; or
/// refuses as check does, or with 55, 56 or 32. The bytes behind the copy stay.
///
/// Heads change between 01 and 07, and calls between 05 and 08, which then have factor 1; all else is copied byte for
/// byte. So the copy is a key with the same counts and matrices, and moving it gives the first bytes again. Only on the
/// way back, from edition 2 to edition 1, can a factor be other than 1 (55). [`KEY_LIMIT`](crate::KEY_LIMIT) bytes
/// suffice for every copy.
///
/// ```
/// let key = [
///     1, 0, 0, // head of edition 1: no bits
///     2, 0, 0, // array 0, sparse
///     3, 0, 0, // array 1, recursive
///     5, 0, 0, 0, 0, 0, 0, 0, 0, 0, 0, // a call of array 0
///     6, // end
/// ];
/// let mut buffer = [0; morgana::KEY_LIMIT];
/// let length = morgana::moved(&key, &mut buffer)?;
/// let copy = &buffer[..length];
/// assert_eq!(copy[..3], [7, 0, 0]);
/// assert_eq!(copy[9..24], [8, 0, 0, 0, 0, 0, 0, 0, 0, 0, 0, 1, 0, 0, 0]);
/// assert_eq!(morgana::check(copy), morgana::check(&key));
///
/// let mut back = [0; 21];
/// assert_eq!(morgana::moved(copy, &mut back), Ok(key.len()));
/// assert_eq!(back, key);
/// # Ok::<(), morgana::Refusal>(())
/// ```
pub fn moved(key: &[u8], buffer: &mut [u8]) -> Result<usize, Refusal> {
    same_interface();
    // SAFETY: each pointer and length are of one slice, lent until the call returns, and the buffer, lent for
    // writing, overlaps no other; replies are of this interface.
    let reply =
        unsafe { raw::morgana_move(key.as_ptr(), key.len(), buffer.as_mut_ptr(), buffer.len()) };
    refused(reply.number, reply.place)?;
    Ok(reply.length as usize)
}

/// What a reply says of two keys, or its refusal.
fn compared(reply: raw::CompareReply) -> Result<Compared, CompareRefusal> {
    refused_of_two(reply.number, reply.place, reply.key)?;
    Ok(Compared {
        same: reply.same == 1,
        factors: reply.factors,
    })
}

/// The cell of a reply in which two keys differ, or that they are the same, or its refusal.
fn located(reply: raw::LocateReply) -> Result<Located, CompareRefusal> {
    refused_of_two(reply.number, reply.place, reply.key)?;
    let values = |a, b, c| Values { a, b, c };
    Ok(match reply.same {
        1 => Located::Same,
        _ => Located::Differs(DifferingCell {
            row: reply.row,
            column: reply.column,
            first: values(reply.first_a, reply.first_b, reply.first_c),
            second: values(reply.second_a, reply.second_b, reply.second_c),
        }),
    })
}

/// The values of a reply, or its refusal.
fn evaluated(reply: raw::EvaluateReply) -> Result<Evaluated<Values>, Refusal> {
    refused(reply.number, reply.place)?;
    let values = Values {
        a: reply.a,
        b: reply.b,
        c: reply.c,
    };
    let factors = reply.factors;
    Ok(Evaluated { values, factors })
}

/// The refusal of a reply about two keys, if it has one, with the key that it names.
fn refused_of_two(number: u32, place: u64, key: u32) -> Result<(), CompareRefusal> {
    let which = match key {
        1 => Which::First,
        2 => Which::Second,
        _ => Which::Neither,
    };
    refused(number, place).map_err(|refusal| CompareRefusal { which, refusal })
}

/// The refusal of a reply, if it has one: 0 is the number of no refusal.
fn refused(number: u32, place: u64) -> Result<(), Refusal> {
    match number {
        0 => Ok(()),
        _ => Err(Refusal { number, place }),
    }
}

#[cfg(test)]
mod tests {
    use super::*;

    #[test]
    fn versions_that_differ_in_the_patch_have_one_interface() {
        want_interface(version());
        want_interface(1_000 * INTERFACE);
        want_interface(1_000 * INTERFACE + 999);
        same_interface();
        same_interface();
    }

    #[test]
    fn another_version_is_not_called() {
        for other in [0, 1_000 * INTERFACE - 1, 1_000 * (INTERFACE + 1), u32::MAX] {
            let called = std::panic::catch_unwind(|| want_interface(other));
            assert!(called.is_err(), "{other}");
        }
    }
}
