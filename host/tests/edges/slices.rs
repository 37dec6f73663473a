//! Empty slices with null pointers, through the calls as C sees them.

use std::ptr::{null, null_mut};

use crate::archive;
use crate::independent::record::Record::Sparse;
use crate::independent::{CompareRefusal, Compared, DifferingCell, Evaluated, Handed, Refusal};
use crate::written::{cell, key, sample, NOTHING};
use morgana::raw::{morgana_cell, morgana_check, morgana_compare, morgana_evaluate};
use morgana::raw::{morgana_compare_quadratic, morgana_evaluate_quadratic};
use morgana::raw::{morgana_locate, morgana_move, morgana_price, morgana_shorter};

/// The key with one array of one place.
fn single() -> Vec<u8> {
    key(0, 0, &[Sparse(0, 0), cell(0, 0, [4, 5, 6])])
}

/// The answer of evaluate with these values to a key without bits, whose weights have no factors.
fn without_factors<F>(values: [F; 3]) -> Result<Evaluated<F>, Refusal> {
    Ok(Evaluated { values, factors: 0 })
}

/// The answer "same" to two such keys.
const SAME: Result<Compared, CompareRefusal> = Ok(Compared {
    same: true,
    factors: 0,
});

/// A refusal of the key itself, at its first byte.
const MISSING: Refusal = Refusal {
    number: 2,
    place: 0,
};

/// The refusal of a sheet that is empty.
const NO_SHEET: Refusal = Refusal {
    number: 31,
    place: 3,
};

/// The key as null.
#[test]
fn null_key() {
    let mut sheet = [7; 3];
    let sheet = sheet.as_mut_ptr();
    // SAFETY: a null pointer goes with the length 0, and the sheet has 3 numbers.
    unsafe {
        let reply = morgana_check(null(), 0);
        assert_eq!(reply, archive::check_reply(Err(MISSING)));
        let reply = morgana_price(null(), 0, 0, 0, 0);
        assert_eq!(reply, archive::price_reply(Err(MISSING)));
        let reply = morgana_price(null(), 0, u32::MAX, u32::MAX, u32::MAX);
        assert_eq!(reply, archive::price_reply(Err(MISSING)));
        let reply = morgana_evaluate(null(), 0, null(), 0, null(), 0, sheet, 3);
        assert_eq!(reply, archive::evaluate_reply(Err(MISSING)));
        let reply = morgana_cell(null(), 0, 0, 0, sheet, 3);
        assert_eq!(reply, archive::evaluate_reply(Err(MISSING)));
        let reply = morgana_cell(null(), 0, u32::MAX, u32::MAX, null_mut(), 0);
        assert_eq!(reply, archive::evaluate_reply(Err(MISSING)));
        let reply = morgana_evaluate(null(), 0, null(), 0, null(), 0, null_mut(), 0);
        assert_eq!(reply, archive::evaluate_reply(Err(MISSING)));
    }
}

/// The point as null, where the key has no coordinates: the key is evaluated.
#[test]
fn null_point() {
    let key = single();
    let mut sheet = [7; 4];
    // SAFETY: a null pointer goes with the length 0, all else is of slices.
    unsafe {
        let (bytes, length) = (key.as_ptr(), key.len());
        let out = sheet.as_mut_ptr();
        let reply = morgana_evaluate(bytes, length, null(), 0, null(), 0, out, 4);
        let wanted = without_factors([4, 5, 6]);
        assert_eq!(reply, archive::evaluate_reply(wanted));
    }
    assert_eq!(sheet, [4, 5, 6, 7]);
}

/// The point as null, where the key has coordinates: 21 or 22 at 0.
#[test]
fn null_point_of_the_wrong_count() {
    let sample = sample();
    let (bytes, length) = (sample.as_ptr(), sample.len());
    let row = [3];
    let mut sheet = [7; 6];
    // SAFETY: a null pointer goes with the length 0, all else is of slices.
    unsafe {
        let out = sheet.as_mut_ptr();
        let reply = morgana_evaluate(bytes, length, null(), 0, null(), 0, out, 6);
        assert_eq!((reply.number, reply.place), (21, 0));
        let reply = morgana_evaluate(bytes, length, row.as_ptr(), 1, null(), 0, out, 6);
        assert_eq!((reply.number, reply.place), (22, 0));
    }
    assert_eq!(sheet, [7; 6]);
}

/// The sheet as null: 31 with the length needed.
#[test]
fn null_sheet() {
    let key = single();
    let (bytes, length) = (key.as_ptr(), key.len());
    // SAFETY: a null pointer goes with the length 0, all else is of slices.
    unsafe {
        let reply = morgana_evaluate(bytes, length, null(), 0, null(), 0, null_mut(), 0);
        assert_eq!(reply, archive::evaluate_reply(Err(NO_SHEET)));
        let reply = morgana_cell(bytes, length, 0, 0, null_mut(), 0);
        assert_eq!(reply, archive::evaluate_reply(Err(NO_SHEET)));
    }
}

/// Every slice of compare as null, one after the other and all at once.
#[test]
fn nulls_of_compare() {
    let key = single();
    let (bytes, length) = (key.as_ptr(), key.len());
    let mut sheet = [7; 4];
    let refused = |key, refusal| archive::compare_reply(Err(CompareRefusal { key, refusal }));
    let none: *const u32 = null();
    // SAFETY: a null pointer goes with the length 0, all else is of slices.
    unsafe {
        let out = sheet.as_mut_ptr();
        let reply = morgana_compare(null(), 0, bytes, length, none, 0, none, 0, out, 4);
        assert_eq!(reply, refused(1, MISSING));
        let reply = morgana_compare(bytes, length, null(), 0, none, 0, none, 0, out, 4);
        assert_eq!(reply, refused(2, MISSING));
        let reply = morgana_compare(null(), 0, null(), 0, none, 0, none, 0, null_mut(), 0);
        assert_eq!(reply, refused(1, MISSING));
        let reply = morgana_compare(
            bytes,
            length,
            bytes,
            length,
            none,
            0,
            none,
            0,
            null_mut(),
            0,
        );
        assert_eq!(reply, refused(0, NO_SHEET));
    }
    assert_eq!(sheet, [7; 4]);
    // SAFETY: as above.
    unsafe {
        let out = sheet.as_mut_ptr();
        let reply = morgana_compare(bytes, length, bytes, length, none, 0, none, 0, out, 4);
        assert_eq!(reply, archive::compare_reply(SAME));
    }
    assert_eq!(sheet, [4, 5, 6, 7]);
}

/// Every slice of locate as null, one after the other and all at once.
#[test]
fn nulls_of_locate() {
    let (key, other) = (single(), key(0, 0, &[Sparse(0, 0)]));
    let (bytes, length) = (key.as_ptr(), key.len());
    let mut sheet = [7; 4];
    let refused = |key, refusal| archive::locate_reply(Err(CompareRefusal { key, refusal }));
    let none: *const u32 = null();
    // SAFETY: a null pointer goes with the length 0, all else is of slices.
    unsafe {
        let out = sheet.as_mut_ptr();
        let reply = morgana_locate(null(), 0, bytes, length, none, 0, none, 0, out, 4);
        assert_eq!(reply, refused(1, MISSING));
        let reply = morgana_locate(bytes, length, null(), 0, none, 0, none, 0, out, 4);
        assert_eq!(reply, refused(2, MISSING));
        let (second, len) = (other.as_ptr(), other.len());
        let nowhere = null_mut();
        let reply = morgana_locate(bytes, length, second, len, none, 0, none, 0, nowhere, 0);
        assert_eq!(reply, refused(0, NO_SHEET));
    }
    assert_eq!(sheet, [7; 4]);
    // SAFETY: as above.
    unsafe {
        let out = sheet.as_mut_ptr();
        let (second, len) = (other.as_ptr(), other.len());
        let reply = morgana_locate(second, len, bytes, length, none, 0, none, 0, out, 4);
        let cell = DifferingCell {
            row: 0,
            column: 0,
            first: [0; 3],
            second: [4, 5, 6],
        };
        assert_eq!(reply, archive::locate_reply(Ok(Some(cell))));
    }
    assert_eq!(sheet, [4, 5, 6, 7]);
}

/// Every slice of shorter as null, one after the other and all at once.
#[test]
fn nulls_of_shorter() {
    let key = single();
    let (bytes, length) = (key.as_ptr(), key.len());
    let mut sheet = [7; 4];
    let none: *const u32 = null();
    let nothing = archive::shorter_reply(NOTHING);
    // SAFETY: a null pointer goes with the length 0, all else is of slices.
    unsafe {
        let out = sheet.as_mut_ptr();
        let reply = morgana_shorter(null(), 0, bytes, length, none, 0, none, 0, out, 4);
        assert_eq!(reply, nothing);
        let reply = morgana_shorter(bytes, length, null(), 0, none, 0, none, 0, out, 4);
        assert_eq!(reply, nothing);
        let nowhere = null_mut();
        let reply = morgana_shorter(null(), 0, null(), 0, none, 0, none, 0, nowhere, 0);
        assert_eq!(reply, nothing);
        let reply = morgana_shorter(bytes, length, bytes, length, none, 0, none, 0, nowhere, 0);
        assert_eq!(reply, nothing);
    }
    assert_eq!(sheet, [7; 4]);
    // SAFETY: as above.
    unsafe {
        let out = sheet.as_mut_ptr();
        let reply = morgana_shorter(bytes, length, bytes, length, none, 0, none, 0, out, 4);
        assert_eq!(reply, archive::shorter_reply(Handed { key: 1, length }));
    }
    assert_eq!(sheet, [4, 5, 6, 7]);
}

/// Slices of the calls over p² as null.
#[test]
fn nulls_over_p_squared() {
    let key = single();
    let (bytes, length) = (key.as_ptr(), key.len());
    let mut sheet = [7; 7];
    let none: *const u32 = null();
    let no_sheet = Refusal {
        number: 31,
        place: 6,
    };
    let refused = |key, refusal| archive::compare_reply(Err(CompareRefusal { key, refusal }));
    // SAFETY: a null pointer goes with the length 0, all else is of slices.
    unsafe {
        let out = sheet.as_mut_ptr();
        let reply = morgana_evaluate_quadratic(null(), 0, none, 0, none, 0, out, 7);
        assert_eq!(reply, archive::quadratic_reply(Err(MISSING)));
        let reply = morgana_evaluate_quadratic(bytes, length, none, 0, none, 0, null_mut(), 0);
        assert_eq!(reply, archive::quadratic_reply(Err(no_sheet)));
        let reply = morgana_compare_quadratic(null(), 0, bytes, length, none, 0, none, 0, out, 7);
        assert_eq!(reply, refused(1, MISSING));
        let reply = morgana_compare_quadratic(bytes, length, null(), 0, none, 0, none, 0, out, 7);
        assert_eq!(reply, refused(2, MISSING));
    }
    assert_eq!(sheet, [7; 7]);
    // SAFETY: as above.
    unsafe {
        let out = sheet.as_mut_ptr();
        let reply = morgana_evaluate_quadratic(bytes, length, none, 0, none, 0, out, 7);
        let wanted = without_factors([[4, 0], [5, 0], [6, 0]]);
        assert_eq!(reply, archive::quadratic_reply(wanted));
        let reply =
            morgana_compare_quadratic(bytes, length, bytes, length, none, 0, none, 0, out, 7);
        assert_eq!(reply, archive::compare_reply(SAME));
    }
    assert_eq!(sheet, [4, 0, 5, 0, 6, 0, 7]);
}

/// Slices of the move as null.
#[test]
fn nulls_of_the_move() {
    let key = single();
    let (bytes, length) = (key.as_ptr(), key.len());
    let mut buffer = [7; 30];
    let no_room = Refusal {
        number: 32,
        place: 28,
    };
    // SAFETY: a null pointer goes with the length 0, all else is of slices.
    unsafe {
        let out = buffer.as_mut_ptr();
        let reply = morgana_move(null(), 0, out, 30);
        assert_eq!(reply, archive::move_reply(Err(MISSING)));
        let reply = morgana_move(null(), 0, null_mut(), 0);
        assert_eq!(reply, archive::move_reply(Err(MISSING)));
        let reply = morgana_move(bytes, length, null_mut(), 0);
        assert_eq!(reply, archive::move_reply(Err(no_room)));
    }
    assert_eq!(buffer, [7; 30]);
}
