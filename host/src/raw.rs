//! The C interface of `libmorgana.a`, as `include/morgana.h` gives it.
//!
//! A slice is a pointer and then a length; the pointer of an empty slice may be null. A call is sound
//! where each pointer and its length are of one slice that is lent for the call, the sheet or the
//! buffer overlaps no other slice, and `morgana_version` answers this package's major and minor
//! version: replies of another one may be longer. The functions of the package look at it themselves.
//! In the reply of a refused call every field but `number`, `place` and `key` is 0.

use std::mem::{offset_of, size_of};

/// What `morgana_check` answers.
#[repr(C)]
#[derive(Debug, Clone, Copy, PartialEq, Eq)]
pub struct CheckReply {
    /// The number of the refusal; 0 where nothing is refused.
    pub number: u32,
    /// The place of the refusal; 0 where nothing is refused.
    pub place: u64,
    /// How many arrays the key opens.
    pub arrays: u32,
    /// How many cells it has.
    pub cells: u32,
    /// How many calls it has.
    pub calls: u32,
    /// The head's row bits n.
    pub rows: u32,
    /// The head's column bits n'.
    pub columns: u32,
}

/// What `morgana_evaluate` and `morgana_cell` answer.
#[repr(C)]
#[derive(Debug, Clone, Copy, PartialEq, Eq)]
pub struct EvaluateReply {
    /// The number of the refusal; 0 where nothing is refused.
    pub number: u32,
    /// The place of the refusal; 0 where nothing is refused.
    pub place: u64,
    /// The last array's A.
    pub a: u32,
    /// The last array's B.
    pub b: u32,
    /// The last array's C.
    pub c: u32,
    /// The key's count of factors.
    pub factors: u64,
}

/// What `morgana_evaluate_quadratic` answers.
#[repr(C)]
#[derive(Debug, Clone, Copy, PartialEq, Eq)]
pub struct QuadraticReply {
    /// The number of the refusal; 0 where nothing is refused.
    pub number: u32,
    /// The place of the refusal; 0 where nothing is refused.
    pub place: u64,
    /// The u of the last array's A.
    pub a_u: u32,
    /// The v of the last array's A.
    pub a_v: u32,
    /// The u of the last array's B.
    pub b_u: u32,
    /// The v of the last array's B.
    pub b_v: u32,
    /// The u of the last array's C.
    pub c_u: u32,
    /// The v of the last array's C.
    pub c_v: u32,
    /// The key's count of factors.
    pub factors: u64,
}

/// What `morgana_compare` and `morgana_compare_quadratic` answer.
#[repr(C)]
#[derive(Debug, Clone, Copy, PartialEq, Eq)]
pub struct CompareReply {
    /// The number of the refusal; 0 where nothing is refused.
    pub number: u32,
    /// The place of the refusal; 0 where nothing is refused.
    pub place: u64,
    /// The key at fault: 1 the first, 2 the second, 0 neither.
    pub key: u32,
    /// 1 where the answer is "same", else 0.
    pub same: u32,
    /// The count of factors of both keys.
    pub factors: u64,
}

/// What `morgana_locate` answers.
#[repr(C)]
#[derive(Debug, Clone, Copy, PartialEq, Eq)]
pub struct LocateReply {
    /// The number of the refusal; 0 where nothing is refused.
    pub number: u32,
    /// The place of the refusal; 0 where nothing is refused.
    pub place: u64,
    /// The key at fault: 1 the first, 2 the second, 0 neither.
    pub key: u32,
    /// 1 where the answer is "same", and then every field behind it is 0; else 0.
    pub same: u32,
    /// The row of a cell in which the keys differ.
    pub row: u32,
    /// Its column.
    pub column: u32,
    /// The first key's A there.
    pub first_a: u32,
    /// The first key's B there.
    pub first_b: u32,
    /// The first key's C there.
    pub first_c: u32,
    /// The second key's A there.
    pub second_a: u32,
    /// The second key's B there.
    pub second_b: u32,
    /// The second key's C there.
    pub second_c: u32,
}

/// What `morgana_shorter` answers.
#[repr(C)]
#[derive(Debug, Clone, Copy, PartialEq, Eq)]
pub struct ShorterReply {
    /// What is handed back: 1 the first key, 2 the second, 0 the empty beginning of the first.
    pub key: u32,
    /// Its length in bytes; 0 where `key` is 0.
    pub length: u64,
}

/// What `morgana_price` answers.
#[repr(C)]
#[derive(Debug, Clone, Copy, PartialEq, Eq)]
pub struct PriceReply {
    /// The number of the refusal; 0 where nothing is refused.
    pub number: u32,
    /// The place of the refusal; 0 where nothing is refused.
    pub place: u64,
    /// The price in whole pence.
    pub pence: u64,
}

/// What `morgana_move` answers.
#[repr(C)]
#[derive(Debug, Clone, Copy, PartialEq, Eq)]
pub struct MoveReply {
    /// The number of the refusal; 0 where nothing is refused.
    pub number: u32,
    /// The place of the refusal; 0 where nothing is refused.
    pub place: u64,
    /// The bytes of the copy.
    pub length: u64,
}

const _: () = {
    assert!(size_of::<CheckReply>() == 40);
    assert!(offset_of!(CheckReply, number) == 0);
    assert!(offset_of!(CheckReply, place) == 8);
    assert!(offset_of!(CheckReply, arrays) == 16);
    assert!(offset_of!(CheckReply, cells) == 20);
    assert!(offset_of!(CheckReply, calls) == 24);
    assert!(offset_of!(CheckReply, rows) == 28);
    assert!(offset_of!(CheckReply, columns) == 32);
};

const _: () = {
    assert!(size_of::<EvaluateReply>() == 40);
    assert!(offset_of!(EvaluateReply, number) == 0);
    assert!(offset_of!(EvaluateReply, place) == 8);
    assert!(offset_of!(EvaluateReply, a) == 16);
    assert!(offset_of!(EvaluateReply, b) == 20);
    assert!(offset_of!(EvaluateReply, c) == 24);
    assert!(offset_of!(EvaluateReply, factors) == 32);
};

const _: () = {
    assert!(size_of::<QuadraticReply>() == 48);
    assert!(offset_of!(QuadraticReply, number) == 0);
    assert!(offset_of!(QuadraticReply, place) == 8);
    assert!(offset_of!(QuadraticReply, a_u) == 16);
    assert!(offset_of!(QuadraticReply, a_v) == 20);
    assert!(offset_of!(QuadraticReply, b_u) == 24);
    assert!(offset_of!(QuadraticReply, b_v) == 28);
    assert!(offset_of!(QuadraticReply, c_u) == 32);
    assert!(offset_of!(QuadraticReply, c_v) == 36);
    assert!(offset_of!(QuadraticReply, factors) == 40);
};

const _: () = {
    assert!(size_of::<CompareReply>() == 32);
    assert!(offset_of!(CompareReply, number) == 0);
    assert!(offset_of!(CompareReply, place) == 8);
    assert!(offset_of!(CompareReply, key) == 16);
    assert!(offset_of!(CompareReply, same) == 20);
    assert!(offset_of!(CompareReply, factors) == 24);
};

const _: () = {
    assert!(size_of::<LocateReply>() == 56);
    assert!(offset_of!(LocateReply, number) == 0);
    assert!(offset_of!(LocateReply, place) == 8);
    assert!(offset_of!(LocateReply, key) == 16);
    assert!(offset_of!(LocateReply, same) == 20);
    assert!(offset_of!(LocateReply, row) == 24);
    assert!(offset_of!(LocateReply, column) == 28);
    assert!(offset_of!(LocateReply, first_a) == 32);
    assert!(offset_of!(LocateReply, first_b) == 36);
    assert!(offset_of!(LocateReply, first_c) == 40);
    assert!(offset_of!(LocateReply, second_a) == 44);
    assert!(offset_of!(LocateReply, second_b) == 48);
    assert!(offset_of!(LocateReply, second_c) == 52);
};

const _: () = {
    assert!(size_of::<PriceReply>() == 24);
    assert!(offset_of!(PriceReply, number) == 0);
    assert!(offset_of!(PriceReply, place) == 8);
    assert!(offset_of!(PriceReply, pence) == 16);
};

const _: () = {
    assert!(size_of::<ShorterReply>() == 16);
    assert!(offset_of!(ShorterReply, key) == 0);
    assert!(offset_of!(ShorterReply, length) == 8);
};

const _: () = {
    assert!(size_of::<MoveReply>() == 24);
    assert!(offset_of!(MoveReply, number) == 0);
    assert!(offset_of!(MoveReply, place) == 8);
    assert!(offset_of!(MoveReply, length) == 16);
};

extern "C" {
    /// The version of the library: 1,000,000 for each major, 1,000 for each minor, 1 for each patch version.
    pub fn morgana_version() -> u32;

    /// Checks a key.
    pub fn morgana_check(key: *const u8, key_length: usize) -> CheckReply;

    /// Evaluates a key at a point and writes every array's triple into the sheet.
    pub fn morgana_evaluate(
        key: *const u8,
        key_length: usize,
        rows: *const u32,
        rows_length: usize,
        columns: *const u32,
        columns_length: usize,
        sheet: *mut u32,
        sheet_length: usize,
    ) -> EvaluateReply;

    /// Answers one cell of the last array's dense matrices.
    pub fn morgana_cell(
        key: *const u8,
        key_length: usize,
        row: u32,
        column: u32,
        sheet: *mut u32,
        sheet_length: usize,
    ) -> EvaluateReply;

    /// Compares two keys at a point.
    pub fn morgana_compare(
        first: *const u8,
        first_length: usize,
        second: *const u8,
        second_length: usize,
        rows: *const u32,
        rows_length: usize,
        columns: *const u32,
        columns_length: usize,
        sheet: *mut u32,
        sheet_length: usize,
    ) -> CompareReply;

    /// Compares two keys at a point, and names a cell in which they differ where they are different there.
    pub fn morgana_locate(
        first: *const u8,
        first_length: usize,
        second: *const u8,
        second_length: usize,
        rows: *const u32,
        rows_length: usize,
        columns: *const u32,
        columns_length: usize,
        sheet: *mut u32,
        sheet_length: usize,
    ) -> LocateReply;

    /// Compares two keys at a point, and hands back the shorter where they are the same there.
    pub fn morgana_shorter(
        first: *const u8,
        first_length: usize,
        second: *const u8,
        second_length: usize,
        rows: *const u32,
        rows_length: usize,
        columns: *const u32,
        columns_length: usize,
        sheet: *mut u32,
        sheet_length: usize,
    ) -> ShorterReply;

    /// Evaluates a key at a point of two numbers a coordinate and writes the six numbers of every array into the sheet.
    pub fn morgana_evaluate_quadratic(
        key: *const u8,
        key_length: usize,
        rows: *const u32,
        rows_length: usize,
        columns: *const u32,
        columns_length: usize,
        sheet: *mut u32,
        sheet_length: usize,
    ) -> QuadraticReply;

    /// Compares two keys at a point of two numbers a coordinate.
    pub fn morgana_compare_quadratic(
        first: *const u8,
        first_length: usize,
        second: *const u8,
        second_length: usize,
        rows: *const u32,
        rows_length: usize,
        columns: *const u32,
        columns_length: usize,
        sheet: *mut u32,
        sheet_length: usize,
    ) -> CompareReply;

    /// Prices a key at rates in hundredths of a penny.
    pub fn morgana_price(
        key: *const u8,
        key_length: usize,
        per_cell: u32,
        per_call: u32,
        per_factor: u32,
    ) -> PriceReply;

    /// Copies a key, to the start of the buffer, into the edition that its head is not.
    pub fn morgana_move(
        key: *const u8,
        key_length: usize,
        buffer: *mut u8,
        buffer_length: usize,
    ) -> MoveReply;
}
