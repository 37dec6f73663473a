//! The replies as C sees them: every field, all others 0 where the answer is a refusal.

use morgana::raw::{self, CheckReply, CompareReply, EvaluateReply};
use morgana::raw::{LocateReply, MoveReply, PriceReply, QuadraticReply, ShorterReply};

use crate::independent::field::{Field, Fp, Quadratic};
use crate::independent::{
    CompareRefusal, Compared, Counts, DifferingCell, Evaluated, Handed, Refusal,
};

/// The reply that check gives for an answer: all other fields 0 where it is a refusal.
pub fn check_reply(answer: Result<Counts, Refusal>) -> CheckReply {
    match answer {
        Ok(counts) => CheckReply {
            number: 0,
            place: 0,
            arrays: counts.arrays,
            cells: counts.cells,
            calls: counts.calls,
            rows: counts.rows,
            columns: counts.columns,
        },
        Err(Refusal { number, place }) => CheckReply {
            number,
            place,
            arrays: 0,
            cells: 0,
            calls: 0,
            rows: 0,
            columns: 0,
        },
    }
}

/// The reply that evaluate and cell give for an answer.
pub fn evaluate_reply(answer: Result<Evaluated<Fp>, Refusal>) -> EvaluateReply {
    let (number, place, [a, b, c], factors) = parts(answer);
    EvaluateReply {
        number,
        place,
        a,
        b,
        c,
        factors,
    }
}

/// The reply that evaluate over p² gives for an answer.
pub fn quadratic_reply(answer: Result<Evaluated<Quadratic>, Refusal>) -> QuadraticReply {
    let (number, place, [[a_u, a_v], [b_u, b_v], [c_u, c_v]], factors) = parts(answer);
    QuadraticReply {
        number,
        place,
        a_u,
        a_v,
        b_u,
        b_v,
        c_u,
        c_v,
        factors,
    }
}

/// What the reply of evaluate has for an answer: number and place, the values and the count of factors.
fn parts<F: Field>(answer: Result<Evaluated<F>, Refusal>) -> (u32, u64, [F; 3], u64) {
    match answer {
        Ok(Evaluated { values, factors }) => (0, 0, values, factors),
        Err(Refusal { number, place }) => (number, place, [F::default(); 3], 0),
    }
}

/// The reply that compare gives for an answer.
pub fn compare_reply(answer: Result<Compared, CompareRefusal>) -> CompareReply {
    match answer {
        Ok(Compared { same, factors }) => CompareReply {
            number: 0,
            place: 0,
            key: 0,
            same: same.into(),
            factors,
        },
        Err(CompareRefusal { key, refusal }) => CompareReply {
            number: refusal.number,
            place: refusal.place,
            key,
            same: 0,
            factors: 0,
        },
    }
}

/// The reply that locate gives for an answer: where it is "same" or a refusal, no field has a cell.
pub fn locate_reply(answer: Result<Option<DifferingCell>, CompareRefusal>) -> LocateReply {
    let (key, refusal, cell) = match answer {
        Ok(cell) => (0, None, cell),
        Err(CompareRefusal { key, refusal }) => (key, Some(refusal), None),
    };
    let nothing = DifferingCell {
        row: 0,
        column: 0,
        first: [0; 3],
        second: [0; 3],
    };
    let DifferingCell {
        row,
        column,
        first: [first_a, first_b, first_c],
        second: [second_a, second_b, second_c],
    } = cell.unwrap_or(nothing);
    LocateReply {
        number: refusal.map_or(0, |refusal| refusal.number),
        place: refusal.map_or(0, |refusal| refusal.place),
        key,
        same: (answer == Ok(None)).into(),
        row,
        column,
        first_a,
        first_b,
        first_c,
        second_a,
        second_b,
        second_c,
    }
}

/// The reply that shorter gives for what it hands back.
pub fn shorter_reply(handed: Handed) -> ShorterReply {
    ShorterReply {
        key: handed.key,
        length: handed.length as u64,
    }
}

/// The reply that price gives for an answer.
pub fn price_reply(answer: Result<u64, Refusal>) -> PriceReply {
    match answer {
        Ok(pence) => PriceReply {
            number: 0,
            place: 0,
            pence,
        },
        Err(Refusal { number, place }) => PriceReply {
            number,
            place,
            pence: 0,
        },
    }
}

/// The reply that the move gives for an answer.
pub fn move_reply(answer: Result<usize, Refusal>) -> MoveReply {
    match answer {
        Ok(length) => MoveReply {
            number: 0,
            place: 0,
            length: length as u64,
        },
        Err(Refusal { number, place }) => MoveReply {
            number,
            place,
            length: 0,
        },
    }
}

/// Check's reply as C sees it.
pub fn raw_check(key: &[u8]) -> CheckReply {
    // SAFETY: the pointer and the length are those of a slice.
    unsafe { raw::morgana_check(key.as_ptr(), key.len()) }
}

/// Evaluate's reply as C sees it.
pub fn raw_evaluate(key: &[u8], rows: &[u32], columns: &[u32], sheet: &mut [u32]) -> EvaluateReply {
    // SAFETY: each pointer and length are those of a slice, and the sheet overlaps no other.
    unsafe {
        raw::morgana_evaluate(
            key.as_ptr(),
            key.len(),
            rows.as_ptr(),
            rows.len(),
            columns.as_ptr(),
            columns.len(),
            sheet.as_mut_ptr(),
            sheet.len(),
        )
    }
}

/// Cell's reply as C sees it.
pub fn raw_cell(key: &[u8], row: u32, column: u32, sheet: &mut [u32]) -> EvaluateReply {
    // SAFETY: each pointer and length are those of a slice, and the sheet overlaps no other.
    unsafe {
        raw::morgana_cell(
            key.as_ptr(),
            key.len(),
            row,
            column,
            sheet.as_mut_ptr(),
            sheet.len(),
        )
    }
}

/// Compare's reply as C sees it.
pub fn raw_compare(
    first: &[u8],
    second: &[u8],
    rows: &[u32],
    columns: &[u32],
    sheet: &mut [u32],
) -> CompareReply {
    // SAFETY: each pointer and length are those of a slice, and the sheet overlaps no other.
    unsafe {
        raw::morgana_compare(
            first.as_ptr(),
            first.len(),
            second.as_ptr(),
            second.len(),
            rows.as_ptr(),
            rows.len(),
            columns.as_ptr(),
            columns.len(),
            sheet.as_mut_ptr(),
            sheet.len(),
        )
    }
}

/// Locate's reply as C sees it.
pub fn raw_locate(
    first: &[u8],
    second: &[u8],
    rows: &[u32],
    columns: &[u32],
    sheet: &mut [u32],
) -> LocateReply {
    // SAFETY: each pointer and length are those of a slice, and the sheet overlaps no other.
    unsafe {
        raw::morgana_locate(
            first.as_ptr(),
            first.len(),
            second.as_ptr(),
            second.len(),
            rows.as_ptr(),
            rows.len(),
            columns.as_ptr(),
            columns.len(),
            sheet.as_mut_ptr(),
            sheet.len(),
        )
    }
}

/// Shorter's reply as C sees it.
pub fn raw_shorter(
    first: &[u8],
    second: &[u8],
    rows: &[u32],
    columns: &[u32],
    sheet: &mut [u32],
) -> ShorterReply {
    // SAFETY: each pointer and length are those of a slice, and the sheet overlaps no other.
    unsafe {
        raw::morgana_shorter(
            first.as_ptr(),
            first.len(),
            second.as_ptr(),
            second.len(),
            rows.as_ptr(),
            rows.len(),
            columns.as_ptr(),
            columns.len(),
            sheet.as_mut_ptr(),
            sheet.len(),
        )
    }
}

/// Evaluate's reply over p² as C sees it.
pub fn raw_evaluate_quadratic(
    key: &[u8],
    rows: &[u32],
    columns: &[u32],
    sheet: &mut [u32],
) -> QuadraticReply {
    // SAFETY: each pointer and length are those of a slice, and the sheet overlaps no other.
    unsafe {
        raw::morgana_evaluate_quadratic(
            key.as_ptr(),
            key.len(),
            rows.as_ptr(),
            rows.len(),
            columns.as_ptr(),
            columns.len(),
            sheet.as_mut_ptr(),
            sheet.len(),
        )
    }
}

/// Compare's reply over p² as C sees it.
pub fn raw_compare_quadratic(
    first: &[u8],
    second: &[u8],
    rows: &[u32],
    columns: &[u32],
    sheet: &mut [u32],
) -> CompareReply {
    // SAFETY: each pointer and length are those of a slice, and the sheet overlaps no other.
    unsafe {
        raw::morgana_compare_quadratic(
            first.as_ptr(),
            first.len(),
            second.as_ptr(),
            second.len(),
            rows.as_ptr(),
            rows.len(),
            columns.as_ptr(),
            columns.len(),
            sheet.as_mut_ptr(),
            sheet.len(),
        )
    }
}

/// Price's reply as C sees it.
pub fn raw_price(key: &[u8], [cell, call, factor]: [u32; 3]) -> PriceReply {
    // SAFETY: the pointer and the length are those of a slice.
    unsafe { raw::morgana_price(key.as_ptr(), key.len(), cell, call, factor) }
}

/// The move's reply as C sees it.
pub fn raw_move(key: &[u8], buffer: &mut [u8]) -> MoveReply {
    // SAFETY: each pointer and length are those of a slice, and the buffer overlaps no other.
    unsafe { raw::morgana_move(key.as_ptr(), key.len(), buffer.as_mut_ptr(), buffer.len()) }
}
