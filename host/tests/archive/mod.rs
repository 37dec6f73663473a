//! The archive's answers in the terms of the independent implementation, through the safe calls and
//! through those that C sees.

// Each test program uses a part of these modules.
#![allow(dead_code)]

mod replies;
mod served;

use morgana::{Located, QuadraticValues, Rates, Values, Which};

use crate::independent::field::{Fp, Quadratic};
use crate::independent::{CompareRefusal, Compared, Counts, DifferingCell, Evaluated, Refusal};
pub use replies::*;
pub use served::Served;

/// Check's answer through the safe call.
pub fn check(key: &[u8]) -> Result<Counts, Refusal> {
    let answer = morgana::check(key).map_err(refusal)?;
    Ok(Counts {
        arrays: answer.arrays,
        cells: answer.cells,
        calls: answer.calls,
        rows: answer.rows,
        columns: answer.columns,
    })
}

/// Evaluate's answer through the safe call.
pub fn evaluate(
    key: &[u8],
    rows: &[u32],
    columns: &[u32],
    sheet: &mut [u32],
) -> Result<Evaluated<Fp>, Refusal> {
    evaluated(morgana::evaluate(key, rows, columns, sheet))
}

/// Cell's answer through the safe call.
pub fn cell(
    key: &[u8],
    row: u32,
    column: u32,
    sheet: &mut [u32],
) -> Result<Evaluated<Fp>, Refusal> {
    evaluated(morgana::cell(key, row, column, sheet))
}

/// Compare's answer through the safe call.
pub fn compare(
    first: &[u8],
    second: &[u8],
    rows: &[u32],
    columns: &[u32],
    sheet: &mut [u32],
) -> Result<Compared, CompareRefusal> {
    compared(morgana::compare(first, second, rows, columns, sheet))
}

/// Locate's answer through the safe call: none where the keys are the same at the point.
pub fn locate(
    first: &[u8],
    second: &[u8],
    rows: &[u32],
    columns: &[u32],
    sheet: &mut [u32],
) -> Result<Option<DifferingCell>, CompareRefusal> {
    let triple = |values: Values| [values.a, values.b, values.c];
    match morgana::locate(first, second, rows, columns, sheet).map_err(refusal_of_two)? {
        Located::Same => Ok(None),
        Located::Differs(cell) => Ok(Some(DifferingCell {
            row: cell.row,
            column: cell.column,
            first: triple(cell.first),
            second: triple(cell.second),
        })),
        other => panic!("an answer of no list: {other:?}"),
    }
}

/// What shorter hands back through the safe call.
pub fn shorter<'a>(
    first: &'a [u8],
    second: &'a [u8],
    rows: &[u32],
    columns: &[u32],
    sheet: &mut [u32],
) -> &'a [u8] {
    morgana::shorter(first, second, rows, columns, sheet)
}

/// Evaluate's answer over p² through the safe call.
pub fn evaluate_quadratic(
    key: &[u8],
    rows: &[u32],
    columns: &[u32],
    sheet: &mut [u32],
) -> Result<Evaluated<Quadratic>, Refusal> {
    let answer = morgana::evaluate_quadratic(key, rows, columns, sheet).map_err(refusal)?;
    let QuadraticValues { a, b, c } = answer.values;
    Ok(Evaluated {
        values: [a, b, c].map(|element| [element.u, element.v]),
        factors: answer.factors,
    })
}

/// Compare's answer over p² through the safe call.
pub fn compare_quadratic(
    first: &[u8],
    second: &[u8],
    rows: &[u32],
    columns: &[u32],
    sheet: &mut [u32],
) -> Result<Compared, CompareRefusal> {
    compared(morgana::compare_quadratic(
        first, second, rows, columns, sheet,
    ))
}

/// Price's answer through the safe call, at rates per cell, per call and per factor.
pub fn price(key: &[u8], [cell, call, factor]: [u32; 3]) -> Result<u64, Refusal> {
    morgana::price(key, Rates { cell, call, factor }).map_err(refusal)
}

/// The move's answer through the safe call.
pub fn moved(key: &[u8], buffer: &mut [u8]) -> Result<usize, Refusal> {
    morgana::moved(key, buffer).map_err(refusal)
}

/// An answer of evaluate or cell in the terms of the independent implementation.
fn evaluated(
    answer: Result<morgana::Evaluated<Values>, morgana::Refusal>,
) -> Result<Evaluated<Fp>, Refusal> {
    let answer = answer.map_err(refusal)?;
    let Values { a, b, c } = answer.values;
    Ok(Evaluated {
        values: [a, b, c],
        factors: answer.factors,
    })
}

/// An answer of compare in the terms of the independent implementation.
fn compared(
    answer: Result<morgana::Compared, morgana::CompareRefusal>,
) -> Result<Compared, CompareRefusal> {
    let answer = answer.map_err(refusal_of_two)?;
    Ok(Compared {
        same: answer.same,
        factors: answer.factors,
    })
}

/// A refusal of compare or locate in the terms of the independent implementation.
fn refusal_of_two(refused: morgana::CompareRefusal) -> CompareRefusal {
    CompareRefusal {
        key: match refused.which {
            Which::First => 1,
            Which::Second => 2,
            Which::Neither => 0,
        },
        refusal: refusal(refused.refusal),
    }
}

/// A refusal in the terms of the independent implementation.
fn refusal(refused: morgana::Refusal) -> Refusal {
    Refusal {
        number: refused.number,
        place: refused.place,
    }
}
