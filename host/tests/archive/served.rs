//! The fields over which the archive evaluates and compares, with the calls over each.

use std::fmt::Debug;

use morgana::raw::{CompareReply, EvaluateReply, QuadraticReply};

use super::*;
use crate::independent::field::{Fp, Quadratic};
use crate::independent::pass::Lazy;

/// A field with the archive's calls over it.
pub trait Served: Lazy {
    /// What stands behind the names of the calls.
    const SUFFIX: &'static str;
    /// What evaluate replies as C sees it.
    type Reply: Debug + PartialEq;

    /// Evaluate's answer through the safe call.
    fn evaluate(
        key: &[u8],
        rows: &[u32],
        columns: &[u32],
        sheet: &mut [u32],
    ) -> Result<Evaluated<Self>, Refusal>;

    /// Evaluate's reply as C sees it.
    fn raw_evaluate(key: &[u8], rows: &[u32], columns: &[u32], sheet: &mut [u32]) -> Self::Reply;

    /// The reply that evaluate gives for an answer.
    fn reply(answer: Result<Evaluated<Self>, Refusal>) -> Self::Reply;

    /// Compare's answer through the safe call.
    fn compare(
        first: &[u8],
        second: &[u8],
        rows: &[u32],
        columns: &[u32],
        sheet: &mut [u32],
    ) -> Result<Compared, CompareRefusal>;

    /// Compare's reply as C sees it.
    fn raw_compare(
        first: &[u8],
        second: &[u8],
        rows: &[u32],
        columns: &[u32],
        sheet: &mut [u32],
    ) -> CompareReply;
}

impl Served for Fp {
    const SUFFIX: &'static str = "";
    type Reply = EvaluateReply;

    fn evaluate(
        key: &[u8],
        rows: &[u32],
        columns: &[u32],
        sheet: &mut [u32],
    ) -> Result<Evaluated<Fp>, Refusal> {
        evaluate(key, rows, columns, sheet)
    }

    fn raw_evaluate(key: &[u8], rows: &[u32], columns: &[u32], sheet: &mut [u32]) -> EvaluateReply {
        raw_evaluate(key, rows, columns, sheet)
    }

    fn reply(answer: Result<Evaluated<Fp>, Refusal>) -> EvaluateReply {
        evaluate_reply(answer)
    }

    fn compare(
        first: &[u8],
        second: &[u8],
        rows: &[u32],
        columns: &[u32],
        sheet: &mut [u32],
    ) -> Result<Compared, CompareRefusal> {
        compare(first, second, rows, columns, sheet)
    }

    fn raw_compare(
        first: &[u8],
        second: &[u8],
        rows: &[u32],
        columns: &[u32],
        sheet: &mut [u32],
    ) -> CompareReply {
        raw_compare(first, second, rows, columns, sheet)
    }
}

impl Served for Quadratic {
    const SUFFIX: &'static str = " over p²";
    type Reply = QuadraticReply;

    fn evaluate(
        key: &[u8],
        rows: &[u32],
        columns: &[u32],
        sheet: &mut [u32],
    ) -> Result<Evaluated<Quadratic>, Refusal> {
        evaluate_quadratic(key, rows, columns, sheet)
    }

    fn raw_evaluate(
        key: &[u8],
        rows: &[u32],
        columns: &[u32],
        sheet: &mut [u32],
    ) -> QuadraticReply {
        raw_evaluate_quadratic(key, rows, columns, sheet)
    }

    fn reply(answer: Result<Evaluated<Quadratic>, Refusal>) -> QuadraticReply {
        quadratic_reply(answer)
    }

    fn compare(
        first: &[u8],
        second: &[u8],
        rows: &[u32],
        columns: &[u32],
        sheet: &mut [u32],
    ) -> Result<Compared, CompareRefusal> {
        compare_quadratic(first, second, rows, columns, sheet)
    }

    fn raw_compare(
        first: &[u8],
        second: &[u8],
        rows: &[u32],
        columns: &[u32],
        sheet: &mut [u32],
    ) -> CompareReply {
        raw_compare_quadratic(first, second, rows, columns, sheet)
    }
}
