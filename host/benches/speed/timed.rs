//! The calls that are timed.

use std::hint::black_box;

use crate::independent::field::{Fp, Quadratic};
use crate::independent::pass;
use crate::independent::pass::factors::Factors;
use crate::independent::pass::tables::Tables;
use crate::keys::Sample;
use crate::measure::{alternate, Row};

/// Times evaluate, and beside it a bare chain of as many dependent products.
pub fn evaluate(sample: &Sample) -> Row {
    let Sample {
        key, rows, columns, ..
    } = sample;
    let mut sheets = [sample.sheet(), sample.sheet(), sample.sheet()];
    let [of_archive, of_factors, of_tables] = &mut sheets;
    let times = alternate([
        &mut || {
            let answer = morgana::evaluate(black_box(key), rows, columns, of_archive);
            black_box(answer).is_ok()
        },
        &mut || {
            let answer = pass::evaluate::<Factors<Fp>>(black_box(key), rows, columns, of_factors);
            black_box(answer).is_ok()
        },
        &mut || {
            let answer = pass::evaluate::<Tables<Fp>>(black_box(key), rows, columns, of_tables);
            black_box(answer).is_ok()
        },
        &mut || black_box(chain(sample.factors, black_box(rows[0]))) != 0,
    ]);
    Row {
        call: "evaluate",
        sample: sample.name,
        bytes: key.len(),
        factors: Some(sample.factors),
        archive: times[0],
        rust: times[1],
        tables: Some(times[2]),
        reference: Some(("chain", times[3])),
    }
}

/// One chain of dependent products modulo p, each folded once as the pass by factors does.
fn chain(count: usize, factor: u32) -> u32 {
    const P: u32 = morgana::P;
    let mut product = factor;
    for _ in 0..count {
        let wide = u64::from(product) * u64::from(factor);
        let folded = ((wide & u64::from(P)) + (wide >> 31)) as u32;
        product = match folded.overflowing_sub(P) {
            (_, true) => folded,
            (less, false) => less,
        };
    }
    product
}

/// Times check, and beside it a sum over the same bytes.
pub fn check(sample: &Sample) -> Row {
    let key = &sample.key;
    let times = alternate([
        &mut || black_box(morgana::check(black_box(key))).is_ok(),
        &mut || black_box(pass::check(black_box(key))).is_ok(),
        &mut || {
            let bytes = black_box(key).iter();
            black_box(bytes.map(|&byte| u32::from(byte)).sum::<u32>()) != 0
        },
    ]);
    Row {
        call: "check",
        sample: sample.name,
        bytes: key.len(),
        factors: None,
        archive: times[0],
        rust: times[1],
        tables: None,
        reference: Some(("sum of bytes", times[2])),
    }
}

/// Times compare of the key with one of which a cell has another C.
pub fn compare(sample: &Sample) -> Row {
    let Sample {
        key,
        other,
        rows,
        columns,
        ..
    } = sample;
    let mut sheets = [sample.sheet(), sample.sheet(), sample.sheet()];
    let [of_archive, of_factors, of_tables] = &mut sheets;
    let times = alternate([
        &mut || {
            let answer = morgana::compare(black_box(key), other, rows, columns, of_archive);
            black_box(answer).is_ok()
        },
        &mut || {
            let key = black_box(key);
            let answer = pass::compare::<Factors<Fp>>(key, other, rows, columns, of_factors);
            black_box(answer).is_ok()
        },
        &mut || {
            let key = black_box(key);
            let answer = pass::compare::<Tables<Fp>>(key, other, rows, columns, of_tables);
            black_box(answer).is_ok()
        },
    ]);
    Row {
        call: "compare",
        sample: sample.name,
        bytes: key.len() + other.len(),
        factors: Some(2 * sample.factors),
        archive: times[0],
        rust: times[1],
        tables: Some(times[2]),
        reference: None,
    }
}

/// Times evaluate over p², and beside it the archive's over p.
pub fn evaluate_quadratic(sample: &Sample) -> Row {
    let Sample {
        key,
        rows,
        columns,
        quadratic_rows,
        quadratic_columns,
        ..
    } = sample;
    let mut sheets = [(); 4].map(|()| sample.sheet());
    let [of_archive, of_factors, of_tables, over_p] = &mut sheets;
    let times = alternate([
        &mut || {
            let (rows, columns) = (quadratic_rows, quadratic_columns);
            let answer = morgana::evaluate_quadratic(black_box(key), rows, columns, of_archive);
            black_box(answer).is_ok()
        },
        &mut || {
            let (key, rows, columns) = (black_box(key), quadratic_rows, quadratic_columns);
            let answer = pass::evaluate::<Factors<Quadratic>>(key, rows, columns, of_factors);
            black_box(answer).is_ok()
        },
        &mut || {
            let (key, rows, columns) = (black_box(key), quadratic_rows, quadratic_columns);
            let answer = pass::evaluate::<Tables<Quadratic>>(key, rows, columns, of_tables);
            black_box(answer).is_ok()
        },
        &mut || {
            let answer = morgana::evaluate(black_box(key), rows, columns, over_p);
            black_box(answer).is_ok()
        },
    ]);
    Row {
        call: "eval p²",
        sample: sample.name,
        bytes: key.len(),
        factors: Some(sample.factors),
        archive: times[0],
        rust: times[1],
        tables: Some(times[2]),
        reference: Some(("over p", times[3])),
    }
}

/// Times compare over p² of the key with one of which a cell has another C, and beside it the archive's
/// over p.
pub fn compare_quadratic(sample: &Sample) -> Row {
    let Sample {
        key,
        other,
        rows,
        columns,
        quadratic_rows,
        quadratic_columns,
        ..
    } = sample;
    let mut sheets = [(); 4].map(|()| sample.sheet());
    let [of_archive, of_factors, of_tables, over_p] = &mut sheets;
    let times = alternate([
        &mut || {
            let (key, rows, columns) = (black_box(key), quadratic_rows, quadratic_columns);
            let answer = morgana::compare_quadratic(key, other, rows, columns, of_archive);
            black_box(answer).is_ok()
        },
        &mut || {
            let (key, rows, columns) = (black_box(key), quadratic_rows, quadratic_columns);
            let answer = pass::compare::<Factors<Quadratic>>(key, other, rows, columns, of_factors);
            black_box(answer).is_ok()
        },
        &mut || {
            let (key, rows, columns) = (black_box(key), quadratic_rows, quadratic_columns);
            let answer = pass::compare::<Tables<Quadratic>>(key, other, rows, columns, of_tables);
            black_box(answer).is_ok()
        },
        &mut || {
            let answer = morgana::compare(black_box(key), other, rows, columns, over_p);
            black_box(answer).is_ok()
        },
    ]);
    Row {
        call: "comp p²",
        sample: sample.name,
        bytes: key.len() + other.len(),
        factors: Some(2 * sample.factors),
        archive: times[0],
        rust: times[1],
        tables: Some(times[2]),
        reference: Some(("over p", times[3])),
    }
}
