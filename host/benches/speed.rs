//! The archive beside the independent Rust pass, on the same inputs in one run: evaluate, check and
//! compare on full-size keys, also of edition 2, on short ones and on sizes between, on towers and on keys
//! of narrow and of many arrays. The rounds of all sides alternate, and the table gives medians. `Rust` multiplies factor by
//! factor; `tables` takes five factors at a time from tables; `best` is the ratio to the better of the
//! two, and the last line names the highest. (The archive takes limbs of five where they pay.)
//!
//! The reference beside evaluate is one bare chain of as many dependent products as the key has
//! factors, beside check a sum over the same bytes, and beside evaluate and compare over p² (`eval p²`,
//! `comp p²`) the archive's own call over p.
//!
//! Price stands in a table of its own, beside the archive's check and evaluate.
//!
//! Where `KEYSHEET` names the keysheet program and `EMPTY` a program that does nothing, both are
//! run from start to end too.
//!
//! Arguments choose the keys whose names contain one of them: `cargo bench --bench speed -- tower`.

#[path = "../tests/generator/mod.rs"]
mod generator;
#[path = "../tests/independent/mod.rs"]
mod independent;
#[path = "speed/keys.rs"]
mod keys;
#[path = "speed/measure.rs"]
mod measure;
#[path = "speed/prices.rs"]
mod prices;
#[path = "speed/programs.rs"]
mod programs;
#[path = "speed/records.rs"]
mod records;
#[path = "speed/timed.rs"]
mod timed;
#[path = "speed/towers.rs"]
mod towers;

use std::env;

use independent::field::{Fp, Quadratic};
use independent::pass;
use independent::pass::factors::Factors;
use independent::pass::tables::Tables;
use keys::Sample;
use measure::Row;

/// Prints the table, that of price, the times of the programs if they are named, and the highest ratios.
fn main() {
    let samples = chosen(keys::samples());
    assert!(!samples.is_empty(), "no key has such a name");
    for sample in &samples {
        hold_equal(sample);
        hold_equal_over_p_squared(sample);
    }
    println!("{}", Row::heading());
    let evaluated = print(&samples, timed::evaluate);
    print(&samples, timed::check);
    let compared = print(&samples, timed::compare);
    let evaluated_quadratic = print(&samples, timed::evaluate_quadratic);
    let compared_quadratic = print(&samples, timed::compare_quadratic);
    prices::run(&samples);
    programs::run(&chosen(keys::inputs()));
    let all = [evaluated, compared, evaluated_quadratic, compared_quadratic];
    let highest = all.map(|rows| highest(&rows));
    println!("highest best: {}", highest.join(", "));
}

/// The samples whose names contain one of the arguments; all where there is none.
fn chosen(mut samples: Vec<Sample>) -> Vec<Sample> {
    // Cargo adds an option of its own.
    let is_word = |argument: &String| !argument.starts_with('-');
    let words: Vec<String> = env::args().skip(1).filter(is_word).collect();
    samples
        .retain(|sample| words.is_empty() || words.iter().any(|word| sample.name.contains(word)));
    samples
}

/// Times a call on every sample, and prints each row as it comes.
fn print(samples: &[Sample], timed: fn(&Sample) -> Row) -> Vec<Row> {
    let mut rows = Vec::new();
    for sample in samples {
        let row = timed(sample);
        println!("{row}");
        rows.push(row);
    }
    rows
}

/// The highest ratio to the better Rust pass, with its row.
fn highest(rows: &[Row]) -> String {
    let best = |row: &&Row| row.best().unwrap_or_default();
    let highest = rows.iter().max_by(|a, b| best(a).total_cmp(&best(b)));
    let row = highest.expect("some key is timed");
    format!("{} {:.2} on {}", row.call, best(&row), row.sample)
}

/// Asserts that all sides give the same answers and sheets, before any is timed.
fn hold_equal(sample: &Sample) {
    let Sample {
        key,
        other,
        rows,
        columns,
        ..
    } = sample;
    let wanted = pass::check(key).expect("the key is accepted");
    let got = morgana::check(key).expect("the key is accepted");
    assert_eq!(
        [got.arrays, got.cells, got.calls, got.rows, got.columns],
        [
            wanted.arrays,
            wanted.cells,
            wanted.calls,
            wanted.rows,
            wanted.columns
        ]
    );
    let mut sheets = [sample.sheet(), sample.sheet(), sample.sheet()];
    let [of_archive, of_factors, of_tables] = &mut sheets;
    let got = morgana::evaluate(key, rows, columns, of_archive).expect("the point fits");
    assert_eq!(got.factors, sample.factors as u64);
    assert_eq!(pass::factors(key), Ok(got.factors));
    let got = got.values;
    let wanted = Ok([got.a, got.b, got.c]);
    let answer = pass::evaluate::<Factors<Fp>>(key, rows, columns, of_factors);
    assert_eq!(answer, wanted);
    let answer = pass::evaluate::<Tables<Fp>>(key, rows, columns, of_tables);
    assert_eq!(answer, wanted);
    assert_eq!(of_archive, of_factors);
    assert_eq!(of_archive, of_tables);
    let got = morgana::compare(key, other, rows, columns, of_archive).expect("the keys fit");
    let same = got.same;
    assert_eq!(same, key == other);
    assert_eq!(got.factors, 2 * sample.factors as u64);
    let answer = pass::compare::<Factors<Fp>>(key, other, rows, columns, of_factors);
    assert_eq!(answer, Ok(same));
    let answer = pass::compare::<Tables<Fp>>(key, other, rows, columns, of_tables);
    assert_eq!(answer, Ok(same));
    assert_eq!(of_archive, of_factors);
    assert_eq!(of_archive, of_tables);
}

/// The same over p².
fn hold_equal_over_p_squared(sample: &Sample) {
    let Sample {
        key,
        other,
        quadratic_rows: rows,
        quadratic_columns: columns,
        ..
    } = sample;
    let mut sheets = [sample.sheet(), sample.sheet(), sample.sheet()];
    let [of_archive, of_factors, of_tables] = &mut sheets;
    let got = morgana::evaluate_quadratic(key, rows, columns, of_archive).expect("the point fits");
    assert_eq!(got.factors, sample.factors as u64);
    let got = got.values;
    let wanted = Ok([got.a, got.b, got.c].map(|element| [element.u, element.v]));
    let answer = pass::evaluate::<Factors<Quadratic>>(key, rows, columns, of_factors);
    assert_eq!(answer, wanted);
    let answer = pass::evaluate::<Tables<Quadratic>>(key, rows, columns, of_tables);
    assert_eq!(answer, wanted);
    assert_eq!(of_archive, of_factors);
    assert_eq!(of_archive, of_tables);
    let got =
        morgana::compare_quadratic(key, other, rows, columns, of_archive).expect("the keys fit");
    let same = got.same;
    assert_eq!(same, key == other);
    assert_eq!(got.factors, 2 * sample.factors as u64);
    let answer = pass::compare::<Factors<Quadratic>>(key, other, rows, columns, of_factors);
    assert_eq!(answer, Ok(same));
    let answer = pass::compare::<Tables<Quadratic>>(key, other, rows, columns, of_tables);
    assert_eq!(answer, Ok(same));
    assert_eq!(of_archive, of_factors);
    assert_eq!(of_archive, of_tables);
}
