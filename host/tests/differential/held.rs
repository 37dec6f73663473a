//! One case of each call: the archive's answer, by the safe call and by the raw one, beside the
//! independent implementation's.

use crate::archive::{self, Served};
use crate::cases::{compare_outcome, outcome, values_outcome, Case};
use crate::generator::inputs::Point;
use crate::generator::random::Random;
use crate::independent::calls::{self, places, unused};
use crate::independent::field::Field;
use crate::independent::key::read;
use crate::independent::{Compared, Counts};
use crate::lent::{lend_bytes, lend_numbers};

/// One case of check, by the safe call and by the raw one.
pub fn check_case(random: &mut Random, key: &[u8]) -> Case {
    let answer = calls::check(key);
    let mut case = Case::new(&[key], String::new(), outcome(&answer));
    let lent = lend_bytes(random, key);
    case.hold("check", archive::check(lent.slice()), answer);
    case.hold_unchanged(&[&lent], &[]);
    let reply = archive::raw_check(lent.slice());
    case.hold("check's reply", reply, archive::check_reply(answer));
    case.hold_unchanged(&[&lent], &[]);
    case
}

/// One case of evaluate over a field, by the safe call and by the raw one.
pub fn evaluate_case<F: Served>(
    random: &mut Random,
    key: &[u8],
    point: &Point,
    sheet: &[u32],
) -> Case {
    let (rows, columns) = point;
    let mut wanted = sheet.to_vec();
    let answer = calls::evaluate::<F>(key, rows, columns, &mut wanted);
    let input = format!("rows {rows:?} columns {columns:?} sheet {sheet:?}");
    let mut case = Case::new(&[key], input, values_outcome(&answer));
    hold_limit(&mut case, answer.map(|answer| answer.factors), || {
        counts(key).limit()
    });
    let key = lend_bytes(random, key);
    let rows = lend_numbers(random, rows);
    let columns = lend_numbers(random, columns);
    let mut sheet = lend_numbers(random, sheet);

    let got = F::evaluate(
        key.slice(),
        rows.slice(),
        columns.slice(),
        sheet.slice_mut(),
    );
    case.hold("evaluate", got, answer);
    case.hold_sheet("sheet", &mut sheet, &wanted);
    case.hold_unchanged(&[&key], &[&rows, &columns]);
    let reply = F::raw_evaluate(
        key.slice(),
        rows.slice(),
        columns.slice(),
        sheet.slice_mut(),
    );
    case.hold("evaluate's reply", reply, F::reply(answer));
    case.hold_sheet("sheet of the reply", &mut sheet, &wanted);
    case.hold_unchanged(&[&key], &[&rows, &columns]);
    case
}

/// One case of cell, by the safe call and by the raw one.
pub fn cell_case(random: &mut Random, key: &[u8], row: u32, column: u32, sheet: &[u32]) -> Case {
    let mut wanted = sheet.to_vec();
    let answer = calls::cell(key, row, column, &mut wanted);
    let input = format!("row {row} column {column} sheet {sheet:?}");
    let mut case = Case::new(&[key], input, values_outcome(&answer));
    hold_limit(&mut case, answer.map(|answer| answer.factors), || {
        counts(key).limit()
    });
    let key = lend_bytes(random, key);
    let mut sheet = lend_numbers(random, sheet);

    let got = archive::cell(key.slice(), row, column, sheet.slice_mut());
    case.hold("cell", got, answer);
    case.hold_sheet("sheet", &mut sheet, &wanted);
    case.hold_unchanged(&[&key], &[]);
    let reply = archive::raw_cell(key.slice(), row, column, sheet.slice_mut());
    case.hold("cell's reply", reply, archive::evaluate_reply(answer));
    case.hold_sheet("sheet of the reply", &mut sheet, &wanted);
    case.hold_unchanged(&[&key], &[]);
    case
}

/// One case of compare over a field, by the safe call and by the raw one.
pub fn compare_case<F: Served>(
    random: &mut Random,
    keys: &[Vec<u8>; 2],
    point: &Point,
    sheet: &[u32],
) -> Case {
    let [first, second] = keys;
    let (rows, columns) = point;
    let mut wanted = sheet.to_vec();
    let answer = calls::compare::<F>(first, second, rows, columns, &mut wanted);
    let input = format!("rows {rows:?} columns {columns:?} sheet {sheet:?}");
    let same = matches!(answer, Ok(Compared { same: true, .. }));
    let outcome = if same && is_zero::<F>(second, rows, columns, &wanted) {
        String::from("same at zero")
    } else {
        compare_outcome(&answer)
    };
    let mut case = Case::new(&[first, second], input, outcome);
    let factors = answer.map(|answer| answer.factors);
    hold_limit(&mut case, factors, || {
        counts(first).limit_with(&counts(second))
    });
    let first = lend_bytes(random, first);
    let second = lend_bytes(random, second);
    let rows = lend_numbers(random, rows);
    let columns = lend_numbers(random, columns);
    let mut sheet = lend_numbers(random, sheet);

    let got = F::compare(
        first.slice(),
        second.slice(),
        rows.slice(),
        columns.slice(),
        sheet.slice_mut(),
    );
    case.hold("compare", got, answer);
    case.hold_sheet("sheet", &mut sheet, &wanted);
    case.hold_unchanged(&[&first, &second], &[&rows, &columns]);
    let reply = F::raw_compare(
        first.slice(),
        second.slice(),
        rows.slice(),
        columns.slice(),
        sheet.slice_mut(),
    );
    case.hold("compare's reply", reply, archive::compare_reply(answer));
    case.hold_sheet("sheet of the reply", &mut sheet, &wanted);
    case.hold_unchanged(&[&first, &second], &[&rows, &columns]);
    case
}

/// The counts of an accepted key.
fn counts(key: &[u8]) -> Counts {
    calls::check(key).expect("the key is accepted")
}

/// Notes a fault where the count of factors that is wanted, unless the call is refused, passes its limit.
fn hold_limit<R>(case: &mut Case, factors: Result<u64, R>, limit: impl Fn() -> u64) {
    if let Ok(factors) = factors {
        case.hold("factors within the limit", factors <= limit(), true);
    }
}

/// Whether what compare takes of an accepted key at a point is zero, on a sheet on which the key was evaluated last: the
/// last array's values, or the weight of a coordinate that the key does not use.
fn is_zero<F: Field>(key: &[u8], rows: &[u32], columns: &[u32], sheet: &[u32]) -> bool {
    let key = read(key).expect("the key is accepted");
    let arrays = key.arrays.len();
    let last = &sheet[places::<F>(arrays - 1)..places::<F>(arrays)];
    let unused = unused(&key, rows, columns).concat();
    last.iter().all(|&number| number == 0) || unused.contains(&F::of_value(1))
}
