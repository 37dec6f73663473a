//! Price beside check and evaluate, on the same keys in one run.

use std::hint::black_box;

use morgana::Rates;

use crate::independent::price::price;
use crate::keys::Sample;
use crate::measure::alternate;

/// The rates at which keys are priced.
const RATES: Rates = Rates {
    cell: 150,
    call: 75,
    factor: 3,
};

/// Times price on every sample, prints each row as it comes, and then the highest ratios to check and to evaluate.
pub fn run(samples: &[Sample]) {
    println!(
        "call     key            bytes factors |   price ns | check ns  ratio | evaluate ns  ratio"
    );
    let mut highest = [(0.0, ""); 2];
    for sample in samples {
        hold_equal(sample);
        let [price, check, evaluate] = times(sample);
        let ratios = [price / check, price / evaluate];
        println!(
            "price    {:<13} {:>6} {:>7} | {price:>10.0} | {check:>8.0} {:>6.2} | {evaluate:>11.0} {:>6.2}",
            sample.name,
            sample.key.len(),
            sample.factors,
            ratios[0],
            ratios[1],
        );
        for (highest, ratio) in highest.iter_mut().zip(ratios) {
            if ratio > highest.0 {
                *highest = (ratio, sample.name);
            }
        }
    }
    let [(to_check, one), (to_evaluate, other)] = highest;
    println!(
        "highest price: {to_check:.2} of check on {one}, {to_evaluate:.2} of evaluate on {other}"
    );
}

/// Asserts that the archive gives the independent price, before it is timed.
fn hold_equal(Sample { key, .. }: &Sample) {
    let wanted = price(key, [RATES.cell, RATES.call, RATES.factor]).expect("the key is accepted");
    assert_eq!(morgana::price(key, RATES), Ok(wanted));
}

/// The nanoseconds of price, of check and of evaluate.
fn times(sample: &Sample) -> [f64; 3] {
    let Sample {
        key, rows, columns, ..
    } = sample;
    let mut sheet = sample.sheet();
    alternate([
        &mut || black_box(morgana::price(black_box(key), RATES)).is_ok(),
        &mut || black_box(morgana::check(black_box(key))).is_ok(),
        &mut || {
            let answer = morgana::evaluate(black_box(key), rows, columns, &mut sheet);
            black_box(answer).is_ok()
        },
    ])
}
