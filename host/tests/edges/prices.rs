//! Price: sums worked out on paper, half a penny upwards, rates at and over their limit, keys as long as they can be, both
//! editions, the count of factors as a price, and the key's own refusals first.

use crate::archive;
use crate::generator::inputs::{address, Drawn};
use crate::generator::keys::any;
use crate::generator::random::Random;
use crate::generator::rates::allowed;
use crate::generator::variants::shape;
use crate::independent::edition;
use crate::independent::field::{Fp, Quadratic};
use crate::independent::record::bytes;
use crate::independent::record::Record::{self, Recursive, Sparse};
use crate::written::*;

/// The greatest rate.
const MOST: u32 = 1_000_000;

/// A key of one cell, without calls and without factors.
fn one_cell() -> Vec<u8> {
    key(0, 0, &[Sparse(0, 0), cell(0, 0, [4, 5, 6])])
}

/// A key of one call, without cells and without factors.
fn one_call() -> Vec<u8> {
    key(0, 0, &[Sparse(0, 0), Recursive(0, 0), call(0, 0, 0)])
}

/// A key of one cell with one factor, without calls.
fn one_factor() -> Vec<u8> {
    key(1, 0, &[Sparse(1, 0), cell(1, 0, [4, 5, 6])])
}

/// A key of 2 cells, 3 calls and 23 factors: each cell and each call of array 2 counts 2 + 3, and the call of array 0
/// counts 1 + 2. Nobody calls arrays 1 and 3.
fn uneven() -> Vec<u8> {
    let body = [
        Sparse(2, 3),
        cell(3, 7, [1, 2, 3]),
        Sparse(2, 3),
        cell(0, 0, [0; 3]),
        Sparse(0, 0),
        Recursive(2, 3),
        call(2, 3, 7),
        call(2, 0, 0),
        Recursive(3, 5),
        call(0, 1, 3),
    ];
    key(3, 5, &body)
}

/// Half a penny and more is a whole one, less is none: for the cells, for the calls and for the factors alone.
#[test]
fn half_a_penny_upwards() {
    for (hundredths, pence) in [
        (0, 0),
        (1, 0),
        (49, 0),
        (50, 1),
        (51, 1),
        (99, 1),
        (100, 1),
        (101, 1),
        (149, 1),
        (150, 2),
        (151, 2),
        (249, 2),
        (250, 3),
        (999_949, 9_999),
        (999_950, 10_000),
        (1_000_000, 10_000),
    ] {
        assert_eq!(price(&one_cell(), [hundredths, 0, 0]), Ok(pence));
        assert_eq!(price(&one_call(), [0, hundredths, 0]), Ok(pence));
        assert_eq!(price(&one_factor(), [0, 0, hundredths]), Ok(pence));
    }
}

/// The total is divided, not its parts: of 1 cell, 2 calls and 3 factors.
#[test]
fn divided_once() {
    for (rates, pence) in [
        ([150, 75, 3], 3), // 309
        ([25, 11, 1], 1),  // 25 + 22 + 3 = 50
        ([25, 11, 0], 0),  // 25 + 22 = 47
        ([49, 24, 16], 1), // 49 + 48 + 48 = 145
        ([49, 24, 17], 1), // 49 + 48 + 51 = 148
        ([49, 25, 17], 2), // 49 + 50 + 51 = 150
        ([60, 30, 20], 2), // 3 · 60 = 180
        ([50, 25, 0], 1),  // 2 · 50 = 100
    ] {
        assert_eq!(price(&sample(), rates), Ok(pence), "{rates:?}");
    }
}

/// Each rate is that of its own count, and the counts are of all arrays, called or not.
#[test]
fn sums_on_paper() {
    accepts(&uneven(), 5, 2, 3);
    for (rates, pence) in [
        ([0, 0, 0], 0),
        ([100, 0, 0], 2),
        ([0, 100, 0], 3),
        ([0, 0, 100], 10 + 10 + 3),
        ([100, 1_000, 10_000], 2 + 30 + 2_300),
        ([10_000, 100, 1_000], 200 + 3 + 230),
        ([1, 1, 1], 0),       // 28
        ([2, 2, 2], 1),       // 56
        ([7, 11, 13], 3),     // 14 + 33 + 299 = 346
        ([7, 12, 13], 3),     // 14 + 36 + 299 = 349
        ([8, 12, 13], 4),     // 16 + 36 + 299 = 351
        ([MOST; 3], 280_000), // 28 · 10,000
    ] {
        assert_eq!(price(&uneven(), rates), Ok(pence), "{rates:?}");
    }
    for empty in [Sparse(30, 30), Recursive(30, 30)] {
        assert_eq!(price(&key(30, 30, &[empty]), [MOST; 3]), Ok(0));
    }
}

/// A rate of 1,000,000 passes; over that, 62 with the place of the first of those that are too great.
#[test]
fn rates_at_and_over_their_limit() {
    let empty = key(0, 0, &[Sparse(0, 0)]);
    for key in [&sample(), &uneven(), &one_cell(), &one_call(), &empty] {
        assert!(price(key, [MOST; 3]).is_ok());
        for over in [MOST + 1, MOST + 2, 1 << 24, 1 << 31, u32::MAX] {
            for other in [0, 1, MOST] {
                for (rates, place) in [
                    ([over, other, other], 0),
                    ([other, over, other], 1),
                    ([other, other, over], 2),
                    ([over, over, other], 0),
                    ([over, other, over], 0),
                    ([other, over, over], 1),
                    ([over, over, over], 0),
                ] {
                    assert_eq!(price(key, rates), refusal(62, place), "{rates:?}");
                }
            }
        }
    }
}

/// Keys as long as they can be at the greatest rates: of 3,120 cells with 60 factors each, of 5,956 calls with as many,
/// which no price passes, and of 4,368 calls of edition 2. Hundredths of a penny do not fit 32 bits.
#[test]
fn greatest_prices() {
    let body = |front: &[Record], record, count| [front, &vec![record; count]].concat();
    let cells = key(
        30,
        30,
        &body(&[Sparse(30, 30)], cell(1, 2, [3, 4, 5]), 3_120),
    );
    assert_eq!(cells.len(), 65_527);
    let front = [Sparse(0, 0), Recursive(30, 30)];
    let calls = key(30, 30, &body(&front, call(0, 1, 2), 5_956));
    assert_eq!(calls.len(), 65_526);
    let scaled = scaled_key(30, 30, &body(&front, scaled_call(0, 1, 2, P - 1), 4_368));
    assert_eq!(scaled.len(), 65_530);
    for (key, of_cells, of_calls, of_factors) in [
        (&cells, 31_200_000, 0, 1_872_000_000),
        (&calls, 0, 59_560_000, 3_573_600_000),
        (&scaled, 0, 43_680_000, 2_620_800_000),
    ] {
        assert_eq!(price(key, [MOST, 0, 0]), Ok(of_cells));
        assert_eq!(price(key, [0, MOST, 0]), Ok(of_calls));
        assert_eq!(price(key, [0, 0, MOST]), Ok(of_factors));
        let total = of_cells + of_calls + of_factors;
        assert_eq!(price(key, [MOST; 3]), Ok(total));
    }
    assert_eq!(price(&cells, [MOST; 3]), Ok(1_903_200_000));
    assert_eq!(price(&calls, [MOST; 3]), Ok(3_633_160_000));
    assert_eq!(price(&calls, [MOST - 1; 3]), Ok(3_633_156_367)); // 363,315,636,684
    assert_eq!(price(&cells, [1; 3]), Ok(1_903)); // 190,320
}

/// At the rates 0, 0 and 100 the price is what evaluate, over either field and at any point, and cell, in any cell, count.
#[test]
fn the_count_of_factors_is_a_price() {
    for case in 0..400 {
        let random = &mut Random::of_case(14, case);
        let records = any(random);
        let key = bytes(&records);
        let (rows, columns) = shape(&records);
        let wanted = price(&key, [0, 0, 100]);
        let sheet = &mut [9; 6 * 1_024];
        for _ in 0..3 {
            let point = Fp::point(random, rows, columns);
            let answer = archive::evaluate(&key, &point.0, &point.1, sheet);
            assert_eq!(answer.map(|it| it.factors), wanted);
            let point = Quadratic::point(random, rows, columns);
            let answer = archive::evaluate_quadratic(&key, &point.0, &point.1, sheet);
            assert_eq!(answer.map(|it| it.factors), wanted);
            let [row, column] = [rows, columns].map(|bits| address(random, bits, false));
            let answer = archive::cell(&key, row, column, sheet);
            assert_eq!(answer.map(|it| it.factors), wanted);
        }
    }
}

/// A call of edition 2 costs what the same call of edition 1 does, whatever its factor is.
#[test]
fn both_editions() {
    let front = [Sparse(1, 2), cell(0, 3, [7, 8, 9]), Recursive(3, 3)];
    let with = |calls: [Record; 2]| [&front[..], &calls].concat();
    let places = [(3, 1), (0, 0)];
    let plain = key(
        3,
        3,
        &with(places.map(|(row, column)| call(0, row, column))),
    );
    // One cell, two calls, and 3 + 2·3 factors.
    for (rates, pence) in [
        ([0, 0, 100], 9),
        ([100, 0, 0], 1),
        ([0, 100, 0], 2),
        ([5, 7, 3], 0),
        ([5, 7, 4], 1),
    ] {
        assert_eq!(price(&plain, rates), Ok(pence));
        for factor in [0, 1, 2, P - 1] {
            let calls = places.map(|(row, column)| scaled_call(0, row, column, factor));
            assert_eq!(price(&scaled_key(3, 3, &with(calls)), rates), Ok(pence));
        }
    }
}

/// A moved key costs the same, at drawn rates.
#[test]
fn moved_keys() {
    let mut moves = 0;
    for case in 0..400 {
        let random = &mut Random::of_case(15, case);
        let key = bytes(&any(random));
        let mut buffer = vec![0; 65_536];
        let Ok(length) = edition::moved(&key, &mut buffer) else {
            continue;
        };
        moves += 1;
        for _ in 0..5 {
            let rates = allowed(random);
            let of_both = [&key, &buffer[..length]].map(|key| price(key, rates));
            assert!(of_both[0].is_ok());
            assert_eq!(of_both[0], of_both[1]);
        }
    }
    assert!(moves > 100, "{moves} keys were moved");
}

/// The key's own refusals come before 62, each of them.
#[test]
fn faults_of_the_key_first() {
    let front = [Sparse(1, 0), Recursive(1, 1)];
    let with = |record: Record| key(1, 1, &[&front[..], &[record]].concat());
    let sparse = |record: Record| key(1, 1, &[Sparse(1, 1), record]);
    let whole = sample();
    let arrays = key(0, 0, &[Sparse(0, 0); 1_025]);
    let faulty = [
        (vec![1; 65_537], 65_536),
        (whole[..52].to_vec(), 52),
        (vec![9], 0),
        (key(1, 1, &[]), 3),
        (key(31, 0, &[Sparse(31, 0)]), 0),
        (arrays, 3 + 3 * 1_024),
        (sparse(cell(2, 0, [0; 3])), 6),
        (sparse(cell(1, 1, [0, P, 0])), 6),
        (with(call(1, 0, 0)), 9),
        (
            key(1, 1, &[Sparse(1, 1), Recursive(0, 1), call(0, 0, 0)]),
            9,
        ),
        (with(call(0, 1, 0)), 9),
        (key(1, 1, &[Sparse(1, 0)]), 6),
        ([&whole[..], &[6]].concat(), 53),
    ];
    for (number, (key, place)) in (1..).zip(faulty) {
        for rates in [
            [0; 3],
            [MOST + 1, 0, 0],
            [0, MOST + 1, 0],
            [0, 0, MOST + 1],
            [u32::MAX; 3],
        ] {
            assert_eq!(price(&key, rates), refusal(number, place));
        }
    }
    for rate in [0, MOST + 1] {
        assert_eq!(price(&[], [rate; 3]), refusal(2, 0));
    }
}
