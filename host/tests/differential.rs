//! The archive tested against the independent implementation on drawn keys of both editions, points, rates,
//! sheets and buffers: the answer, every field of the reply, every place of the sheet and byte of the
//! buffer, and all that lies around what is lent. `MORGANA_SEED` and `MORGANA_CASES` give another seed and another number of cases.

mod archive;
mod cases;
mod generator;
mod independent;
mod lent;

#[path = "differential/held.rs"]
mod held;
#[path = "differential/located.rs"]
mod located;
#[path = "differential/moved.rs"]
mod moved;
#[path = "differential/priced.rs"]
mod priced;
#[path = "differential/relation.rs"]
mod relation;
#[path = "differential/shorter.rs"]
mod shorter;

use archive::Served;
use cases::{outcomes, run, Case};
use generator::damage::{damaged, mostly_damaged};
use generator::grown::{larger, pair};
use generator::inputs::{address, sheet, short_sheet, Drawn, Point};
use generator::keys::any;
use generator::moves::{buffer, to_move};
use generator::path::{end_of, path};
use generator::random::Random;
use generator::rates::mostly_allowed;
use generator::variants::{arrays, shape};
use held::{cell_case, check_case, compare_case, evaluate_case};
use independent::edition;
use independent::field::{Field, Fp, Quadratic};
use independent::record::{bytes, Record};
use located::locate_case;
use moved::move_case;
use priced::{price_case, HALF};
use relation::relation;
use shorter::shorter_case;

/// Check: the counts or the refusal, on whole and damaged keys.
#[test]
fn check_agrees() {
    let wanted = outcomes(&["accepted"], &[("refused", 1..=13)]);
    run("check", 30_000, &wanted, |random| {
        let key = mostly_damaged(random);
        check_case(random, &key)
    });
}

/// Evaluate: the last array's values or the refusal, and the sheet.
#[test]
fn evaluate_agrees() {
    evaluate_agrees_over::<Fp>();
}

/// Evaluate over p².
#[test]
fn evaluate_quadratic_agrees() {
    evaluate_agrees_over::<Quadratic>();
}

fn evaluate_agrees_over<F: Served + Drawn>() {
    let numbers = [
        ("refused", 1..=13),
        ("refused", 21..=23),
        ("refused", 31..=31),
    ];
    run(
        &format!("evaluate{}", F::SUFFIX),
        20_000,
        &outcomes(&["accepted", "zero"], &numbers),
        |random| {
            let records = any(random);
            let key = mostly_whole(random, &records);
            let point = mostly_fitting_point::<F>(random, shape(&records));
            let sheet = mostly_long_sheet::<F>(random, arrays(&records));
            evaluate_case::<F>(random, &key, &point, &sheet)
        },
    );
}

/// Cell: the dense values at a row and a column or the refusal, and the sheet.
#[test]
fn cell_agrees() {
    let numbers = [
        ("refused", 1..=13),
        ("refused", 24..=24),
        ("refused", 31..=31),
    ];
    run(
        "cell",
        20_000,
        &outcomes(&["accepted", "zero"], &numbers),
        |random| {
            let records = any(random);
            let key = mostly_whole(random, &records);
            let (row, column) = mostly_filled_place(random, &records);
            let sheet = mostly_long_sheet::<Fp>(random, arrays(&records));
            cell_case(random, &key, row, column, &sheet)
        },
    );
}

/// Compare: same, different or the refusal and the key it names, and the sheet.
#[test]
fn compare_agrees() {
    compare_agrees_over::<Fp>();
}

/// Compare over p².
#[test]
fn compare_quadratic_agrees() {
    compare_agrees_over::<Quadratic>();
}

fn compare_agrees_over<F: Served + Drawn>() {
    two_keys_agree::<F>(
        &format!("compare{}", F::SUFFIX),
        25_000,
        &["same", "same at zero", "different"],
        compare_case::<F>,
    );
}

/// Locate: "same", the cell or the refusal and the key it names, and the sheet.
#[test]
fn locate_agrees() {
    two_keys_agree::<Fp>("locate", 6_000, &["same", "different"], locate_case);
}

/// Shorter: which of two keys that are the same is handed back, in whichever order of lengths, or nothing where they are
/// different or refused, and the sheet.
#[test]
fn shorter_agrees() {
    let answers = [
        "same, first shorter",
        "same, second shorter",
        "same, one length",
        "different",
    ];
    two_keys_agree::<Fp>("shorter", 12_000, &answers, shorter_case);
}

/// One case of a call that takes two keys.
type OfTwo = fn(&mut Random, &[Vec<u8>; 2], &Point, &[u32]) -> Case;

/// Runs so many cases of a call that takes two keys, whose answers have these names.
fn two_keys_agree<F: Drawn>(name: &str, usual: u64, answers: &[&str], one: OfTwo) {
    let numbers = [
        ("first", 1..=13),
        ("second", 1..=13),
        ("neither", 21..=23),
        ("neither", 31..=31),
    ];
    let found = |word: &&str| relation::ALL.map(|relation| format!("{word}{relation}"));
    let named: Vec<_> = answers.iter().flat_map(found).collect();
    let named: Vec<&str> = named.iter().map(String::as_str).collect();
    run(name, usual, &outcomes(&named, &numbers), |random| {
        let [first, second] = pair(random);
        let keys = [mostly_whole(random, &first), mostly_whole(random, &second)];
        let bits = match random.below(12) {
            // Those of one of the keys, which the other may pass.
            0 => shape(&first),
            1 => shape(&second),
            _ => larger(&first, &second),
        };
        let point = mostly_fitting_point::<F>(random, bits);
        let arrays = [arrays(&first), arrays(&second)];
        let sheet = if random.chance(6) {
            // Long enough for one of the keys at most.
            sheet::<F>(random, arrays[0].min(arrays[1]))
        } else {
            mostly_long_sheet::<F>(random, arrays[0].max(arrays[1]))
        };
        let mut case = one(random, &keys, &point, &sheet);
        if named.contains(&case.outcome.as_str()) {
            case.outcome += relation(&keys);
        }
        case
    });
}

/// Price: the pence or the refusal, at rates of which one, two or three may be too great.
#[test]
fn price_agrees() {
    let halved = format!("accepted{HALF}");
    let named = [
        "accepted",
        &halved,
        "refused 62 at 0, 1 too great",
        "refused 62 at 0, 2 too great",
        "refused 62 at 0, 3 too great",
        "refused 62 at 1, 1 too great",
        "refused 62 at 1, 2 too great",
        "refused 62 at 2, 1 too great",
    ];
    let wanted = outcomes(&named, &[("refused", 1..=13)]);
    run("price", 20_000, &wanted, |random| {
        let records = any(random);
        let key = mostly_whole(random, &records);
        let rates = mostly_allowed(random);
        price_case(random, &key, rates)
    });
}

/// The move: the copy's length or the refusal, and the buffer.
#[test]
fn move_agrees() {
    let numbers = [
        ("refused", 1..=13),
        ("refused", 32..=32),
        ("refused", 55..=56),
    ];
    run(
        "move",
        20_000,
        &outcomes(&["accepted"], &numbers),
        |random| {
            let records = to_move(random);
            let key = mostly_whole(random, &records);
            let length = edition::moved(&key, &mut [0; 65_536]).unwrap_or(key.len());
            let buffer = buffer(random, length);
            move_case(random, &key, &buffer)
        },
    );
}

/// The bytes of a key, of four keys one damaged.
fn mostly_whole(random: &mut Random, records: &[Record]) -> Vec<u8> {
    if random.chance(4) {
        damaged(random, records)
    } else {
        bytes(records)
    }
}

/// A point, of five points one that does not fit.
fn mostly_fitting_point<F: Drawn>(random: &mut Random, (rows, columns): (usize, usize)) -> Point {
    if random.chance(5) {
        F::faulty_point(random, rows, columns)
    } else {
        F::point(random, rows, columns)
    }
}

/// A row and a column: mostly of a place that holds something, else of any place, or outside.
fn mostly_filled_place(random: &mut Random, records: &[Record]) -> (u32, u32) {
    let (rows, columns) = shape(records);
    match random.below(12) {
        0 => (address(random, rows, true), address(random, columns, false)),
        1 => (address(random, rows, true), address(random, columns, true)),
        2 => (address(random, rows, false), address(random, columns, true)),
        3..=5 => (
            address(random, rows, false),
            address(random, columns, false),
        ),
        _ => end_of(&path(random, records), records),
    }
}

/// A sheet, of eight sheets one too short.
fn mostly_long_sheet<F: Field>(random: &mut Random, arrays: usize) -> Vec<u32> {
    if random.chance(8) {
        short_sheet::<F>(random, arrays)
    } else {
        sheet::<F>(random, arrays)
    }
}
