//! The keys that are timed, with a random point each.

use crate::generator::random::Random;
use crate::independent::key::{factors, read};
use crate::independent::record::{bytes, Record};
use crate::records::{calls, cells, full, many, narrow, scaled, small};
use crate::towers;

/// The prime p.
const P: u32 = morgana::P;

/// A key to time, another that differs from it where it has a cell, and a point over p and one over p².
pub struct Sample {
    pub name: &'static str,
    pub key: Vec<u8>,
    pub other: Vec<u8>,
    pub rows: Vec<u32>,
    pub columns: Vec<u32>,
    pub quadratic_rows: Vec<u32>,
    pub quadratic_columns: Vec<u32>,
    /// The number of factors of all weights of the key together.
    pub factors: usize,
}

impl Sample {
    /// A sheet long enough for either key over either field.
    pub fn sheet(&self) -> Vec<u32> {
        vec![7; 6 * 1_024]
    }
}

/// Keys of at most 65,536 bytes, the request's small key among them, and shorter ones.
pub fn samples() -> Vec<Sample> {
    let mut samples = of_length(65_536);
    samples.extend(shorter());
    samples
}

/// The keys for keysheet's input of at most 65,536 bytes, with two counts and 60 coordinates before
/// the key.
pub fn inputs() -> Vec<Sample> {
    of_length(65_536 - 2 - 4 * 60)
}

/// All cells, all calls, all calls with factors, both in equal parts of so many bytes, the request's small
/// key, a tower of forty levels, arrays of four bits a side, and a thousand arrays of three entries.
fn of_length(bytes: usize) -> Vec<Sample> {
    let mut random = Random::of_case(1, 0);
    vec![
        sample(&mut random, "all cells", full(bytes, bytes / 21 - 1, 0)),
        sample(&mut random, "all calls", full(bytes, 4, bytes / 11 - 12)),
        sample(&mut random, "scaled calls", scaled(bytes)),
        sample(
            &mut random,
            "mixed",
            full(bytes, bytes / 42, bytes / 22 - 3),
        ),
        sample(&mut random, "small", small()),
        sample(&mut random, "tower", towers::shared_out(40, 3)),
        sample(&mut random, "narrow", narrow(bytes)),
        sample(&mut random, "many", many(bytes)),
    ]
}

/// Towers with other calls and bits a level, keys of 7 to 511 bytes, and keys of cells or calls alone
/// up to 12,607 bytes.
fn shorter() -> Vec<Sample> {
    let keys = [
        ("tower 2 calls", towers::shared_out(40, 2)),
        ("tower 8 calls", towers::shared_out(40, 8)),
        ("tower 0 bits", towers::without_bits(40, 4)),
        ("tower 1 bit", towers::of_single_bits(31, 4)),
        ("empty", cells(0)),
        ("1 cell", cells(1)),
        ("2 cells", cells(2)),
        ("5 cells", cells(5)),
        ("11 cells", cells(11)),
        ("24 cells", cells(24)),
        ("20 calls", calls(20)),
        ("60 cells", cells(60)),
        ("120 cells", cells(120)),
        ("250 cells", cells(250)),
        ("600 cells", cells(600)),
        ("400 calls", calls(400)),
    ];
    let mut random = Random::of_case(8, 0);
    keys.into_iter()
        .map(|(name, records)| sample(&mut random, name, records))
        .collect()
}

/// A sample of these records, with a second key whose first cell has another C.
fn sample(random: &mut Random, name: &'static str, records: Vec<Record>) -> Sample {
    let mut others = records.clone();
    for record in others.iter_mut() {
        if let Record::Cell(cell) = record {
            cell.values[2] = (cell.values[2] + 1) % P;
            break;
        }
    }
    let key = bytes(&records);
    let read = read(&key).expect("the key is whole");
    let mut coordinates = |count| (0..count).map(|_| 2 + random.number() % (P - 2)).collect();
    Sample {
        name,
        rows: coordinates(read.rows),
        columns: coordinates(read.columns),
        quadratic_rows: coordinates(2 * read.rows),
        quadratic_columns: coordinates(2 * read.columns),
        factors: factors(&read) as usize,
        other: bytes(&others),
        key,
    }
}
