//! Runs many drawn cases, counts their outcomes, and says which case failed.

// Each test program uses a part of this module.
#![allow(dead_code)]

use std::collections::BTreeMap;
use std::env;
use std::fmt::{Debug, Write};
use std::ops::RangeInclusive;

use crate::generator::random::Random;
use crate::independent::field::Field;
use crate::independent::{CompareRefusal, Compared, DifferingCell, Evaluated, Handed, Refusal};
use crate::lent::Lent;

/// The seed where `MORGANA_SEED` gives none.
const SEED: u64 = 2_147_483_647;
/// An outcome has to come at least once in so many cases.
const CASES_PER_OUTCOME: u64 = 500;

/// What one case came to.
pub struct Case {
    pub outcome: String,
    faults: Vec<String>,
    keys: Vec<Vec<u8>>,
    input: String,
}

impl Case {
    /// A case on these keys and this input, with the outcome that is wanted.
    pub fn new(keys: &[&[u8]], input: String, outcome: String) -> Case {
        Case {
            outcome,
            faults: Vec::new(),
            keys: keys.iter().map(|key| key.to_vec()).collect(),
            input,
        }
    }

    /// Notes a fault where two things differ.
    pub fn hold<T: Debug + PartialEq>(&mut self, what: &str, got: T, wanted: T) {
        if got != wanted {
            let fault = format!("{what}: got {got:?}, wanted {wanted:?}");
            self.faults.push(fault);
        }
    }

    /// Notes a fault where the lent sheet is not the wanted one or a word around it is another
    /// than before, and lends the sheet anew.
    pub fn hold_sheet(&mut self, what: &str, sheet: &mut Lent<u32>, wanted: &[u32]) {
        self.hold(what, sheet.slice(), wanted);
        self.hold("words around the sheet", sheet.is_unchanged_around(), true);
        sheet.restore();
    }

    /// The same of a lent buffer of bytes.
    pub fn hold_buffer(&mut self, what: &str, buffer: &mut Lent<u8>, wanted: &[u8]) {
        self.hold(what, buffer.slice(), wanted);
        let around = buffer.is_unchanged_around();
        self.hold("bytes around the buffer", around, true);
        buffer.restore();
    }

    /// Notes a fault where keys or points, lent to be read, are others than before.
    pub fn hold_unchanged(&mut self, keys: &[&Lent<u8>], points: &[&Lent<u32>]) {
        let keys = keys.iter().all(|lent| lent.is_unchanged());
        self.hold("keys unchanged", keys, true);
        let points = points.iter().all(|lent| lent.is_unchanged());
        self.hold("point unchanged", points, true);
    }

    /// The faults with the input and the keys in hexadecimal.
    fn describe(&self) -> String {
        let mut text = self.faults.join("\n");
        write!(text, "\n{}", self.input).unwrap();
        for key in &self.keys {
            text.push_str("\nkey ");
            for byte in key {
                write!(text, "{byte:02x}").unwrap();
            }
        }
        text
    }
}

/// Runs the cases of a test: as many as `MORGANA_CASES` says, else the usual number. Every outcome
/// of the list has to come often enough, and no other may come.
pub fn run(name: &str, usual: u64, outcomes: &[String], one: impl Fn(&mut Random) -> Case) {
    let cases = variable("MORGANA_CASES").unwrap_or(usual);
    run_each(name, 0..cases, outcomes, |random, _| one(random));
}

/// Runs a case for each of these inputs, of whose outcomes the same holds.
pub fn run_each<T>(
    name: &str,
    inputs: impl IntoIterator<Item = T>,
    outcomes: &[String],
    one: impl Fn(&mut Random, T) -> Case,
) {
    let seed = variable("MORGANA_SEED").unwrap_or(SEED);
    let mut cases = 0;
    let mut tally: BTreeMap<String, u64> = BTreeMap::new();
    for input in inputs {
        let case = one(&mut Random::of_case(own_seed(name, seed), cases), input);
        assert!(
            case.faults.is_empty(),
            "{name}: seed {seed} case {cases}\n{}",
            case.describe()
        );
        *tally.entry(case.outcome).or_default() += 1;
        cases += 1;
    }
    println!("{name}: seed {seed}, {cases} cases: {tally:?}");
    for outcome in outcomes {
        let count = tally.remove(outcome).unwrap_or(0);
        assert!(
            count >= cases / CASES_PER_OUTCOME,
            "{name}: outcome '{outcome}' came {count} times"
        );
    }
    assert!(tally.is_empty(), "{name}: outcomes of no list: {tally:?}");
}

/// The seed of the test of this name, so that tests of other names draw other cases.
fn own_seed(name: &str, seed: u64) -> u64 {
    let mix = |seed: u64, byte: u8| seed.wrapping_mul(257).wrapping_add(byte.into());
    name.bytes().fold(seed, mix)
}

/// The number that an environment variable gives.
fn variable(name: &str) -> Option<u64> {
    let text = env::var(name).ok()?;
    Some(text.parse().expect("the variable is a number"))
}

/// A list of outcomes: these, and a text before every number of each range.
pub fn outcomes(named: &[&str], ranges: &[(&str, RangeInclusive<u32>)]) -> Vec<String> {
    let mut list: Vec<String> = named.iter().map(|name| name.to_string()).collect();
    for (text, range) in ranges {
        list.extend(range.clone().map(|number| format!("{text} {number}")));
    }
    list
}

/// The outcome of an answer of evaluate or cell.
pub fn values_outcome<F: Field>(answer: &Result<Evaluated<F>, Refusal>) -> String {
    match answer {
        Ok(answer) if answer.values == [F::default(); 3] => String::from("zero"),
        _ => outcome(answer),
    }
}

/// The outcome of an answer that is given or refused.
pub fn outcome<T>(answer: &Result<T, Refusal>) -> String {
    match answer {
        Ok(_) => String::from("accepted"),
        Err(Refusal { number, .. }) => format!("refused {number}"),
    }
}

/// The outcome of an answer of price at these rates: of a refusal for a rate also the place, and how many are too great.
pub fn price_outcome(answer: &Result<u64, Refusal>, rates: [u32; 3]) -> String {
    match answer {
        Err(Refusal { number: 62, place }) => {
            let over = rates.iter().filter(|&&rate| rate > 1_000_000).count();
            format!("refused 62 at {place}, {over} too great")
        }
        _ => outcome(answer),
    }
}

/// The outcome of an answer of compare.
pub fn compare_outcome(answer: &Result<Compared, CompareRefusal>) -> String {
    of_two(answer.map(|compared| compared.same))
}

/// The outcome of an answer of locate.
pub fn locate_outcome(answer: &Result<Option<DifferingCell>, CompareRefusal>) -> String {
    of_two(answer.map(|cell| cell.is_none()))
}

/// The outcome of what shorter hands back of two keys, of which compare gives an answer.
pub fn shorter_outcome(
    answer: &Result<Compared, CompareRefusal>,
    handed: Handed,
    keys: [&[u8]; 2],
) -> String {
    let tie = keys[0].len() == keys[1].len();
    match handed.key {
        1 if tie => String::from("same, one length"),
        1 => String::from("same, first shorter"),
        2 => String::from("same, second shorter"),
        _ => compare_outcome(answer),
    }
}

/// The outcome of an answer that two keys are the same, or are not, or of a refusal.
fn of_two(same: Result<bool, CompareRefusal>) -> String {
    match same {
        Ok(true) => String::from("same"),
        Ok(false) => String::from("different"),
        Err(CompareRefusal { key, refusal }) => {
            let which = ["neither", "first", "second"][key as usize];
            format!("{which} {}", refusal.number)
        }
    }
}
