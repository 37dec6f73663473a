//! The commands that are about one key.

use crate::fault::{detail, upto};
use crate::files::Name;
use crate::outcome::{About, Evaluation, Failure, Moved, Outcome, Priced, Refused};
use crate::records::Edition;
use crate::show;
use morgana::{number, Counts, Field, Point, RandomPoints, Rates, Refusal};
use morgana::{KEY_LIMIT, MOST_RATE, P, SHEET_QUADRATIC};
use std::iter;

/// The key's length, edition and counts.
pub fn check(file: &Name) -> Result<Outcome, Failure> {
    let key = file.key()?;
    Ok(match morgana::check(&key) {
        Ok(counts) => Outcome::Checked(key.len(), edition(&key), counts),
        Err(refusal) => refused_key(file, &key, refusal),
    })
}

/// The edition of an accepted key.
fn edition(key: &[u8]) -> Edition {
    Edition::of(key).expect("an accepted key begins with a head")
}

/// The key's records; of a refused key those up to the one at fault, and the refusal.
pub fn show(file: &Name) -> Result<Outcome, Failure> {
    let key = file.key()?;
    Ok(match morgana::check(&key) {
        Ok(_) => Outcome::Shown(show::lines(&key, None)),
        Err(refusal) => {
            let lines = show::lines(&key, Some(refusal));
            Outcome::Refused(lines, fault(file, &key, refusal))
        }
    })
}

/// The key's values at every point of a file, or at a random one: an outcome for each point, which are worked out one by
/// one.
pub fn evaluate<'a>(
    file: &'a Name,
    given: Option<&'a Name>,
    field: Field,
) -> Result<Box<dyn Iterator<Item = Outcome> + 'a>, Failure> {
    let key = file.key()?;
    let points = given.map(|file| file.points(field)).transpose()?;
    let counts = match morgana::check(&key) {
        Ok(counts) => counts,
        Err(refusal) => return Ok(Box::new(iter::once(refused_key(file, &key, refusal)))),
    };
    let points = match points {
        Some(points) => points,
        None => vec![random(counts, field)?],
    };
    let about = move |number| match given {
        Some(given) => About::Point(given.clone(), number),
        None => About::Key(file.clone()),
    };
    let outcomes = points.into_iter().zip(1..).map(move |(point, number)| {
        match evaluate_at(&key, counts, point, field) {
            Ok(evaluation) => Outcome::Evaluated(field, evaluation),
            Err((refusal, point)) => {
                let bits = (counts.rows, counts.columns);
                let detail = point_detail(refusal, &point, bits, field);
                refused(refusal, detail, about(number))
            }
        }
    });
    Ok(Box::new(outcomes))
}

/// The key's values at a point.
fn evaluate_at(
    key: &[u8],
    counts: Counts,
    point: Point,
    field: Field,
) -> Result<Evaluation, (Refusal, Point)> {
    let mut sheet = [0; SHEET_QUADRATIC];
    let (rows, columns) = (&point.rows, &point.columns);
    let answer = match field {
        Field::Prime => morgana::evaluate(key, rows, columns, &mut sheet).map(|it| it.factors),
        Field::Quadratic => {
            morgana::evaluate_quadratic(key, rows, columns, &mut sheet).map(|it| it.factors)
        }
    };
    let factors = match answer {
        Ok(factors) => factors,
        Err(refusal) => return Err((refusal, point)),
    };
    let triples = sheet.chunks_exact(3 * field.numbers());
    let arrays = triples.take(counts.arrays as usize).map(<[u32]>::to_vec);
    Ok(Evaluation {
        arrays: arrays.collect(),
        factors,
        point,
    })
}

/// The key's values at a row and a column of its matrices.
pub fn cell(file: &Name, row: u32, column: u32) -> Result<Outcome, Failure> {
    let key = file.key()?;
    let counts = match morgana::check(&key) {
        Ok(counts) => counts,
        Err(refusal) => return Ok(refused_key(file, &key, refusal)),
    };
    Ok(
        match morgana::cell(&key, row, column, &mut [0; SHEET_QUADRATIC]) {
            Ok(evaluated) => Outcome::Celled(row, column, evaluated),
            Err(refusal) => {
                let (word, given, bits) = match refusal.place {
                    0 => ("row", row, counts.rows),
                    _ => ("column", column, counts.columns),
                };
                let there = upto((1 << bits) - 1);
                let detail = format!("{word} {given} given, and {word}s are {there}");
                refused(refusal, Some(detail), About::Key(file.clone()))
            }
        },
    )
}

/// What an evaluation of the key costs at these rates.
pub fn price(file: &Name, rates: Rates) -> Result<Outcome, Failure> {
    let key = file.key()?;
    let counts = match morgana::check(&key) {
        Ok(counts) => counts,
        Err(refusal) => return Ok(refused_key(file, &key, refusal)),
    };
    Ok(match priced(&key, counts, rates) {
        Ok(priced) => Outcome::Priced(priced),
        Err(refusal) => {
            let detail = rate_detail(refusal, rates);
            refused(refusal, Some(detail), About::Key(file.clone()))
        }
    })
}

/// The price of a key at these rates, and what it is for. At the rates 0, 0 and 100 a price is the count of factors.
fn priced(key: &[u8], counts: Counts, rates: Rates) -> Result<Priced, Refusal> {
    let (cell, call, factor) = (0, 0, 100);
    Ok(Priced {
        cells: counts.cells,
        calls: counts.calls,
        factors: morgana::price(key, Rates { cell, call, factor })?,
        rates,
        pence: morgana::price(key, rates)?,
    })
}

/// Which rate is too great.
fn rate_detail(refusal: Refusal, rates: Rates) -> String {
    let (option, rate) = match refusal.place {
        0 => ("--cell", rates.cell),
        1 => ("--call", rates.call),
        _ => ("--factor", rates.factor),
    };
    format!("{option} {rate}, at most {MOST_RATE}")
}

/// Writes the key in the other edition to a file; where that is refused, nothing is written.
pub fn moved(file: &Name, to: &Name, force: bool) -> Result<Outcome, Failure> {
    let key = file.key()?;
    let mut buffer = [0; KEY_LIMIT];
    let length = match morgana::moved(&key, &mut buffer) {
        Ok(length) => length,
        Err(refusal) => return Ok(refused_key(file, &key, refusal)),
    };
    to.write(&buffer[..length], force)?;
    Ok(Outcome::Moved(Moved {
        edition: edition(&key),
        bytes: key.len(),
        to_bytes: length,
    }))
}

/// A random point for a key.
fn random(counts: Counts, field: Field) -> Result<Point, Failure> {
    let source = RandomPoints::new(counts.rows, counts.columns, field);
    source
        .and_then(|mut source| source.draw())
        .map_err(Failure::Random)
}

/// What is known of the refusal of a point, which is to have so many row and column coordinates: how many numbers there are
/// and how many there must be, also where the other field has as many, or which is p or more.
pub fn point_detail(
    refusal: Refusal,
    point: &Point,
    (rows, columns): (u32, u32),
    field: Field,
) -> Option<String> {
    let (given, bits) = match refusal.number {
        number::ROW_COUNT_WRONG => (point.rows.len(), rows as usize),
        number::COLUMN_COUNT_WRONG => (point.columns.len(), columns as usize),
        number::COORDINATE_TOO_GREAT => {
            return coordinate_detail(refusal.place as usize, point, field)
        }
        _ => return None,
    };
    let detail = format!("{given} given, {} wanted", bits * field.numbers());
    let (other, option) = match field {
        Field::Prime => (Field::Quadratic, "with"),
        Field::Quadratic => (Field::Prime, "without"),
    };
    Some(match given == bits * other.numbers() {
        true => format!("{detail} ({given} {option} --quadratic)"),
        false => detail,
    })
}

/// Which number of a point is p or more.
fn coordinate_detail(index: usize, point: &Point, field: Field) -> Option<String> {
    let behind = index.checked_sub(point.rows.len());
    let (word, index, number) = match behind {
        None => ("row", index, point.rows.get(index)?),
        Some(index) => ("column", index, point.columns.get(index)?),
    };
    let coordinate = index / field.numbers();
    let part = match (field, index % 2) {
        (Field::Prime, _) => "",
        (Field::Quadratic, 0) => "u of ",
        (Field::Quadratic, _) => "v of ",
    };
    Some(format!(
        "{part}{word} coordinate {coordinate} is {number}, at most {}",
        P - 1
    ))
}

/// The refusal of a command's one key.
fn refused_key(file: &Name, key: &[u8], refusal: Refusal) -> Outcome {
    Outcome::Refused(Vec::new(), fault(file, key, refusal))
}

/// The refusal of a key with what breaks which rule.
fn fault(file: &Name, key: &[u8], refusal: Refusal) -> Refused {
    Refused {
        refusal,
        detail: detail(key, refusal),
        about: About::Key(file.clone()),
    }
}

/// A refusal with what is known of it.
pub fn refused(refusal: Refusal, detail: Option<String>, about: About) -> Outcome {
    let refused = Refused {
        refusal,
        detail,
        about,
    };
    Outcome::Refused(Vec::new(), refused)
}
