//! The independent implementation beside itself: the pass and the check written for speed, and the
//! unrolled matrices and the plain check.

mod cases;
mod generator;
mod independent;
mod lent;

use cases::{compare_outcome, outcome, outcomes, run, Case};
use generator::damage::mostly_damaged;
use generator::grown::{larger, pair};
use generator::inputs::{point, sheet, short_sheet, Drawn};
use generator::keys::{any, small, wide};
use generator::moves::to_move;
use generator::random::Random;
use generator::variants::arrays;
use independent::calls::{self, matrix_values, pass_values, place_values};
use independent::dense::unroll_places;
use independent::edition::moved;
use independent::field::{elements, with_zeros, Field, Fp, Quadratic};
use independent::key::{factors, read, Key};
use independent::pass;
use independent::pass::factors::Factors;
use independent::pass::tables::Tables;
use independent::pass::Lazy;
use independent::record::{bytes, Record};

/// A field that the pass is tried over.
trait Passed: Lazy + Drawn {
    /// The field's name.
    const NAME: &'static str;
}

impl Passed for Fp {
    const NAME: &'static str = "p";
}

impl Passed for Quadratic {
    const NAME: &'static str = "p²";
}

/// On small keys the pass gives every array's extension, the sum over all rows and columns.
#[test]
fn pass_gives_the_extensions_of_whole_matrices() {
    pass_gives_matrices::<Fp>();
    pass_gives_matrices::<Quadratic>();
}

fn pass_gives_matrices<F: Passed>() {
    let name = format!("pass over {}", F::NAME);
    run(&name, 3_000, &outcomes(&["held"], &[]), |random| {
        let records = small(random);
        pass_case::<F>(random, &records, |key, rows, columns| {
            Some(matrix_values(key, rows, columns))
        })
    });
}

/// On keys with many bits and few places the pass gives the same as the places that hold
/// something.
#[test]
fn pass_gives_the_extensions_of_places() {
    pass_gives_places::<Fp>();
    pass_gives_places::<Quadratic>();
}

fn pass_gives_places<F: Passed>() {
    let name = format!("places over {}", F::NAME);
    run(&name, 3_000, &outcomes(&["held"], &[]), |random| {
        let records = if random.chance(2) {
            wide(random)
        } else {
            small(random)
        };
        pass_case::<F>(random, &records, |key, rows, columns| {
            // A key with too many places is held by the other tests alone.
            let unrolled = unroll_places(key, 2_000)?;
            Some(place_values(key, &unrolled, rows, columns))
        })
    });
}

/// One case of the pass, by factors and by tables, on a key at a point: every array's values, where they
/// are known.
fn pass_case<F: Passed>(
    random: &mut Random,
    records: &[Record],
    known: impl Fn(&Key, &[u32], &[u32]) -> Option<Vec<[F; 3]>>,
) -> Case {
    let bytes = bytes(records);
    let key = read(&bytes).expect("a drawn key is whole");
    let (rows, columns) = F::point(random, key.rows as usize, key.columns as usize);
    let mut case = Case::new(&[&bytes], format!("{rows:?} {columns:?}"), "held".into());
    if let Some(wanted) = known(&key, &rows, &columns) {
        let got = pass_values::<Factors<F>>(&bytes, &key, &rows, &columns);
        case.hold("by factors", &got, &wanted);
        let got = pass_values::<Tables<F>>(&bytes, &key, &rows, &columns);
        case.hold("by tables", &got, &wanted);
    }
    case
}

/// Where every v is 0, the values over p² are those over p as u, and v is 0.
#[test]
fn points_of_p_in_p_squared() {
    run("v zero", 3_000, &outcomes(&["held"], &[]), |random| {
        let records = any(random);
        let bytes = bytes(&records);
        let key = read(&bytes).expect("a drawn key is whole");
        let (rows, columns) = point(random, key.rows as usize, key.columns as usize);
        let mut case = Case::new(&[&bytes], format!("{rows:?} {columns:?}"), "held".into());
        let wanted: Vec<[Fp; 3]> = calls::values(&bytes, &key, &rows, &columns);
        let wanted: Vec<[Quadratic; 3]> = wanted
            .iter()
            .map(|triple| triple.map(Quadratic::of_value))
            .collect();
        let [rows, columns] = [rows, columns].map(|side| with_zeros(&side));
        let got: Vec<[Quadratic; 3]> = calls::values(&bytes, &key, &rows, &columns);
        case.hold("plain", &got, &wanted);
        let got = pass_values::<Factors<Quadratic>>(&bytes, &key, &rows, &columns);
        case.hold("by factors", &got, &wanted);
        let got = pass_values::<Tables<Quadratic>>(&bytes, &key, &rows, &columns);
        case.hold("by tables", &got, &wanted);
        case
    });
}

/// Where every v is 0, compare over p² answers what it answers over p, also for keys of two shapes.
#[test]
fn comparisons_at_points_of_p() {
    let wanted = outcomes(&["same", "different"], &[]);
    run("compare, v zero", 3_000, &wanted, |random| {
        let [first, second] = pair(random);
        let (rows, columns) = larger(&first, &second);
        let (rows, columns) = point(random, rows, columns);
        let arrays = arrays(&first).max(arrays(&second));
        let mut sheet = sheet::<Quadratic>(random, arrays);
        let [first, second] = [bytes(&first), bytes(&second)];
        let answer = calls::compare::<Fp>(&first, &second, &rows, &columns, &mut sheet);
        let input = format!("{rows:?} {columns:?}");
        let mut case = Case::new(&[&first, &second], input, compare_outcome(&answer));
        let [rows, columns] = [rows, columns].map(|side| with_zeros(&side));
        let got = calls::compare::<Quadratic>(&first, &second, &rows, &columns, &mut sheet);
        case.hold("over p²", got, answer);
        case
    });
}

/// i² = -1, and an element times its conjugate is a number, its norm, which is 0 for 0 alone: every other has an inverse.
#[test]
fn field_of_p_squared() {
    let p = independent::field::P;
    assert_eq!([0, 1].times([0, 1]), [p - 1, 0]);
    assert_eq!([p - 1, p - 1].times([p - 1, p - 1]), [0, 2]);
    assert_eq!([p - 1; 2].plus([p - 1; 2]), [p - 2; 2]);
    assert_eq!([0, 0].minus([p - 1, 1]), [1, p - 1]);
    assert_eq!([3, 4].times([5, 6]), [p - 9, 38]);
    assert_eq!(elements::<Quadratic>(&[1, 2, 3, 4]), [[1, 2], [3, 4]]);
    let mut random = Random::of_case(7, 0);
    for _ in 0..1_000 {
        let [u, v] = [(); 2].map(|()| random.number() % p);
        let [norm, none] = [u, v].times([u, (p - v) % p]);
        assert_eq!(none, 0);
        assert_eq!(norm == 0, [u, v] == [0, 0]);
    }
}

/// A moved key has the same arrays, and so every array has the same values and the key the same factors; there and back
/// gives the first bytes.
#[test]
fn moved_keys_have_the_same_values() {
    let wanted = outcomes(&["accepted"], &[("refused", 1..=1), ("refused", 55..=56)]);
    run("moved", 3_000, &wanted, |random| {
        let key = bytes(&to_move(random));
        let mut buffer = vec![0; 65_536];
        let answer = moved(&key, &mut buffer);
        let mut case = Case::new(&[&key], String::new(), outcome(&answer));
        let Ok(length) = answer else {
            return case;
        };
        let copy = &buffer[..length];
        let [one, other] = [&key[..], copy].map(|key| read(key).expect("the key is accepted"));
        case.hold("edition", one.edition == other.edition, false);
        case.hold("arrays", &one.arrays, &other.arrays);
        let (rows, columns) = point(random, one.rows as usize, one.columns as usize);
        let got = pass_values::<Factors<Fp>>(copy, &other, &rows, &columns);
        let wanted = pass_values::<Factors<Fp>>(&key, &one, &rows, &columns);
        case.hold("values", got, wanted);
        case.hold("factors", pass::factors(copy), pass::factors(&key));
        let mut back = vec![0; key.len()];
        case.hold("moved back", moved(copy, &mut back), Ok(key.len()));
        case.hold("there and back", &back, &key);
        case
    });
}

/// The check written for speed answers as the plain one, and the pass takes as many factors as the records have.
#[test]
fn fast_check_and_factors_agree() {
    let wanted = outcomes(&["accepted"], &[("refused", 1..=13)]);
    run("fast check", 8_000, &wanted, |random| {
        let key = mostly_damaged(random);
        let answer = calls::check(&key);
        let mut case = Case::new(&[&key], String::new(), outcome(&answer));
        case.hold("fast check", pass::check(&key), answer);
        let wanted = read(&key).map(|key| factors(&key));
        case.hold("factors that the pass takes", pass::factors(&key), wanted);
        case
    });
}

/// Evaluate and compare written for speed answer as the plain ones, with the same sheet.
#[test]
fn fast_evaluate_and_compare_agree() {
    fast_calls_agree::<Fp>();
    fast_calls_agree::<Quadratic>();
}

fn fast_calls_agree<F: Passed>() {
    let wanted = outcomes(
        &["same", "different"],
        &[("neither", 21..=23), ("neither", 31..=31)],
    );
    let name = format!("fast compare over {}", F::NAME);
    run(&name, 4_000, &wanted, |random| {
        let [first, second] = pair(random);
        let (rows, columns) = larger(&first, &second);
        let (rows, columns) = if random.chance(4) {
            F::faulty_point(random, rows, columns)
        } else {
            F::point(random, rows, columns)
        };
        let arrays = arrays(&first).max(arrays(&second));
        let lent = if random.chance(6) {
            short_sheet::<F>(random, arrays)
        } else {
            sheet::<F>(random, arrays)
        };
        let [first, second] = [bytes(&first), bytes(&second)];
        let mut plain = lent.clone();
        let mut fast = lent.clone();
        let answer = calls::compare::<F>(&first, &second, &rows, &columns, &mut plain);
        let mut case = Case::new(
            &[&first, &second],
            format!("{rows:?} {columns:?} {lent:?}"),
            compare_outcome(&answer),
        );
        let same = answer.map(|answer| answer.same);
        let got = pass::compare::<Factors<F>>(&first, &second, &rows, &columns, &mut fast);
        case.hold("compare by factors", got, same);
        case.hold("its sheet", &fast, &plain);
        let mut fast = lent.clone();
        let got = pass::compare::<Tables<F>>(&first, &second, &rows, &columns, &mut fast);
        case.hold("compare by tables", got, same);
        case.hold("its sheet", &fast, &plain);
        if let Ok(answer) = answer {
            let taken = pass::factors_of_both(&first, &second);
            case.hold("factors of both", taken, Ok(answer.factors));
        }
        // A point that fits both keys has the first's own coordinates at its beginning.
        let upto =
            |side: &[u32], bits: u8| side[..side.len().min(F::NUMBERS * bits as usize)].to_vec();
        let (rows, columns) = (upto(&rows, first[1]), upto(&columns, first[2]));
        let answer = calls::evaluate::<F>(&first, &rows, &columns, &mut plain);
        let values = answer.map(|answer| answer.values);
        let got = pass::evaluate::<Factors<F>>(&first, &rows, &columns, &mut fast);
        case.hold("evaluate by factors", got, values);
        case.hold("its sheet", &fast, &plain);
        let got = pass::evaluate::<Tables<F>>(&first, &rows, &columns, &mut fast);
        case.hold("evaluate by tables", got, values);
        case.hold("its sheet", &fast, &plain);
        case
    });
}
