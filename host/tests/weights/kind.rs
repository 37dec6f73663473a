//! Check, evaluate, cell and compare on keys of one kind.

use crate::archive::Served;
use crate::cases::{outcomes, run_each, Case};
use crate::generator::grown::{grown, larger};
use crate::generator::inputs::{nonzero_point, sheet, Point};
use crate::generator::path::{end_of, path};
use crate::generator::random::Random;
use crate::generator::variants::{altered, arrays, other, reworded, shape};
use crate::held::{cell_case, check_case, compare_case, evaluate_case};
use crate::independent::field::{Fp, Quadratic};
use crate::independent::record::{bytes, Record};

/// A kind of keys and points to hold the archive on.
pub struct Kind {
    /// What evaluate and cell come to.
    pub values: &'static [&'static str],
    /// What compare comes to.
    pub comparisons: &'static [&'static str],
    /// A point of so many numbers for the rows and for the columns.
    pub point: fn(&mut Random, usize, usize) -> Point,
}

/// Keys in which every call leads to a cell.
pub const ALWAYS_FILLED: Kind = Kind {
    values: &["accepted"],
    comparisons: &["same", "different"],
    point: nonzero_point,
};

/// Keys of which some are empty.
pub const MOSTLY_FILLED: Kind = Kind {
    values: &["accepted", "zero"],
    comparisons: &["same", "same at zero", "different"],
    point: nonzero_point,
};

impl Kind {
    /// Holds each call of the archive on a key that is drawn for each input.
    pub fn hold<T: Copy>(&self, name: &str, inputs: &[T], draw: fn(&mut Random, T) -> Vec<Record>) {
        let each = |call: &str, named: &[&str], one: fn(&Kind, &mut Random, &[Record]) -> Case| {
            let name = format!("{call}, {name}");
            run_each(&name, inputs, &outcomes(named, &[]), |random, &input| {
                let records = draw(random, input);
                one(self, random, &records)
            });
        };
        each("check", &["accepted"], Kind::check);
        each("evaluate", self.values, Kind::evaluate::<Fp>);
        each("cell", self.values, Kind::cell);
        each("compare", self.comparisons, Kind::compare::<Fp>);
        each("evaluate over p²", self.values, Kind::evaluate::<Quadratic>);
        each(
            "compare over p²",
            self.comparisons,
            Kind::compare::<Quadratic>,
        );
    }

    /// Check of a key.
    fn check(&self, random: &mut Random, records: &[Record]) -> Case {
        check_case(random, &bytes(records))
    }

    /// Evaluate of a key at a point.
    fn evaluate<F: Served>(&self, random: &mut Random, records: &[Record]) -> Case {
        let point = self.point_of::<F>(random, shape(records));
        let sheet = sheet::<F>(random, arrays(records));
        evaluate_case::<F>(random, &bytes(records), &point, &sheet)
    }

    /// A point of so many row and column coordinates.
    fn point_of<F: Served>(&self, random: &mut Random, (rows, columns): (usize, usize)) -> Point {
        (self.point)(random, F::NUMBERS * rows, F::NUMBERS * columns)
    }

    /// Cell of a key at a place to which a path leads, where one is found.
    fn cell(&self, random: &mut Random, records: &[Record]) -> Case {
        let (row, column) = end_of(&path(random, records), records);
        let sheet = sheet::<Fp>(random, arrays(records));
        cell_case(random, &bytes(records), row, column, &sheet)
    }

    /// Compare of a key with another, of its shape or grown where there is room, in either order.
    fn compare<F: Served>(&self, random: &mut Random, records: &[Record]) -> Case {
        let second = match random.below(4) {
            0 => altered(random, records),
            1 => reworded(random, records),
            2 => {
                let axes = random.pick(&[[true, false], [false, true], [true, true]]);
                grown(random, records, axes)
            }
            _ => other(random, shape(records)),
        };
        let point = self.point_of::<F>(random, larger(records, &second));
        let sheet = sheet::<F>(random, arrays(records).max(arrays(&second)));
        let mut keys = [bytes(records), bytes(&second)];
        if random.chance(2) {
            keys.reverse();
        }
        compare_case::<F>(random, &keys, &point, &sheet)
    }
}
