//! The shapes of two keys that are compared, where they are not one.

use crate::show::counted;
use morgana::{number, Counts};

/// The row bits and the column bits of an old key and of a new one, of which one at least is another.
#[derive(Debug, Clone, Copy, PartialEq, Eq)]
pub struct Shapes {
    /// The old key's row bits and column bits.
    pub old: [u32; 2],
    /// The new key's.
    pub new: [u32; 2],
}

/// The bits of both keys for the rows or for the columns.
struct Axis {
    /// The name of one bit.
    bit: &'static str,
    /// The number that refuses a wrong count of coordinates.
    refuses: u32,
    old: u32,
    new: u32,
}

impl Shapes {
    /// The shapes of two keys; none where they are of one.
    pub fn of(old: Counts, new: Counts) -> Option<Shapes> {
        let [old, new] = [old, new].map(|counts| [counts.rows, counts.columns]);
        (old != new).then_some(Shapes { old, new })
    }

    /// What is said behind the verdict.
    pub fn line(&self) -> String {
        format!("{}: compared as filled with zeros", bits(&self.unequal()))
    }

    /// The bits behind the refusal of a count of coordinates, where the keys differ in them.
    pub fn behind(&self, refused: u32) -> Option<String> {
        let mut axes = self.unequal().into_iter();
        let axis = axes.find(|axis| axis.refuses == refused)?;
        Some(bits(&[axis]))
    }

    /// The axes on which the keys differ.
    fn unequal(&self) -> Vec<Axis> {
        let axis = |index: usize, bit, refuses| Axis {
            bit,
            refuses,
            old: self.old[index],
            new: self.new[index],
        };
        let mut axes = vec![
            axis(0, "row bit", number::ROW_COUNT_WRONG),
            axis(1, "column bit", number::COLUMN_COUNT_WRONG),
        ];
        axes.retain(|axis| axis.old != axis.new);
        axes
    }
}

/// The bits of both keys on some axes, in words.
fn bits(axes: &[Axis]) -> String {
    let olds: Vec<_> = axes
        .iter()
        .map(|axis| counted(axis.old as usize, axis.bit))
        .collect();
    let news: Vec<_> = axes.iter().map(|axis| axis.new.to_string()).collect();
    format!("old has {}, new {}", olds.join(" and "), news.join(" and "))
}

#[cfg(test)]
mod tests {
    use super::*;

    #[test]
    fn only_what_differs_is_named() {
        for (old, new, wanted) in [
            ([3, 2], [4, 2], "old has 3 row bits, new 4"),
            ([30, 2], [0, 2], "old has 30 row bits, new 0"),
            ([3, 1], [3, 0], "old has 1 column bit, new 0"),
            (
                [1, 0],
                [2, 5],
                "old has 1 row bit and 0 column bits, new 2 and 5",
            ),
            (
                [4, 1],
                [3, 2],
                "old has 4 row bits and 1 column bit, new 3 and 2",
            ),
        ] {
            let line = Shapes { old, new }.line();
            assert_eq!(line, format!("{wanted}: compared as filled with zeros"));
        }
    }

    #[test]
    fn a_refused_count_has_its_own_bits() {
        let shapes = |old, new| Shapes { old, new };
        let both = shapes([3, 1], [4, 2]);
        let rows = Some("old has 3 row bits, new 4");
        let columns = Some("old has 1 column bit, new 2");
        for (shapes, number, wanted) in [
            (both, number::ROW_COUNT_WRONG, rows),
            (both, number::COLUMN_COUNT_WRONG, columns),
            (both, number::COORDINATE_TOO_GREAT, None),
            (shapes([3, 2], [4, 2]), number::ROW_COUNT_WRONG, rows),
            (shapes([3, 2], [4, 2]), number::COLUMN_COUNT_WRONG, None),
            (shapes([3, 1], [3, 2]), number::ROW_COUNT_WRONG, None),
            (shapes([3, 1], [3, 2]), number::COLUMN_COUNT_WRONG, columns),
        ] {
            assert_eq!(shapes.behind(number).as_deref(), wanted);
        }
    }

    #[test]
    fn keys_of_one_shape_have_no_two() {
        let counts = |rows, columns| {
            let key = [1, rows, columns, 2, rows, columns, 6];
            morgana::check(&key).expect("the key is accepted")
        };
        assert_eq!(Shapes::of(counts(3, 2), counts(3, 2)), None);
        for (rows, columns) in [(4, 2), (3, 1), (2, 3)] {
            let (old, new) = ([3, 2], [rows, columns].map(u32::from));
            let found = Shapes::of(counts(3, 2), counts(rows, columns));
            assert_eq!(found, Some(Shapes { old, new }));
        }
    }
}
