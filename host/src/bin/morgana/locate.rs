//! The cell that is shown of two keys that are different.

use morgana::{DifferingCell, Field, Located, Point, P, SHEET};

/// A cell in which two accepted keys differ, found from a point of a field at which they are different.
///
/// Over p² it is found over p, at the first of the points u + t·v for t = 0, 1, .., m at which the keys are different,
/// where u + v·i are the coordinates of the point. There is one: along t the difference of the keys is a polynomial of
/// degree at most m with coefficients below p, it is not zero at t = i, and so it has at most m zeros.
pub fn differing_cell(first: &[u8], second: &[u8], point: &Point, field: Field) -> DifferingCell {
    let cell_from = |point: &Point| {
        let (rows, columns) = (&point.rows, &point.columns);
        match morgana::locate(first, second, rows, columns, &mut [0; SHEET]) {
            Ok(Located::Differs(cell)) => Some(cell),
            _ => None,
        }
    };
    let found = match field {
        Field::Prime => cell_from(point),
        Field::Quadratic => points_over_p(point).find_map(|point| cell_from(&point)),
    };
    found.expect("keys that are different at a point differ in a cell")
}

/// The points u + t·v over p for t = 0, 1, .., m, of a point over p² with the m coordinates u + v·i.
fn points_over_p(point: &Point) -> impl Iterator<Item = Point> + '_ {
    let m = (point.rows.len() + point.columns.len()) / Field::Quadratic.numbers();
    (0..=m as u64).map(|t| Point {
        rows: at(&point.rows, t),
        columns: at(&point.columns, t),
    })
}

/// The numbers u + t·v modulo p of some coordinates u + v·i.
fn at(numbers: &[u32], t: u64) -> Vec<u32> {
    let coordinates = numbers.chunks_exact(Field::Quadratic.numbers());
    let number = |pair: &[u32]| (u64::from(pair[0]) + t * u64::from(pair[1])) % u64::from(P);
    coordinates.map(|pair| number(pair) as u32).collect()
}

#[cfg(test)]
mod tests {
    use super::*;
    use morgana::Values;

    /// A key of one column bit and one row bit with A, B and C alike in each of its four cells, row by row.
    fn square(values: [u32; 4]) -> Vec<u8> {
        let mut key = vec![1, 1, 1, 2, 1, 1];
        for (value, place) in values.into_iter().zip(0..) {
            key.push(4);
            let fields: [u32; 5] = [place / 2, place % 2, value, value, value];
            key.extend(fields.into_iter().flat_map(u32::to_le_bytes));
        }
        key.push(6);
        key
    }

    fn point(rows: &[u32], columns: &[u32]) -> Point {
        Point {
            rows: rows.to_vec(),
            columns: columns.to_vec(),
        }
    }

    #[test]
    fn points_over_p_lie_on_a_line() {
        let found: Vec<_> = points_over_p(&point(&[3, 5, P - 1, P - 1], &[1, 0])).collect();
        let wanted = [
            point(&[3, P - 1], &[1]),
            point(&[8, P - 2], &[1]),
            point(&[13, P - 3], &[1]),
            point(&[18, P - 4], &[1]),
        ];
        assert_eq!(found, wanted);
        let none: Vec<_> = points_over_p(&point(&[], &[])).collect();
        assert_eq!(none, [point(&[], &[])]);
    }

    #[test]
    fn a_cell_is_found_where_the_first_points_say_nothing() {
        // The difference is r - c, and so v·t of the row at these points: zero at t = 0 alone.
        let (first, second) = (square([0, 0, 1, 0]), square([0, 1, 0, 0]));
        let at = point(&[7, 1], &[7, 0]);
        let compared =
            morgana::compare_quadratic(&first, &second, &at.rows, &at.columns, &mut [0; 6]);
        assert!(!compared.expect("the point fits").same);
        let cell = differing_cell(&first, &second, &at, Field::Quadratic);
        let wanted = |value| Values {
            a: value,
            b: value,
            c: value,
        };
        assert_eq!((cell.row, cell.column), (0, 1));
        assert_eq!((cell.first, cell.second), (wanted(0), wanted(1)));
        // The difference is (r - 7)·(c - 8) in the cells, and t·(t - 1) at these points: zero at t = 0 and at t = 1.
        let (first, second) = (square([0; 4]), square([56, 49, 48, 42]));
        let at = point(&[7, 1], &[7, 1]);
        let cell = differing_cell(&first, &second, &at, Field::Quadratic);
        assert_eq!((cell.row, cell.column), (0, 0));
        assert_eq!((cell.first, cell.second), (wanted(0), wanted(56)));
    }
}
