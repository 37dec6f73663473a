//! The dense form of every array, and multilinear extensions as sums over all rows and columns.

use std::collections::HashMap;

use super::field::{eq, product, sum, Field};
use super::key::{Array, Body, Key};

/// An array's A, B and C at every place that holds something; they are zero elsewhere.
pub type Places = HashMap<(u32, u32), [u32; 3]>;

/// An array's A, B and C at every row and column, row by row.
#[derive(Debug, Clone, PartialEq, Eq)]
pub struct Matrix {
    pub row_bits: u32,
    pub column_bits: u32,
    pub places: Vec<[u32; 3]>,
}

impl Matrix {
    /// A, B and C at a row and a column.
    pub fn at(&self, row: u32, column: u32) -> [u32; 3] {
        self.places[self.index(row, column)]
    }

    /// The matrix of so many bits that has this one at its first rows and columns, and zeros elsewhere.
    pub fn filled(&self, [row_bits, column_bits]: [u32; 2]) -> Matrix {
        let mut filled = Matrix {
            row_bits,
            column_bits,
            places: vec![[0; 3]; 1 << (row_bits + column_bits)],
        };
        for row in 0..1 << self.row_bits {
            for column in 0..1 << self.column_bits {
                let index = filled.index(row, column);
                filled.places[index] = self.at(row, column);
            }
        }
        filled
    }

    /// Where the values of a row and a column stand in the list.
    fn index(&self, row: u32, column: u32) -> usize {
        ((row as usize) << self.column_bits) + column as usize
    }
}

/// Adds three values to three, each modulo p.
fn add(to: &mut [u32; 3], values: [u32; 3]) {
    for (to, value) in to.iter_mut().zip(values) {
        *to = sum(*to, value);
    }
}

/// Three values times a factor.
fn scaled(values: [u32; 3], factor: u32) -> [u32; 3] {
    values.map(|value| product(value, factor))
}

/// The dense form of every array, in the order of the key.
pub fn unroll(key: &Key) -> Vec<Matrix> {
    let mut matrices: Vec<Matrix> = Vec::new();
    for array in &key.arrays {
        let matrix = unroll_array(array, &matrices);
        matrices.push(matrix);
    }
    matrices
}

/// The dense form of one array, from those of the earlier ones.
fn unroll_array(array: &Array, earlier: &[Matrix]) -> Matrix {
    let mut matrix = Matrix {
        row_bits: array.row_bits,
        column_bits: array.column_bits,
        places: vec![[0; 3]; 1 << (array.row_bits + array.column_bits)],
    };
    match &array.body {
        Body::Sparse(cells) => {
            for cell in cells {
                let index = matrix.index(cell.row, cell.column);
                add(&mut matrix.places[index], cell.values);
            }
        }
        Body::Recursive(calls) => {
            for &(call, factor) in calls {
                let called = &earlier[usize::from(call.id)];
                for row in 0..1 << called.row_bits {
                    for column in 0..1 << called.column_bits {
                        let index = matrix.index(
                            row + (call.row << called.row_bits),
                            column + (call.column << called.column_bits),
                        );
                        let values = scaled(called.at(row, column), factor);
                        add(&mut matrix.places[index], values);
                    }
                }
            }
        }
    }
    matrix
}

/// The multilinear extension of a matrix at the first k and the first k' coordinates of a point:
/// the sum over all rows and columns.
pub fn extension<F: Field>(matrix: &Matrix, rows: &[F], columns: &[F]) -> [F; 3] {
    let rows = &rows[..matrix.row_bits as usize];
    let columns = &columns[..matrix.column_bits as usize];
    let column_weights: Vec<F> = (0..1 << matrix.column_bits)
        .map(|column| eq(column, columns))
        .collect();
    let mut total = [F::default(); 3];
    for row in 0..1 << matrix.row_bits {
        let row_weight = eq(row, rows);
        for column in 0..1 << matrix.column_bits {
            let weight = row_weight.times(column_weights[column as usize]);
            add_weighed(&mut total, matrix.at(row, column), weight);
        }
    }
    total
}

/// Adds three values times a weight to three sums.
fn add_weighed<F: Field>(to: &mut [F; 3], values: [u32; 3], weight: F) {
    for (to, value) in to.iter_mut().zip(values) {
        *to = to.plus(F::of_value(value).times(weight));
    }
}

/// The dense form of every array at the places that hold something, for keys with too many rows
/// or columns for a matrix; none where an array has more than `most` cells once unrolled.
pub fn unroll_places(key: &Key, most: usize) -> Option<Vec<Places>> {
    let mut unrolled: Vec<Places> = Vec::new();
    for array in &key.arrays {
        let mut places = Places::new();
        let mut count = 0;
        match &array.body {
            Body::Sparse(cells) => {
                count += cells.len();
                for cell in cells {
                    let place = places.entry((cell.row, cell.column)).or_default();
                    add(place, cell.values);
                }
            }
            Body::Recursive(calls) => {
                for &(call, factor) in calls {
                    let id = usize::from(call.id);
                    count += unrolled[id].len() + 1;
                    if count > most {
                        return None;
                    }
                    for (&(row, column), &values) in &unrolled[id] {
                        let row = row + (call.row << key.arrays[id].row_bits);
                        let column = column + (call.column << key.arrays[id].column_bits);
                        let place = places.entry((row, column)).or_default();
                        add(place, scaled(values, factor));
                    }
                }
            }
        }
        if count > most {
            return None;
        }
        unrolled.push(places);
    }
    Some(unrolled)
}

/// The multilinear extension from the places that hold something.
pub fn extension_of_places<F: Field>(places: &Places, rows: &[F], columns: &[F]) -> [F; 3] {
    let mut total = [F::default(); 3];
    for (&(row, column), &values) in places {
        let weight = eq(row, rows).times(eq(column, columns));
        add_weighed(&mut total, values, weight);
    }
    total
}
