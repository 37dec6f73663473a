//! Check, evaluate, cell and compare, with the sheet, on top of the unrolled matrices.

use super::dense::{extension, extension_of_places, unroll, unroll_places, Places};
use super::field::{bits, elements, eq, Field, Fp, P};
use super::key::{counts, factors, factors_of_both, read, Body, Key};
use super::pass::factors::Factors;
use super::pass::{self, Lazy, Weights};
use super::{refuse, CompareRefusal, Compared, Counts, Evaluated, Refusal};

/// The greatest number of additions for which a key is unrolled into whole matrices.
const MOST_ADDITIONS: usize = 60_000;
/// The greatest number of row and column bits together of a matrix that is made whole.
const MOST_MATRIX_BITS: u32 = 12;
/// The greatest number of cells of one array for which a key is unrolled into places.
const MOST_PLACES: usize = 1_500;

/// The counts of an accepted key, or the first of refusals 1 to 13.
pub fn check(bytes: &[u8]) -> Result<Counts, Refusal> {
    Ok(counts(&read(bytes)?))
}

/// Every array's values at a point that fits the key. They come from the whole matrices where
/// those are small, else from the places that hold something, else from the pass.
pub fn values<F: Lazy>(bytes: &[u8], key: &Key, rows: &[u32], columns: &[u32]) -> Vec<[F; 3]> {
    if additions(key).is_some_and(|additions| additions <= MOST_ADDITIONS) {
        return matrix_values(key, rows, columns);
    }
    match unroll_places(key, MOST_PLACES) {
        Some(unrolled) => place_values(key, &unrolled, rows, columns),
        None => pass_values::<Factors<F>>(bytes, key, rows, columns),
    }
}

/// Every array's values from the whole matrices.
pub fn matrix_values<F: Field>(key: &Key, rows: &[u32], columns: &[u32]) -> Vec<[F; 3]> {
    let (rows, columns) = (elements(rows), elements(columns));
    let values = unroll(key)
        .into_iter()
        .map(|one| extension(&one, &rows, &columns));
    values.collect()
}

/// Every array's values from the places that hold something.
pub fn place_values<F: Field>(
    key: &Key,
    unrolled: &[Places],
    rows: &[u32],
    columns: &[u32],
) -> Vec<[F; 3]> {
    let (rows, columns) = (elements(rows), elements(columns));
    let values = unrolled.iter().zip(&key.arrays).map(|(places, array)| {
        let rows = &rows[..array.row_bits as usize];
        let columns = &columns[..array.column_bits as usize];
        extension_of_places(places, rows, columns)
    });
    values.collect()
}

/// Every array's values by the pass.
pub fn pass_values<W: Weights>(
    bytes: &[u8],
    key: &Key,
    rows: &[u32],
    columns: &[u32],
) -> Vec<[W::Field; 3]> {
    let mut sheet = vec![0; places::<W::Field>(key.arrays.len())];
    let answer = pass::evaluate::<W>(bytes, rows, columns, &mut sheet);
    answer.expect("the point fits the key");
    let elements: Vec<W::Field> = elements(&sheet);
    let triples = elements.chunks_exact(3).map(|one| [one[0], one[1], one[2]]);
    triples.collect()
}

/// How many places the values of so many arrays take on a sheet.
pub fn places<F: Field>(arrays: usize) -> usize {
    3 * F::NUMBERS * arrays
}

/// How many places and additions the whole matrices take; none where one has too many bits.
fn additions(key: &Key) -> Option<usize> {
    let mut total = 0;
    for array in &key.arrays {
        if array.row_bits + array.column_bits > MOST_MATRIX_BITS {
            return None;
        }
        total += 1 << (array.row_bits + array.column_bits);
        if let Body::Recursive(calls) = &array.body {
            for (call, _) in calls {
                let called = &key.arrays[usize::from(call.id)];
                total += 1 << (called.row_bits + called.column_bits);
            }
        }
    }
    Some(total)
}

/// Evaluate: check, 21, 22, 23, 31; every array's values on the sheet, array i's at 3i over p and at 6i
/// over p².
pub fn evaluate<F: Lazy>(
    bytes: &[u8],
    rows: &[u32],
    columns: &[u32],
    sheet: &mut [u32],
) -> Result<Evaluated<F>, Refusal> {
    let key = read(bytes)?;
    judge_point::<F>([key.rows, key.columns], rows, columns)?;
    judge_sheet::<F>(key.arrays.len(), sheet)?;
    Ok(Evaluated {
        values: write(&values(bytes, &key, rows, columns), sheet),
        factors: factors(&key),
    })
}

/// Cell: check, 24, 31; the dense values at a row and a column, and the sheet as after evaluate
/// at their bits.
pub fn cell(
    bytes: &[u8],
    row: u32,
    column: u32,
    sheet: &mut [u32],
) -> Result<Evaluated<Fp>, Refusal> {
    let key = read(bytes)?;
    if u64::from(row) >= 1 << key.rows {
        return refuse(24, 0);
    }
    if u64::from(column) >= 1 << key.columns {
        return refuse(24, 1);
    }
    judge_sheet::<Fp>(key.arrays.len(), sheet)?;
    let rows = bits(row, key.rows);
    let columns = bits(column, key.columns);
    let answer = write(&values(bytes, &key, &rows, &columns), sheet);
    Ok(Evaluated {
        values: dense_values(&key, row, column).unwrap_or(answer),
        factors: factors(&key),
    })
}

/// The last array's dense values at a row and a column, where the key is small enough to unroll.
pub fn dense_values(key: &Key, row: u32, column: u32) -> Option<[u32; 3]> {
    if additions(key).is_some_and(|additions| additions <= MOST_ADDITIONS) {
        return unroll(key).last().map(|last| last.at(row, column));
    }
    let unrolled = unroll_places(key, MOST_PLACES)?;
    let places = unrolled.last()?;
    Some(places.get(&(row, column)).copied().unwrap_or_default())
}

/// Compare: the first key, the second key, 21, 22, 23, 31 for the key with more arrays; whether all
/// three values of both keys' matrices, filled with zeros, agree, and the sheet as after evaluating
/// the first and the second at their own coordinates.
pub fn compare<F: Lazy>(
    first: &[u8],
    second: &[u8],
    rows: &[u32],
    columns: &[u32],
    sheet: &mut [u32],
) -> Result<Compared, CompareRefusal> {
    let of = |key| move |refusal| CompareRefusal { key, refusal };
    let one = read(first).map_err(of(1))?;
    let other = read(second).map_err(of(2))?;
    let shape = counts(&one).larger(&counts(&other));
    judge_point::<F>(shape, rows, columns).map_err(of(0))?;
    let arrays = one.arrays.len().max(other.arrays.len());
    judge_sheet::<F>(arrays, sheet).map_err(of(0))?;
    let of_both: [[F; 3]; 2] = [(first, &one), (second, &other)].map(|(bytes, key)| {
        let [own_rows, own_columns] = own::<F>(key, rows, columns);
        let answer = write(&values(bytes, key, own_rows, own_columns), sheet);
        filled_values(key, shape, rows, columns).unwrap_or_else(|| {
            let [rows, columns] = unused(key, rows, columns).map(|side| eq(0, &side));
            answer.map(|value: F| value.times(rows).times(columns))
        })
    });
    Ok(Compared {
        same: of_both[0] == of_both[1],
        factors: factors_of_both(&one, &other),
    })
}

/// The part of a point that a key is evaluated at: the first n row and the first n' column coordinates.
pub fn own<'a, F: Field>(key: &Key, rows: &'a [u32], columns: &'a [u32]) -> [&'a [u32]; 2] {
    [(rows, key.rows), (columns, key.columns)]
        .map(|(numbers, bits)| &numbers[..F::NUMBERS * bits as usize])
}

/// The row coordinates and the column coordinates of a point that a key does not use.
pub fn unused<F: Field>(key: &Key, rows: &[u32], columns: &[u32]) -> [Vec<F>; 2] {
    let [own_rows, own_columns] = own::<F>(key, rows, columns);
    [&rows[own_rows.len()..], &columns[own_columns.len()..]].map(elements)
}

/// The extension, at a point of N row and N' column coordinates, of the last array's matrices filled
/// with zeros to 2^N rows and 2^N' columns, where the key is small enough to unroll: the sum over all
/// rows and columns, or over the places that hold something.
pub fn filled_values<F: Field>(
    key: &Key,
    shape: [u32; 2],
    rows: &[u32],
    columns: &[u32],
) -> Option<[F; 3]> {
    let (rows, columns) = (elements(rows), elements(columns));
    let small = additions(key).is_some_and(|additions| additions <= MOST_ADDITIONS);
    if small && shape[0] + shape[1] <= MOST_MATRIX_BITS {
        let last = unroll(key).pop()?;
        return Some(extension(&last.filled(shape), &rows, &columns));
    }
    let places = unroll_places(key, MOST_PLACES)?.pop()?;
    Some(extension_of_places(&places, &rows, &columns))
}

/// Refusals 21, 22 and 23, which count numbers, for these row and column bits.
fn judge_point<F: Field>(
    [row_bits, column_bits]: [u32; 2],
    rows: &[u32],
    columns: &[u32],
) -> Result<(), Refusal> {
    if rows.len() != F::NUMBERS * row_bits as usize {
        return refuse(21, rows.len());
    }
    if columns.len() != F::NUMBERS * column_bits as usize {
        return refuse(22, columns.len());
    }
    let mut numbers = rows.iter().chain(columns);
    match numbers.position(|&number| number >= P) {
        Some(index) => refuse(23, index),
        None => Ok(()),
    }
}

/// Refusal 31.
fn judge_sheet<F: Field>(arrays: usize, sheet: &[u32]) -> Result<(), Refusal> {
    if sheet.len() < places::<F>(arrays) {
        return refuse(31, places::<F>(arrays));
    }
    Ok(())
}

/// Writes every array's values on the sheet and answers the last array's.
fn write<F: Field>(values: &[[F; 3]], sheet: &mut [u32]) -> [F; 3] {
    let elements = values.iter().flatten();
    for (element, places) in elements.zip(sheet.chunks_exact_mut(F::NUMBERS)) {
        element.put(places);
    }
    *values.last().expect("an accepted key has an array")
}
