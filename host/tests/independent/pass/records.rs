//! The pass over the records of an accepted key.

use super::call::{call, factor, id, place, PLAIN, SCALED};
use super::{word, Lazy, Shapes, Weights};
use crate::independent::field::Field;

/// Writes every array's values of an accepted key at a point that fits it, and answers the last
/// array's.
pub fn write<W: Weights>(
    key: &[u8],
    shapes: &Shapes,
    weights: &W,
    sheet: &mut [u32],
) -> [W::Field; 3] {
    if key[0] == 1 {
        write_edition::<W, PLAIN>(key, shapes, weights, sheet)
    } else {
        write_edition::<W, SCALED>(key, shapes, weights, sheet)
    }
}

/// The same of a key whose calls have N bytes.
fn write_edition<W: Weights, const N: usize>(
    key: &[u8],
    shapes: &Shapes,
    weights: &W,
    sheet: &mut [u32],
) -> [W::Field; 3] {
    let mut arrays = 0;
    let mut values = [W::Field::default(); 3];
    let mut rest = &key[3..];
    while let [kind @ (2 | 3), _, _, behind @ ..] = rest {
        let to = shapes[arrays];
        (values, rest) = if *kind == 2 {
            add_cells(behind, to, weights)
        } else {
            add_calls::<W, N>(behind, to, &shapes[..arrays], weights, sheet)
        };
        put(sheet, arrays, values);
        arrays += 1;
    }
    values
}

/// The values of a sparse array, and the bytes behind its cells; two cells are weighed at a time.
fn add_cells<'a, W: Weights>(
    mut rest: &'a [u8],
    to: [u8; 2],
    weights: &W,
) -> ([W::Field; 3], &'a [u8]) {
    let mut totals = Default::default();
    while let Some((one, behind)) = cell(rest) {
        if let Some((other, behind)) = cell(behind) {
            let both = [one, other];
            let weights = weights.weigh(both.map(place_of_cell), [0, 0], to);
            add_values(&mut totals, weights, both.map(values_of_cell));
            rest = behind;
        } else {
            let weights = weights.weigh([place_of_cell(one)], [0, 0], to);
            add_values(&mut totals, weights, [values_of_cell(one)]);
            rest = behind;
        }
    }
    (totals.map(W::Field::reduce), rest)
}

/// Adds the values of cells times their weights.
#[inline(always)]
fn add_values<F: Lazy, const N: usize>(
    totals: &mut [F::Sum; 3],
    weights: [F; N],
    values: [[u32; 3]; N],
) {
    for (weight, values) in weights.into_iter().zip(values) {
        for (total, value) in totals.iter_mut().zip(values) {
            F::add_value(total, weight, value);
        }
    }
}

/// The cell at the beginning, and the bytes behind it.
#[inline(always)]
fn cell(rest: &[u8]) -> Option<(&[u8; 21], &[u8])> {
    rest.split_first_chunk()
        .filter(|(record, _)| record[0] == 4)
}

/// The row and the column of a cell.
#[inline(always)]
fn place_of_cell(record: &[u8; 21]) -> [u32; 2] {
    [word(record, 1), word(record, 5)]
}

/// A, B and C of a cell.
#[inline(always)]
fn values_of_cell(record: &[u8; 21]) -> [u32; 3] {
    [word(record, 9), word(record, 13), word(record, 17)]
}

/// The values of a recursive array, and the bytes behind its calls; two calls of arrays of one
/// shape are weighed at a time.
fn add_calls<'a, W: Weights, const N: usize>(
    mut rest: &'a [u8],
    to: [u8; 2],
    earlier: &[[u8; 2]],
    weights: &W,
    sheet: &[u32],
) -> ([W::Field; 3], &'a [u8]) {
    let mut totals = Default::default();
    while let Some((one, behind)) = call::<N>(rest) {
        let called = earlier[id(one)];
        match call::<N>(behind) {
            Some((other, behind)) if earlier[id(other)] == called => {
                let both = [one, other];
                let weights = scaled(weights.weigh(both.map(place), called, to), both);
                let values = both.map(|one| values_of_array(sheet, id(one)));
                add_elements(&mut totals, weights, values);
                rest = behind;
            }
            _ => {
                let weights = scaled(weights.weigh([place(one)], called, to), [one]);
                let values = values_of_array(sheet, id(one));
                add_elements(&mut totals, weights, [values]);
                rest = behind;
            }
        }
    }
    (totals.map(W::Field::reduce), rest)
}

/// The weights of calls times their factors, where they have any.
#[inline(always)]
fn scaled<F: Lazy, const N: usize, const COUNT: usize>(
    weights: [F; COUNT],
    calls: [&[u8; N]; COUNT],
) -> [F; COUNT] {
    std::array::from_fn(|i| match factor(calls[i]) {
        Some(factor) => weights[i].scaled(factor),
        None => weights[i],
    })
}

/// Adds the values of called arrays times the calls' weights.
#[inline(always)]
fn add_elements<F: Lazy, const N: usize>(
    totals: &mut [F::Sum; 3],
    weights: [F; N],
    values: [[F; 3]; N],
) {
    for (weight, values) in weights.into_iter().zip(values) {
        for (total, value) in totals.iter_mut().zip(values) {
            F::add_element(total, weight, value);
        }
    }
}

/// The values of an array on the sheet.
#[inline(always)]
fn values_of_array<F: Field>(sheet: &[u32], id: usize) -> [F; 3] {
    let places = &sheet[3 * F::NUMBERS * id..3 * F::NUMBERS * (id + 1)];
    std::array::from_fn(|i| F::of_numbers(&places[F::NUMBERS * i..F::NUMBERS * (i + 1)]))
}

/// Writes the values of an array on the sheet.
#[inline(always)]
fn put<F: Field>(sheet: &mut [u32], id: usize, values: [F; 3]) {
    let places = &mut sheet[3 * F::NUMBERS * id..3 * F::NUMBERS * (id + 1)];
    for (value, places) in values.into_iter().zip(places.chunks_exact_mut(F::NUMBERS)) {
        value.put(places);
    }
}
