//! Keys of two shapes compared, each read as filled with zeros up to the larger shape: where they are the same.

use crate::archive::Served;
use crate::generator::random::Random;
use crate::independent::calls::filled_values;
use crate::independent::dense::unroll;
use crate::independent::field::{bits, with_zeros, Field, Fp, Quadratic};
use crate::independent::key::read;
use crate::independent::record::Record::{self, Recursive, Sparse};
use crate::written::*;

/// The places of a sheet that is long enough for every key over either field.
pub const SHEET: usize = 6 * 1_024;

/// Asserts what compare over a field answers for two keys, in either order.
fn hold<F: Served>(one: &[u8], other: &[u8], rows: &[u32], columns: &[u32], same: bool) {
    for [first, second] in [[one, other], [other, one]] {
        let answer = compare_over::<F>(first, second, rows, columns, &mut [9; SHEET]);
        assert_eq!(
            answer,
            Ok(same),
            "{first:?} {second:?} at {rows:?} {columns:?}"
        );
    }
}

/// The numbers of so many coordinates from a field.
pub fn drawn<F: Field>(random: &mut Random, count: u32) -> Vec<u32> {
    let numbers = 0..F::NUMBERS * count as usize;
    numbers.map(|_| random.number() % P).collect()
}

/// Keys of every shape of up to two row bits and two column bits: empty, with one cell at the first place and at the last,
/// and with a value of its own at every place, in one array and by calls of one place.
pub fn small_keys() -> Vec<Vec<u8>> {
    let shapes = (0..3).flat_map(|rows| (0..3).map(move |columns| (rows, columns)));
    let mut keys = Vec::new();
    for (rows, columns) in shapes {
        let places: Vec<_> = (0..1 << rows)
            .flat_map(|row| (0..1 << columns).map(move |column| (row, column)))
            .collect();
        let sparse =
            |cells: &[Record]| key(rows, columns, &[&[Sparse(rows, columns)], cells].concat());
        let last = places[places.len() - 1];
        keys.push(sparse(&[]));
        keys.push(sparse(&[cell(0, 0, [1, 2, 3])]));
        keys.push(sparse(&[cell(last.0, last.1, [1, 2, 3])]));
        // The values of a place are the same in every shape.
        let value =
            |(row, column): (u32, u32)| cell(row, column, [1 + row, 5 + 3 * column, row * column]);
        keys.push(sparse(
            &places.iter().copied().map(value).collect::<Vec<_>>(),
        ));
        let mut body = vec![
            Sparse(0, 0),
            cell(0, 0, [1, 1, 0]),
            Recursive(rows, columns),
        ];
        let call = |&(row, column): &(u32, u32)| scaled_call(0, row, column, 1 + 7 * row + column);
        body.extend(places.iter().map(call));
        keys.push(scaled_key(rows, columns, &body));
    }
    keys
}

/// The larger shape of two keys, by their heads.
pub fn larger(one: &[u8], other: &[u8]) -> [u32; 2] {
    [1, 2].map(|at| one[at].max(other[at]).into())
}

/// Every pair of them at every corner: compare tells the places apart whose filled values are unequal.
#[test]
fn every_corner_of_small_keys() {
    let keys = small_keys();
    let last = |key: &[u8]| {
        unroll(&read(key).expect("it is accepted"))
            .pop()
            .expect("an array")
    };
    for one in &keys {
        for other in &keys {
            let shape = larger(one, other);
            let filled = [one, other].map(|key| last(key).filled(shape));
            for row in 0..1 << shape[0] {
                for column in 0..1 << shape[1] {
                    let same = filled[0].at(row, column) == filled[1].at(row, column);
                    let [rows, columns] = [bits(row, shape[0]), bits(column, shape[1])];
                    hold::<Fp>(one, other, &rows, &columns, same);
                    let [rows, columns] = [rows, columns].map(|side| with_zeros(&side));
                    hold::<Quadratic>(one, other, &rows, &columns, same);
                }
            }
        }
    }
}

/// Every pair of them at drawn points: "same" where the sums over all filled places are equal.
#[test]
fn every_pair_of_small_keys() {
    every_pair_over::<Fp>();
    every_pair_over::<Quadratic>();
}

fn every_pair_over<F: Served>() {
    let mut random = Random::of_case(17, 0);
    let keys = small_keys();
    let mut count = [0, 0];
    for one in &keys {
        for other in &keys {
            let shape = larger(one, other);
            let [rows, columns] = shape.map(|bits| drawn::<F>(&mut random, bits));
            let sums: [[F; 3]; 2] = [one, other].map(|key| {
                let key = read(key).expect("it is accepted");
                filled_values(&key, shape, &rows, &columns).expect("it is small")
            });
            let same = sums[0] == sums[1];
            hold::<F>(one, other, &rows, &columns, same);
            count[usize::from(same)] += usize::from(one[1..3] != other[1..3]);
        }
    }
    assert!(count[0] > 1_000 && count[1] > 100, "{count:?}");
}

/// A key of these bits whose last array calls the sample's last array at a position.
pub fn sample_in(rows: u8, columns: u8, row: u32, column: u32) -> Vec<u8> {
    let body = [
        Sparse(0, 1),
        cell(0, 1, [5, 7, 0]),
        Recursive(1, 1),
        call(0, 0, 0),
        call(0, 0, 0),
        Recursive(rows, columns),
        call(1, row, column),
    ];
    key(rows, columns, &body)
}

/// A key and the same called at position 0 of a larger array are the same at every point; at any other position they are
/// different, but where the weights are equal.
#[test]
fn own_growth() {
    let mut random = Random::of_case(18, 0);
    for (rows, columns) in [(2, 1), (1, 2), (2, 2), (30, 1), (1, 30), (7, 30), (30, 30)] {
        let grown = sample_in(rows, columns, 0, 0);
        let shape = [rows, columns].map(u32::from);
        for number in [0, 1, 2, P - 1] {
            let [rows, columns] = shape.map(|bits| vec![number; bits as usize]);
            hold::<Fp>(&sample(), &grown, &rows, &columns, true);
            let [rows, columns] = [rows, columns].map(|side| side.repeat(2));
            hold::<Quadratic>(&sample(), &grown, &rows, &columns, true);
        }
        for _ in 0..20 {
            let [at_rows, at_columns] = shape.map(|bits| drawn::<Fp>(&mut random, bits));
            hold::<Fp>(&sample(), &grown, &at_rows, &at_columns, true);
            let [both_rows, both_columns] = shape.map(|bits| drawn::<Quadratic>(&mut random, bits));
            hold::<Quadratic>(&sample(), &grown, &both_rows, &both_columns, true);
            let moved_rows = (rows > 1).then(|| sample_in(rows, columns, 1, 0));
            let moved_columns = (columns > 1).then(|| sample_in(rows, columns, 0, 1));
            for moved in moved_rows.into_iter().chain(moved_columns) {
                hold::<Fp>(&sample(), &moved, &at_rows, &at_columns, false);
                hold::<Fp>(&grown, &moved, &at_rows, &at_columns, false);
                hold::<Quadratic>(&sample(), &moved, &both_rows, &both_columns, false);
            }
        }
    }
    // At 1 - r = r the places 0 and 1 of the new row bit weigh the same: r is 1/2.
    let half = P.div_ceil(2);
    hold::<Fp>(&sample(), &sample_in(2, 1, 1, 0), &[3, half], &[4], true);
    hold::<Fp>(
        &sample(),
        &sample_in(2, 1, 1, 0),
        &[3, half + 1],
        &[4],
        false,
    );
}

/// A key that has grown in rows and the same grown in columns are the same at every point, and so are both editions.
#[test]
fn each_larger_in_one() {
    let mut random = Random::of_case(19, 0);
    let mut buffer = vec![0; 65_536];
    for (rows, columns) in [(2, 2), (5, 3), (30, 30)] {
        let (tall, wide) = (sample_in(rows, 1, 0, 0), sample_in(1, columns, 0, 0));
        let length = moved(&wide, &mut buffer).expect("it is moved");
        let scaled = &buffer[..length];
        let elsewhere = sample_in(1, columns, 0, 1);
        for _ in 0..10 {
            let shape = [rows, columns].map(u32::from);
            let [rows, columns] = shape.map(|bits| drawn::<Fp>(&mut random, bits));
            hold::<Fp>(&tall, &wide, &rows, &columns, true);
            hold::<Fp>(&tall, scaled, &rows, &columns, true);
            hold::<Fp>(&tall, &elsewhere, &rows, &columns, false);
            let [rows, columns] = shape.map(|bits| drawn::<Quadratic>(&mut random, bits));
            hold::<Quadratic>(&tall, &wide, &rows, &columns, true);
            hold::<Quadratic>(&tall, scaled, &rows, &columns, true);
            hold::<Quadratic>(&tall, &elsewhere, &rows, &columns, false);
        }
    }
}

/// No bits beside thirty on either axis or both: the one place of the smaller weighs the product of all 1 - r.
#[test]
fn no_bits_beside_thirty() {
    let single = key(0, 0, &[Sparse(0, 0), cell(0, 0, [4, 5, 6])]);
    for (rows, columns) in [(30, 0), (0, 30), (30, 30)] {
        let at = |row, column, values| {
            key(
                rows,
                columns,
                &[Sparse(rows, columns), cell(row, column, values)],
            )
        };
        let last = |bits: u8| (1u32 << bits) - 1;
        let elsewhere = at(last(rows), last(columns), [4, 5, 6]);
        let point = |number| [rows, columns].map(|bits| vec![number; bits.into()]);
        for number in [0, 1, 2, 3, P - 1] {
            let [at_rows, at_columns] = point(number);
            let first = at(0, 0, [4, 5, 6]);
            hold::<Fp>(&single, &first, &at_rows, &at_columns, true);
            hold::<Fp>(&single, &elsewhere, &at_rows, &at_columns, false);
            let [at_rows, at_columns] = [at_rows, at_columns].map(|side| with_zeros(&side));
            hold::<Quadratic>(&single, &first, &at_rows, &at_columns, true);
            hold::<Quadratic>(&single, &elsewhere, &at_rows, &at_columns, false);
        }
        // At 2 each coordinate weighs -1, and all together 1, so that other values are told apart; at 1 they weigh 0.
        let [at_rows, at_columns] = point(2);
        hold::<Fp>(&single, &at(0, 0, [4, 5, 7]), &at_rows, &at_columns, false);
        let [at_rows, at_columns] = point(1);
        hold::<Fp>(&single, &at(0, 0, [4, 5, 7]), &at_rows, &at_columns, true);
    }
}

/// How often two keys are the same at the points all of whose coordinates are 0, 1 or 2, over p and, with every v zero,
/// over p².
fn same_count(one: &[u8], other: &[u8]) -> usize {
    let [rows, columns] = larger(one, other).map(|bits| bits as usize);
    let digits =
        |number: usize| (0..rows + columns).map(move |i| number / 3usize.pow(i as u32) % 3);
    let same = |number: &usize| {
        let point: Vec<u32> = digits(*number).map(|digit| digit as u32).collect();
        let over_p = compare(one, other, &point[..rows], &point[rows..], &mut [9; SHEET]);
        let [rows, columns] = [&point[..rows], &point[rows..]].map(with_zeros);
        let over_both = compare_quadratic(one, other, &rows, &columns, &mut [9; SHEET]);
        assert_eq!(over_both, over_p);
        over_p.expect("the point fits")
    };
    (0..3usize.pow((rows + columns) as u32))
        .filter(same)
        .count()
}

/// One cell in the last corner of the larger key, or of the smaller, beside an empty key: it weighs 0 where a coordinate
/// that it uses is 0 or one that it does not use is 1, and so at 3^m - 2^m of the 3^m points. Keys that differ in no cell
/// are the same at all.
#[test]
fn counted_points() {
    let shapes = [(0, 0), (1, 0), (0, 1), (1, 1), (2, 1), (0, 3), (3, 2)];
    let empty = |(rows, columns)| key(rows, columns, &[Sparse(rows, columns)]);
    let corner = |(rows, columns)| {
        let last = |bits: u8| (1 << bits) - 1;
        let cell = cell(last(rows), last(columns), [0, 0, 1]);
        key(rows, columns, &[Sparse(rows, columns), cell])
    };
    for one in shapes {
        for other in shapes {
            let m: u32 = larger(&empty(one), &empty(other)).iter().sum();
            let [three, two] = [3usize, 2].map(|count| count.pow(m));
            for (first, second, wanted) in [
                (empty(one), empty(other), three),
                (corner(one), empty(other), three - two),
                (empty(one), corner(other), three - two),
            ] {
                assert_eq!(same_count(&first, &second), wanted, "{one:?} {other:?}");
            }
        }
    }
}
