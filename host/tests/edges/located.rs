//! Locate: the cell that it answers, both keys' values there, its sheet and its refusals.

use crate::generator::keys::any;
use crate::generator::random::Random;
use crate::generator::variants::second;
use crate::grown::{drawn, larger, sample_in, small_keys, SHEET};
use crate::independent;
use crate::independent::dense::{unroll, Matrix};
use crate::independent::field::{bits, Fp};
use crate::independent::key::read;
use crate::independent::record::Record::{self, Recursive, Sparse};
use crate::independent::record::{bytes, Call};
use crate::independent::{CompareRefusal, DifferingCell, Refusal};
use crate::written::closed::VALUES;
use crate::written::*;

/// Asserts the cell that locate answers for two keys at a point, and with the keys exchanged the same with the values
/// exchanged; none is "same".
fn hold(first: &[u8], second: &[u8], rows: &[u32], columns: &[u32], wanted: Option<DifferingCell>) {
    let there = locate(first, second, rows, columns, &mut [9; SHEET]);
    assert_eq!(there, Ok(wanted), "at {rows:?} {columns:?}");
    let exchanged = wanted.map(|cell| DifferingCell {
        first: cell.second,
        second: cell.first,
        ..cell
    });
    let back = locate(second, first, rows, columns, &mut [9; SHEET]);
    assert_eq!(back, Ok(exchanged), "at {rows:?} {columns:?}");
}

/// The cell at a row and a column with these values.
fn at(row: u32, column: u32, first: [u32; 3], second: [u32; 3]) -> Option<DifferingCell> {
    Some(DifferingCell {
        row,
        column,
        first,
        second,
    })
}

/// The values of the one cell in which the keys of a pair differ.
const OTHERS: [u32; 3] = [1, P - 1, 1_234_567_891];

/// The row bits and the column bits that each of forty levels adds: sixty together.
fn added(level: usize) -> [u8; 2] {
    match level % 4 {
        0 => [1, 0],
        1 => [0, 1],
        _ => [1, 1],
    }
}

/// A key of thirty row bits and thirty column bits whose every place holds `VALUES`, but for the one at a row and a column,
/// which holds these values, forty levels deep.
fn filled_but_one(row: u32, column: u32, values: [u32; 3]) -> Vec<u8> {
    let mut body = vec![
        Sparse(0, 0),
        cell(0, 0, VALUES),
        Sparse(0, 0),
        cell(0, 0, values),
    ];
    let mut own = [0; 2];
    for level in 0..40 {
        let more = added(level);
        let [row_bit, column_bit] = [(row, 0), (column, 1)]
            .map(|(number, axis)| (number >> own[axis]) & ((1 << more[axis]) - 1));
        own = [own[0] + more[0], own[1] + more[1]];
        let (filled, but_one) = (2 * level as u16, 2 * level as u16 + 1);
        let places = places(more);
        let id = |place| {
            if place == (row_bit, column_bit) {
                but_one
            } else {
                filled
            }
        };
        body.push(Recursive(own[0], own[1]));
        body.extend(
            places
                .iter()
                .map(|&(row, column)| call(filled, row, column)),
        );
        body.push(Recursive(own[0], own[1]));
        body.extend(
            places
                .iter()
                .map(|&(row, column)| call(id((row, column)), row, column)),
        );
    }
    assert_eq!(own, [30, 30]);
    key(30, 30, &body)
}

/// Every row and column position that so many bits write.
fn places([rows, columns]: [u8; 2]) -> Vec<(u32, u32)> {
    let rows = 0..1 << rows;
    rows.flat_map(|row| (0..1 << columns).map(move |column| (row, column)))
        .collect()
}

/// A row or a column of thirty bits.
fn address(random: &mut Random) -> u32 {
    random.number() >> 2
}

/// Keys that differ in exactly one of 2^60 cells, forty levels deep: that cell is answered, whatever the point.
#[test]
fn one_cell_of_two_to_the_sixty() {
    let mut random = Random::of_case(31, 0);
    let greatest = (1 << 30) - 1;
    let mut cells = vec![(0, 0), (greatest, 0), (0, greatest), (greatest, greatest)];
    cells.extend((0..20).map(|_| (address(&mut random), address(&mut random))));
    for (row, column) in cells {
        let first = filled_but_one(row, column, VALUES);
        let second = filled_but_one(row, column, OTHERS);
        let wanted = at(row, column, VALUES, OTHERS);
        for _ in 0..5 {
            let [rows, columns] = [(); 2].map(|()| drawn::<Fp>(&mut random, 30));
            hold(&first, &second, &rows, &columns, wanted);
        }
        // Of the points of bits the cell's own shows it, and no other does.
        let [rows, columns] = [row, column].map(|number| bits(number, 30));
        hold(&first, &second, &rows, &columns, wanted);
        let elsewhere = bits(row ^ 1 << random.below(30), 30);
        hold(&first, &second, &elsewhere, &columns, None);
        let elsewhere = bits(column ^ 1 << random.below(30), 30);
        hold(&first, &second, &rows, &elsewhere, None);
    }
}

/// The values in a deep cell are those that cell answers for each key.
#[test]
fn values_are_those_of_cell() {
    let mut random = Random::of_case(32, 0);
    for _ in 0..20 {
        let (row, column) = (address(&mut random), address(&mut random));
        let keys = [VALUES, OTHERS].map(|values| filled_but_one(row, column, values));
        let [rows, columns] = [(); 2].map(|()| drawn::<Fp>(&mut random, 30));
        let [first, second] = keys.each_ref().map(|key| dense(key, row, column));
        let (first, second) = (first.expect("inside"), second.expect("inside"));
        let [one, other] = &keys;
        hold(one, other, &rows, &columns, at(row, column, first, second));
    }
}

/// Keys without bits: the one place, at the one point.
#[test]
fn no_coordinates() {
    let single = |values| key(0, 0, &[Sparse(0, 0), cell(0, 0, values)]);
    let first = single([4, 5, 6]);
    hold(&first, &single([4, 5, 6]), &[], &[], None);
    for second in [[3, 5, 6], [4, P - 1, 6], [4, 5, 0], [0; 3]] {
        let wanted = at(0, 0, [4, 5, 6], second);
        hold(&first, &single(second), &[], &[], wanted);
    }
    let empty = key(0, 0, &[Sparse(0, 0)]);
    hold(&first, &empty, &[], &[], at(0, 0, [4, 5, 6], [0; 3]));
}

/// A key of these bits with some cells, all of whose parts have the given value.
fn of_cells(rows: u8, columns: u8, cells: &[(u32, u32, u32)]) -> Vec<u8> {
    let cells = cells
        .iter()
        .map(|&(row, column, a)| cell(row, column, [a; 3]));
    let body: Vec<Record> = [Sparse(rows, columns)].into_iter().chain(cells).collect();
    key(rows, columns, &body)
}

/// 0 goes before 1: of keys that differ everywhere the first cell is answered.
#[test]
fn zero_before_one() {
    let all: Vec<_> = places([2, 2])
        .into_iter()
        .map(|(row, column)| (row, column, 1 + 5 * row + 3 * column))
        .collect();
    let (one, other) = (of_cells(2, 2, &[]), of_cells(2, 2, &all));
    for point in [[3, 4], [7, 11], [P - 1, P - 2]] {
        hold(&one, &other, &point, &point, at(0, 0, [0; 3], [1; 3]));
    }
}

/// Rows go before columns, and coordinate 0 before the others.
#[test]
fn the_order_of_coordinates() {
    // Row 0 still differs, at column 1; column 0 would too, at row 1.
    let (one, other) = (of_cells(1, 1, &[(0, 1, 5)]), of_cells(1, 1, &[(1, 0, 6)]));
    hold(&one, &other, &[3], &[4], at(0, 1, [5; 3], [0; 3]));
    // With bit 0 of the row zero, row 2 still differs; with bit 1 zero, row 1 would.
    let rows = [of_cells(2, 0, &[(1, 0, 5)]), of_cells(2, 0, &[(2, 0, 6)])];
    hold(&rows[0], &rows[1], &[3, 4], &[], at(2, 0, [0; 3], [6; 3]));
    let columns = [of_cells(0, 2, &[(0, 1, 5)]), of_cells(0, 2, &[(0, 2, 6)])];
    hold(
        &columns[0],
        &columns[1],
        &[],
        &[3, 4],
        at(0, 2, [0; 3], [6; 3]),
    );
    // Three bits, of which the lowest that can be zero is: rows 1, 6 and 7 differ, and 6 is answered.
    let three = of_cells(3, 0, &[(1, 0, 5), (6, 0, 6), (7, 0, 8)]);
    let none = of_cells(3, 0, &[]);
    hold(&three, &none, &[3, 4, 5], &[], at(6, 0, [6; 3], [0; 3]));
}

/// Later coordinates are kept, so that a cell before the answered one may differ: row 0 has 2 and 1, which weigh -1 and 2 at
/// column coordinate 2 and so vanish; at another one row 0 is answered.
#[test]
fn cells_before_may_differ() {
    let one = of_cells(1, 1, &[(0, 0, 2), (0, 1, 1), (1, 0, 3)]);
    let other = of_cells(1, 1, &[]);
    hold(&one, &other, &[5], &[2], at(1, 0, [3; 3], [0; 3]));
    hold(&one, &other, &[5], &[3], at(0, 0, [2; 3], [0; 3]));
    // At row coordinate 0 row 1 weighs nothing, and at 1 it alone weighs something.
    hold(&one, &other, &[0], &[2], None);
    hold(&one, &other, &[1], &[2], at(1, 0, [3; 3], [0; 3]));
    // A point of bits at which the keys differ need not be the answer: 0 goes before 1.
    hold(&one, &other, &[1], &[0], at(0, 0, [2; 3], [0; 3]));
    hold(&one, &other, &[0], &[1], at(0, 0, [2; 3], [0; 3]));
}

/// Each of A, B and C shows a difference alone.
#[test]
fn each_part_counts() {
    let one = |values| key(1, 1, &[Sparse(1, 1), cell(1, 0, values)]);
    let first = one([4, 5, 6]);
    for other in [[3, 5, 6], [4, 4, 6], [4, 5, 5], [4, 6, 5]] {
        let wanted = at(1, 0, [4, 5, 6], other);
        hold(&first, &one(other), &[3], &[4], wanted);
    }
}

/// A cell beyond the smaller key's rows, columns or both: its values there are zero.
#[test]
fn beyond_the_smaller_shape() {
    for (row, column) in [(2, 0), (0, 2), (3, 3), (7, 1), (1, 7), (5, 6)] {
        let small = of_cells(1, 1, &[(1, 1, 8)]);
        let large = of_cells(3, 3, &[(1, 1, 8), (row, column, 9)]);
        let wanted = at(row, column, [0; 3], [9; 3]);
        hold(&small, &large, &[3, 5, 7], &[4, 6, 8], wanted);
        assert_eq!(dense(&large, row, column), Ok([9; 3]));
        assert!(dense(&small, row, column).is_err());
    }
    // One key has more rows and the other more columns: each has zeros where the other has its cell.
    let tall = of_cells(2, 0, &[(0, 0, 8), (3, 0, 9)]);
    let wide = of_cells(0, 2, &[(0, 0, 8)]);
    hold(&tall, &wide, &[3, 5], &[4, 6], at(3, 0, [9; 3], [0; 3]));
    let wider = of_cells(0, 2, &[(0, 0, 8), (0, 2, 7)]);
    hold(&tall, &wider, &[3, 5], &[4, 6], at(0, 2, [0; 3], [7; 3]));
    // No bits beside thirty on both axes.
    let single = of_cells(0, 0, &[(0, 0, 4)]);
    let last = (1 << 30) - 1;
    let far = of_cells(30, 30, &[(0, 0, 4), (last, last, 5)]);
    let point = vec![2; 30];
    hold(
        &single,
        &far,
        &point,
        &point,
        at(last, last, [0; 3], [5; 3]),
    );
}

/// Keys that are the same, also in two shapes and two editions, are "same" at every point.
#[test]
fn equal_keys() {
    let mut random = Random::of_case(33, 0);
    let mut buffer = vec![0; 65_536];
    let length = moved(&sample(), &mut buffer).expect("it is moved");
    let copy = &buffer[..length];
    for (rows, columns) in [(1, 1), (2, 1), (1, 30), (30, 30)] {
        let grown = sample_in(rows, columns, 0, 0);
        for _ in 0..5 {
            let [rows, columns] = [rows, columns].map(|bits| drawn::<Fp>(&mut random, bits.into()));
            for other in [&sample()[..], copy] {
                hold(other, &grown, &rows, &columns, None);
                hold(other, &sample(), &rows[..1], &columns[..1], None);
            }
        }
    }
}

/// The dense matrices of a key's last array, filled with zeros to a shape.
fn filled(key: &[u8], shape: [u32; 2]) -> Matrix {
    let last = unroll(&read(key).expect("it is accepted")).pop();
    last.expect("an array").filled(shape)
}

/// Asserts what locate answers for a pair at a point: what the independent implementation answers, with every place of the
/// sheet, and a cell in which the filled matrices differ and whose values they have. Whether there is one.
fn hold_pair(first: &[u8], second: &[u8], rows: &[u32], columns: &[u32]) -> bool {
    let (mut sheet, mut wanted) = ([9; SHEET], [9; SHEET]);
    let answer = locate(first, second, rows, columns, &mut sheet);
    let expected = independent::locate::locate(first, second, rows, columns, &mut wanted);
    assert_eq!(
        answer, expected,
        "{first:?} {second:?} at {rows:?} {columns:?}"
    );
    assert_eq!(sheet, wanted);
    let Ok(Some(cell)) = answer else { return false };
    let shape = larger(first, second);
    let [one, other] = [first, second].map(|key| filled(key, shape).at(cell.row, cell.column));
    assert_ne!(one, other);
    assert_eq!((cell.first, cell.second), (one, other));
    true
}

/// Every pair of small keys at drawn points and at points of bits, in unrolled matrices.
#[test]
fn every_pair_of_small_keys() {
    let mut random = Random::of_case(34, 0);
    let keys = small_keys();
    let mut count = [0, 0];
    for one in &keys {
        for other in &keys {
            let shape = larger(one, other);
            let [rows, columns] = shape.map(|bits| drawn::<Fp>(&mut random, bits));
            let found = hold_pair(one, other, &rows, &columns);
            let differ = filled(one, shape) != filled(other, shape);
            // Unequal matrices agree at a drawn point once in hundreds of millions.
            assert_eq!(found, differ, "{one:?} {other:?} at {rows:?} {columns:?}");
            count[usize::from(found)] += 1;
            let corner = shape.map(|count| bits(random.number() & ((1 << count) - 1), count));
            hold_pair(one, other, &corner[0], &corner[1]);
        }
    }
    assert!(count[0] > 200 && count[1] > 1_500, "{count:?}");
}

/// Drawn pairs of up to twelve bits, in unrolled matrices, at points some of whose coordinates are bits.
#[test]
fn drawn_small_pairs() {
    let mut random = Random::of_case(35, 0);
    let mut found = 0;
    for _ in 0..3_000 {
        let first = any(&mut random);
        let keys = [second(&mut random, &first), first].map(|records| bytes(&records));
        let [one, other] = &keys;
        let [rows, columns] = larger(one, other);
        if rows + columns > 12 || one.len().max(other.len()) > 400 {
            continue;
        }
        let mut point = drawn::<Fp>(&mut random, rows + columns);
        for coordinate in &mut point {
            if random.chance(4) {
                *coordinate &= 1;
            }
        }
        let (rows, columns) = point.split_at(rows as usize);
        found += u32::from(hold_pair(one, other, rows, columns));
    }
    assert!(found > 200, "{found}");
}

/// The sheet has the first key and then the second at their own bits of the row and of the column, and what lies behind
/// them stays; where the keys are the same at the point, at their own coordinates of it.
#[test]
fn sheet_of_locate() {
    // The sample's array 0 has no row bits; its cell stands in column 1.
    let single = of_cells(0, 0, &[(0, 0, 1)]);
    let mut sheet = [11; 8];
    let answer = locate(&sample(), &single, &[3], &[4], &mut sheet);
    // At row 0 both differ still, and at column 0 of it too, in single's place alone.
    assert_eq!(answer, Ok(at(0, 0, [0; 3], [1; 3])));
    assert_eq!(sheet, [1, 1, 1, 0, 0, 0, 11, 11]);
    let mut sheet = [11; 6];
    let answer = locate(&single, &sample(), &[3], &[4], &mut sheet);
    assert_eq!(answer, Ok(at(0, 0, [1; 3], [0; 3])));
    assert_eq!(sheet, [0; 6]);
    let empty = key(1, 1, &[Sparse(1, 1)]);
    let mut sheet = [11; 7];
    let answer = locate(&empty, &sample(), &[3], &[4], &mut sheet);
    assert_eq!(answer, Ok(at(0, 1, [0; 3], [10, 14, 0])));
    assert_eq!(sheet, [5, 7, 0, 10, 14, 0, 11]);
    let mut sheet = [11; 7];
    let answer = locate(&sample(), &sample(), &[3], &[4], &mut sheet);
    assert_eq!(answer, Ok(None));
    assert_eq!(sheet, [20, 28, 0, P - 80, P - 112, 0, 11]);
}

/// Locate's refusals, which are compare's in its order, and a sheet that stays as it was.
#[test]
fn refusals_of_locate() {
    let wide = key(1, 2, &[Sparse(1, 2), cell(0, 0, [1; 3])]);
    let tall = key(2, 1, &[Sparse(2, 1)]);
    let bad = [1, 31, 0];
    let of = |key, number, place| {
        Err(CompareRefusal {
            key,
            refusal: Refusal { number, place },
        })
    };
    let held = |first: &[u8], second: &[u8], rows: &[u32], columns: &[u32], wanted| {
        for length in [0, 1, 2] {
            let mut sheet = vec![11; length];
            let answer = locate(first, second, rows, columns, &mut sheet);
            assert_eq!(answer, wanted);
            assert_eq!(sheet, vec![11; length]);
        }
    };
    held(&bad, &[6], &[], &[], of(1, 5, 0));
    held(&[6], &bad, &[], &[], of(1, 4, 0));
    held(&wide, &bad, &[], &[], of(2, 5, 0));
    held(&wide, &[], &[], &[], of(2, 2, 0));
    held(&[], &[], &[], &[], of(1, 2, 0));
    held(&wide, &tall, &[P], &[P], of(0, 21, 1));
    held(&tall, &wide, &[P, P, P], &[P], of(0, 21, 3));
    held(&tall, &wide, &[P, P], &[P], of(0, 22, 1));
    held(&wide, &tall, &[P, P], &[P, P], of(0, 23, 0));
    held(&wide, &tall, &[0, 1], &[1, P], of(0, 23, 3));
    held(&wide, &tall, &[P - 1, 0], &[1, P - 1], of(0, 31, 3));
    held(&wide, &wide, &[3], &[4, 5], of(0, 31, 3));
}

/// A sheet that is one place too short for either key is refused, also where the keys differ, and one that is as long as
/// it must be suffices.
#[test]
fn short_sheets() {
    let body = [vec![Sparse(1, 1); 5], vec![cell(1, 1, [7; 3])]].concat();
    let (long, short) = (key(1, 1, &body), key(1, 1, &[Sparse(1, 1)]));
    for (first, second, values) in [
        (&long, &short, ([7; 3], [0; 3])),
        (&short, &long, ([0; 3], [7; 3])),
    ] {
        for length in [0, 3, 14] {
            let mut sheet = vec![11; length];
            let answer = locate(first, second, &[3], &[4], &mut sheet);
            assert_eq!(answer, neither(31, 15));
            assert_eq!(sheet, vec![11; length]);
        }
        let answer = locate(first, second, &[3], &[4], &mut [11; 15]);
        assert_eq!(answer, Ok(at(1, 1, values.0, values.1)));
    }
}

/// Calls with factors of edition 2 count in the values: the second key's one call has the factor -1.
#[test]
fn scaled_calls() {
    let body = |call: Record| [Sparse(0, 0), cell(0, 0, [5, 0, 2]), Recursive(1, 1), call];
    let plain = key(1, 1, &body(call(0, 1, 1)));
    let place = Call {
        id: 0,
        row: 1,
        column: 1,
    };
    let negated = scaled_key(1, 1, &body(Record::ScaledCall(place, P - 1)));
    let wanted = at(1, 1, [5, 0, 2], [P - 5, 0, P - 2]);
    hold(&plain, &negated, &[3], &[4], wanted);
}
