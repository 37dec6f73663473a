//! Keys as deep as they can be, compared with closed forms.
//!
//! A level that calls the level before it once at 0 and twice at 1 of a new row bit multiplies its
//! value by 1 - r + 2r = 1 + r, and its dense value by 2 where the bit is 1. A level of the same
//! shape with t calls multiplies by t. As 2^31 is 1 modulo p, a power of 2 depends on its exponent
//! modulo 31 alone.
//!
//! A call counts the factors of the bits that its array has and the called one has not: of the new bit
//! one, and none in a level of the same shape. The cell, in an array without bits, counts none. So a
//! tower counts three for each level that adds a bit, and no other level adds to that.

use crate::factors;
use crate::generator::random::Random;
use crate::independent::field::{product, sum};
use crate::independent::record::Record::{Recursive, Sparse};
use crate::written::closed::*;
use crate::written::*;

/// A tower that adds row and column bits in turn, once at 0 and twice at 1, up to so many bits of
/// both together, and then as many levels of two calls each as asked for.
fn tower(bits: u8, doublings: usize) -> Vec<u8> {
    let mut body = vec![Sparse(0, 0), cell(0, 0, VALUES)];
    for level in 1..=bits {
        let below = u16::from(level) - 1;
        let rows = level.div_ceil(2);
        body.push(Recursive(rows, level / 2));
        let at_one = if level % 2 == 1 {
            call(below, 1, 0)
        } else {
            call(below, 0, 1)
        };
        body.extend([at_one, call(below, 0, 0), at_one]);
    }
    let (rows, columns) = (bits.div_ceil(2), bits / 2);
    for level in 0..doublings {
        let below = usize::from(bits) + level;
        let again = call(below as u16, 0, 0);
        body.extend([Recursive(rows, columns), again, again]);
    }
    key(rows, columns, &body)
}

/// The product over all coordinates of 1 + coordinate.
fn of_ones_and_coordinates(coordinates: &[u32]) -> u32 {
    let factors = coordinates.iter().map(|&one| sum(1, one));
    factors.fold(1, product)
}

/// Compares a tower with its closed forms, at a point and in single cells.
fn hold_tower(bits: u8, doublings: usize) {
    let key = tower(bits, doublings);
    let arrays = 1 + u32::from(bits) + doublings as u32;
    accepts(&key, arrays, 1, 3 * u32::from(bits) + 2 * doublings as u32);
    factors::hold(&key, 3 * u64::from(bits));
    let (row_bits, column_bits) = (u32::from(bits.div_ceil(2)), u32::from(bits / 2));
    let rows = coordinates(1, row_bits as usize);
    let columns = coordinates(2, column_bits as usize);
    let doubled = times(VALUES, power_of_two(doublings as u32));
    let by_rows = times(doubled, of_ones_and_coordinates(&rows));
    let wanted = times(by_rows, of_ones_and_coordinates(&columns));
    assert_eq!(values(&key, &rows, &columns), Ok(wanted));
    let mut random = Random::of_case(3, 0);
    for _ in 0..20 {
        let row = random.number() & ((1 << row_bits) - 1);
        let column = random.number() & ((1 << column_bits) - 1);
        let exponent = row.count_ones() + column.count_ones();
        let wanted = times(doubled, power_of_two(exponent));
        assert_eq!(dense(&key, row, column), Ok(wanted));
    }
}

/// Forty levels, each of which adds a bit: the matrices have 2^40 filled places.
#[test]
fn forty_levels() {
    hold_tower(40, 0);
}

/// Sixty levels: all row and column bits, the matrices have 2^60 filled places.
#[test]
fn sixty_levels() {
    hold_tower(60, 0);
}

/// A thousand levels: 60 that add a bit and 940 that double.
#[test]
fn a_thousand_levels() {
    hold_tower(60, 940);
    hold_tower(0, 1_000);
    hold_tower(1, 1_022);
}

/// Level j has j row and j column bits and calls every level below it once, so that it counts 2·(j - i) for each level
/// i below: j·(j + 1) together. Over levels 1 to n that is n·(n + 1)·(n + 2) / 3: 9,920 for 30 levels.
#[test]
fn calls_of_every_level_below() {
    for levels in [1, 2, 3, 10, 30] {
        let mut body = vec![Sparse(0, 0), cell(0, 0, VALUES)];
        for level in 1..=levels {
            body.push(Recursive(level, level));
            body.extend((0..u16::from(level)).map(|below| call(below, 0, 1)));
        }
        let n = u64::from(levels);
        let tower = key(levels, levels, &body);
        factors::hold(&tower, n * (n + 1) * (n + 2) / 3);
    }
}

/// The sheet of a tower that doubles: array i holds the cell's values times 2^i.
#[test]
fn sheet_of_a_tower() {
    let key = tower(0, 1_023);
    let mut sheet = vec![7; 3_073];
    assert!(evaluate(&key, &[], &[], &mut sheet).is_ok());
    for i in 0..1_024 {
        let wanted = times(VALUES, power_of_two(i as u32));
        assert_eq!(sheet[3 * i..3 * i + 3], wanted);
    }
    assert_eq!(sheet[3_072], 7);
}

/// Calls of the two levels before: Fibonacci's numbers, of which the fortieth is 102,334,155.
#[test]
fn fibonacci() {
    let mut body = vec![Sparse(0, 0), Sparse(0, 0), cell(0, 0, [1, 0, 0])];
    for level in 2..=40 {
        body.extend([
            Recursive(0, 0),
            call(level - 1, 0, 0),
            call(level - 2, 0, 0),
        ]);
    }
    let answer = values(&key(0, 0, &body), &[], &[]);
    assert_eq!(answer, Ok([102_334_155, 0, 0]));
}
