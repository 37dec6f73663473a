//! Points, rows, columns and sheets, whole and faulty.

use super::random::Random;
use crate::independent::calls::places;
use crate::independent::field::{Field, Fp, Quadratic, P};

/// The numbers of row coordinates and of column coordinates.
pub type Point = (Vec<u32>, Vec<u32>);

/// A field that points are drawn from.
pub trait Drawn: Field {
    /// A point of so many row and column coordinates.
    fn point(random: &mut Random, rows: usize, columns: usize) -> Point;

    /// A point that does not fit them, in one or more ways.
    fn faulty_point(random: &mut Random, rows: usize, columns: usize) -> Point;
}

impl Drawn for Fp {
    fn point(random: &mut Random, rows: usize, columns: usize) -> Point {
        point(random, rows, columns)
    }

    fn faulty_point(random: &mut Random, rows: usize, columns: usize) -> Point {
        faulty_point(random, rows, columns)
    }
}

impl Drawn for Quadratic {
    fn point(random: &mut Random, rows: usize, columns: usize) -> Point {
        quadratic_point(random, rows, columns)
    }

    fn faulty_point(random: &mut Random, rows: usize, columns: usize) -> Point {
        faulty_quadratic_point(random, rows, columns)
    }
}

/// A point of so many row and column coordinates, all below p. Most points have few coordinates
/// near 0, 1 and p - 1 or none, as 0 and 1 make most weights zero.
pub fn point(random: &mut Random, rows: usize, columns: usize) -> Point {
    let rarity = random.pick(&[1, 5, 30, 100, 1_000, 1_000_000, 1_000_000, 1_000_000]);
    let mut coordinates = |count| (0..count).map(|_| coordinate(random, rarity)).collect();
    (coordinates(rows), coordinates(columns))
}

/// A point whose coordinates are neither 0 nor 1, so that no weight is zero.
pub fn nonzero_point(random: &mut Random, rows: usize, columns: usize) -> Point {
    let mut coordinates = |count| (0..count).map(|_| 2 + random.number() % (P - 2)).collect();
    (coordinates(rows), coordinates(columns))
}

/// A number below p; of so many numbers, one near 0, 1 or p - 1.
fn coordinate(random: &mut Random, rarity: usize) -> u32 {
    if !random.chance(rarity) {
        return random.number() % P;
    }
    match random.below(4) {
        0 => 0,
        1 => 1,
        2 => P - 1,
        _ => random.pick(&[2, 3, P - 2, P - 3, 1 << 30]),
    }
}

/// A point with one or more faults: a wrong count of rows or columns, coordinates p or more.
fn faulty_point(random: &mut Random, rows: usize, columns: usize) -> Point {
    let (mut row_count, mut column_count) = (rows, columns);
    let fault = random.below(8);
    if fault < 2 || fault == 7 {
        row_count = other_count(random, rows);
    }
    if (1..4).contains(&fault) {
        column_count = other_count(random, columns);
    }
    let mut point = point(random, row_count, column_count);
    if fault >= 3 {
        for _ in 0..random.between(1, 3) {
            let side = if random.chance(2) {
                &mut point.0
            } else {
                &mut point.1
            };
            if !side.is_empty() {
                let index = random.below(side.len());
                side[index] = random.pick(&[P, P, P + 1, 1 << 31, u32::MAX, P - 1]);
            }
        }
    }
    point
}

/// A point of so many row and column coordinates of two numbers each. In some points every v is 0, and in
/// some every number is p - 1.
fn quadratic_point(random: &mut Random, rows: usize, columns: usize) -> Point {
    let (rows, columns) = (2 * rows, 2 * columns);
    let mut point = match random.below(8) {
        0 => return (vec![P - 1; rows], vec![P - 1; columns]),
        1 => nonzero_point(random, rows, columns),
        _ => point(random, rows, columns),
    };
    if random.chance(6) {
        for side in [&mut point.0, &mut point.1] {
            side.iter_mut().skip(1).step_by(2).for_each(|v| *v = 0);
        }
    }
    point
}

/// A point of two numbers a coordinate with one or more faults: as `faulty_point` has them, which counts
/// numbers, or a coordinate too many or too few.
fn faulty_quadratic_point(random: &mut Random, rows: usize, columns: usize) -> Point {
    if random.chance(2) {
        return faulty_point(random, 2 * rows, 2 * columns);
    }
    let mut counts = [rows, columns];
    let count = &mut counts[random.below(2)];
    *count = match random.below(2) {
        0 if *count > 0 => *count - 1,
        _ => *count + 1,
    };
    let [rows, columns] = counts;
    if random.chance(3) {
        return faulty_point(random, 2 * rows, 2 * columns);
    }
    quadratic_point(random, rows, columns)
}

/// Another count than this one, often the next.
fn other_count(random: &mut Random, count: usize) -> usize {
    match random.below(4) {
        0 => count + 1,
        1 if count > 0 => count - 1,
        2 if count > 0 => 0,
        _ => count + random.between(1, 40),
    }
}

/// A row or column for an array of so many bits: inside, or outside if asked for.
pub fn address(random: &mut Random, bits: usize, outside: bool) -> u32 {
    let behind = 1u32 << bits;
    if outside {
        return random.pick(&[behind, behind, behind + 1, behind << 1, 1 << 31, u32::MAX]);
    }
    match random.below(4) {
        0 => 0,
        1 => behind - 1,
        _ => random.number() & (behind - 1),
    }
}

/// A sheet of arbitrary numbers, mostly long enough for so many arrays, often exactly.
pub fn sheet<F: Field>(random: &mut Random, arrays: usize) -> Vec<u32> {
    let needed = places::<F>(arrays);
    let length = match random.below(8) {
        0..=2 => needed,
        3..=4 => needed + random.between(1, 4),
        _ => needed + random.below(40),
    };
    (0..length).map(|_| random.number()).collect()
}

/// A sheet too short for so many arrays, often by one.
pub fn short_sheet<F: Field>(random: &mut Random, arrays: usize) -> Vec<u32> {
    let needed = places::<F>(arrays);
    let length = match random.below(4) {
        0..=1 => needed - 1,
        2 => 0,
        _ => random.below(needed),
    };
    (0..length).map(|_| random.number()).collect()
}
