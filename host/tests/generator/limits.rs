//! Fields at, over and just below their limits: refusals 5 and 7 to 12, and the neighbours that
//! pass.

use super::random::Random;
use crate::independent::field::P;
use crate::independent::record::{Call, Record};

/// Puts fields of one record at, over or just below their limits.
pub fn push_a_limit(random: &mut Random, records: &mut [Record]) {
    let is_wanted: fn(&Record) -> bool = match random.below(8) {
        0 => |record| matches!(record, Record::Head(..) | Record::ScaledHead(..)),
        1 | 2 => |record| matches!(record, Record::Sparse(..) | Record::Recursive(..)),
        3 | 4 => |record| matches!(record, Record::Cell(_)),
        _ => |record| matches!(record, Record::Call(_) | Record::ScaledCall(..)),
    };
    let at: Vec<usize> = (0..records.len())
        .filter(|&at| is_wanted(&records[at]))
        .collect();
    if at.is_empty() {
        return;
    }
    let at = if random.chance(3) {
        at[at.len() - 1]
    } else {
        random.pick(&at)
    };
    let shapes = shapes_before(records, at);
    records[at] = match records[at] {
        Record::Head(rows, columns) => {
            let [rows, columns] = pushed_bits(random, [rows, columns], [30, 30]);
            Record::Head(rows, columns)
        }
        Record::ScaledHead(rows, columns) => {
            let [rows, columns] = pushed_bits(random, [rows, columns], [30, 30]);
            Record::ScaledHead(rows, columns)
        }
        Record::Sparse(rows, columns) => {
            let [rows, columns] = pushed_bits(random, [rows, columns], head_bits(records));
            Record::Sparse(rows, columns)
        }
        Record::Recursive(rows, columns) => {
            let [rows, columns] = pushed_bits(random, [rows, columns], head_bits(records));
            Record::Recursive(rows, columns)
        }
        record => pushed_body(random, record, &shapes),
    };
}

/// The bits of the head, or none if there is no head.
fn head_bits(records: &[Record]) -> [u8; 2] {
    match records[0] {
        Record::Head(rows, columns) | Record::ScaledHead(rows, columns) => [rows, columns],
        _ => [0, 0],
    }
}

/// The shapes of the arrays that are opened before a place in the list.
fn shapes_before(records: &[Record], at: usize) -> Vec<[u8; 2]> {
    let shapes = records[..at].iter().filter_map(|record| match *record {
        Record::Sparse(rows, columns) | Record::Recursive(rows, columns) => Some([rows, columns]),
        _ => None,
    });
    shapes.collect()
}

/// Row or column bits near their limit, or one less than they were.
fn pushed_bits(random: &mut Random, bits: [u8; 2], limits: [u8; 2]) -> [u8; 2] {
    let mut pushed = bits;
    let axis = random.below(3);
    for i in 0..2 {
        if axis == i || axis == 2 {
            let limit = limits[i];
            pushed[i] = random.pick(&[
                limit,
                limit.saturating_add(1),
                limit.saturating_add(1),
                limit.saturating_sub(1),
                bits[i].saturating_sub(1),
                255,
            ]);
        }
    }
    pushed
}

/// A cell or call of the last of these arrays with fields near their limits.
fn pushed_body(random: &mut Random, record: Record, shapes: &[[u8; 2]]) -> Record {
    let Some(&[row_bits, column_bits]) = shapes.last() else {
        return record;
    };
    match record {
        Record::Cell(mut cell) => {
            let mut fields = [&mut cell.row, &mut cell.column];
            for (field, bits) in fields.iter_mut().zip([row_bits, column_bits]) {
                if random.chance(4) {
                    **field = near(random, 1u64 << bits.min(32));
                }
            }
            for value in &mut cell.values {
                if random.chance(3) {
                    *value = near(random, P.into());
                }
            }
            Record::Cell(cell)
        }
        Record::Call(call) => Record::Call(pushed_call(random, call, shapes)),
        Record::ScaledCall(call, factor) => match random.below(6) {
            0 => Record::ScaledCall(call, near(random, P.into())),
            1 => Record::ScaledCall(pushed_call(random, call, shapes), near(random, P.into())),
            _ => Record::ScaledCall(pushed_call(random, call, shapes), factor),
        },
        other => other,
    }
}

/// A call of the last of these arrays with an id or positions near their limits.
fn pushed_call(random: &mut Random, mut call: Call, shapes: &[[u8; 2]]) -> Call {
    let own = shapes.len() - 1;
    if random.chance(2) {
        call.id = pushed_id(random, shapes);
    }
    if let Some(&[rows, columns]) = shapes.get(usize::from(call.id)) {
        let mut fields = [&mut call.row, &mut call.column];
        let room = [
            shapes[own][0].saturating_sub(rows),
            shapes[own][1].saturating_sub(columns),
        ];
        for (field, bits) in fields.iter_mut().zip(room) {
            if random.chance(2) {
                **field = near(random, 1u64 << bits.min(32));
            }
        }
    }
    call
}

/// An id near the number of the calling array, which is the last of these, or any earlier one, often a larger one where
/// there is any.
fn pushed_id(random: &mut Random, shapes: &[[u8; 2]]) -> u16 {
    let own = shapes.len() - 1;
    let is_larger = |id: &usize| (0..2).any(|axis| shapes[*id][axis] > shapes[own][axis]);
    let larger: Vec<usize> = (0..own).filter(is_larger).collect();
    if !larger.is_empty() && random.chance(2) {
        return random.pick(&larger) as u16;
    }
    let id = match random.below(6) {
        0 => own,
        1 => own + 1,
        2 => 65_535,
        3 => own.saturating_sub(1),
        4 => own | 256,
        _ => random.below(own + 1),
    };
    id as u16
}

/// A 32-bit number at, over or just below a limit.
fn near(random: &mut Random, limit: u64) -> u32 {
    let number = match random.below(8) {
        0..=1 => limit - 1,
        2..=4 => limit,
        5 => limit + 1,
        6 => 1 << 31,
        _ => u64::from(u32::MAX),
    };
    number.min(u64::from(u32::MAX)) as u32
}
