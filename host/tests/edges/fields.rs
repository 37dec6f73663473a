//! Refusals 7 to 11: the fields of cells and calls.

use crate::independent::record::Record::{Recursive, Sparse};
use crate::written::*;

/// Refusals 7 and 8: addresses and values at their limits, 7 before 8.
#[test]
fn cells_at_their_limits() {
    let with = |row, column, values| key(3, 2, &[Sparse(3, 2), cell(row, column, values)]);
    accepts(&with(7, 3, [P - 1; 3]), 1, 1, 0);
    for (row, column) in [(8, 0), (0, 4), (u32::MAX, 0), (0, u32::MAX), (1 << 31, 0)] {
        refuses(&with(row, column, [0; 3]), 7, 6);
        refuses(&with(row, column, [P; 3]), 7, 6);
    }
    for part in 0..3 {
        for value in [P, P + 1, 1 << 31, u32::MAX] {
            let mut values = [P - 1; 3];
            values[part] = value;
            refuses(&with(7, 3, values), 8, 6);
        }
    }
    let single = |row, column| key(0, 0, &[Sparse(0, 0), cell(row, column, [1; 3])]);
    accepts(&single(0, 0), 1, 1, 0);
    refuses(&single(1, 0), 7, 6);
    refuses(&single(0, 1), 7, 6);
    let wide = |row, column| key(30, 30, &[Sparse(30, 30), cell(row, column, [1; 3])]);
    accepts(&wide((1 << 30) - 1, (1 << 30) - 1), 1, 1, 0);
    refuses(&wide(1 << 30, 0), 7, 6);
    refuses(&wide(0, 1 << 30), 7, 6);
}

/// Refusals 9, 10 and 11: ids, sizes and positions at their limits, in this order.
#[test]
fn calls_at_their_limits() {
    let earlier = [Sparse(1, 0), Sparse(0, 1), Sparse(3, 2)];
    let with = |call| {
        let mut body = earlier.to_vec();
        body.extend([Recursive(3, 1), call, Recursive(3, 2)]);
        key(3, 2, &body)
    };
    accepts(&with(call(0, 3, 1)), 5, 0, 1);
    refuses(&with(call(0, 4, 0)), 11, 15);
    refuses(&with(call(0, 0, 2)), 11, 15);
    refuses(&with(call(0, u32::MAX, 0)), 11, 15);
    refuses(&with(call(0, 0, u32::MAX)), 11, 15);
    accepts(&with(call(1, 7, 0)), 5, 0, 1);
    refuses(&with(call(1, 8, 0)), 11, 15);
    refuses(&with(call(1, 0, 1)), 11, 15);
    refuses(&with(call(2, 0, 0)), 10, 15);
    refuses(&with(call(2, u32::MAX, u32::MAX)), 10, 15);
    refuses(&with(call(3, 0, 0)), 9, 15);
    refuses(&with(call(4, 9, 9)), 9, 15);
    refuses(&with(call(256, 0, 0)), 9, 15);
    refuses(&with(call(65_535, u32::MAX, u32::MAX)), 9, 15);
    let third = |id| {
        let body = [Sparse(0, 0), Sparse(0, 0), Sparse(0, 0), Recursive(0, 0)];
        let mut body = body.to_vec();
        body.push(call(id, 0, 0));
        key(0, 0, &body)
    };
    accepts(&third(2), 4, 0, 1);
    refuses(&third(3), 9, 15);
    refuses(&key(0, 0, &[Recursive(0, 0), call(0, 0, 0)]), 9, 6);
    let rows = key(2, 2, &[Sparse(2, 0), Recursive(1, 2), call(0, 0, 0)]);
    refuses(&rows, 10, 9);
    let columns = key(2, 2, &[Sparse(0, 2), Recursive(2, 1), call(0, 0, 0)]);
    refuses(&columns, 10, 9);
}
