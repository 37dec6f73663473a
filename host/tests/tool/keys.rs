//! Keys to ask about.

/// The end.
pub const END: [u8; 1] = [6];

/// The record of the head of edition 1.
pub fn head(rows: u8, columns: u8) -> Vec<u8> {
    vec![1, rows, columns]
}

/// The record that opens a sparse array.
pub fn sparse(rows: u8, columns: u8) -> Vec<u8> {
    vec![2, rows, columns]
}

/// The record that opens a recursive array.
pub fn recursive(rows: u8, columns: u8) -> Vec<u8> {
    vec![3, rows, columns]
}

/// The record of a cell.
pub fn cell(row: u32, column: u32, a: u32, b: u32, c: u32) -> Vec<u8> {
    let words = [row, column, a, b, c].map(u32::to_le_bytes);
    [&[4][..], &words.concat()].concat()
}

/// The record of a call of edition 1.
pub fn call(id: u16, row: u32, column: u32) -> Vec<u8> {
    let positions = [row, column].map(u32::to_le_bytes);
    [&[5][..], &id.to_le_bytes(), &positions.concat()].concat()
}

/// The record of the head of edition 2.
pub fn scaled_head(rows: u8, columns: u8) -> Vec<u8> {
    vec![7, rows, columns]
}

/// The record of a call of edition 2.
pub fn scaled_call(id: u16, row: u32, column: u32, factor: u32) -> Vec<u8> {
    let called = &call(id, row, column)[1..];
    [&[8], called, &factor.to_le_bytes()].concat()
}

/// The key of the keysheet example.
pub fn sample() -> Vec<u8> {
    [
        head(1, 1),
        sparse(0, 1),
        cell(0, 1, 5, 7, 0),
        recursive(1, 1),
        call(0, 0, 0),
        call(0, 0, 0),
        END.to_vec(),
    ]
    .concat()
}

/// A key of edition 2 that is the sample but for the factors of its two calls.
pub fn scaled(first: u32, second: u32) -> Vec<u8> {
    [
        scaled_head(1, 1),
        sparse(0, 1),
        cell(0, 1, 5, 7, 0),
        recursive(1, 1),
        scaled_call(0, 0, 0, first),
        scaled_call(0, 0, 0, second),
        END.to_vec(),
    ]
    .concat()
}

/// A key of edition 1 of so many arrays before the last, which has so many calls.
pub fn calling(arrays: usize, calls: usize) -> Vec<u8> {
    [
        head(0, 0),
        sparse(0, 0).repeat(arrays),
        recursive(0, 0),
        call(0, 0, 0).repeat(calls),
        END.to_vec(),
    ]
    .concat()
}

/// A key with the sample's matrices in one sparse array.
pub fn flat() -> Vec<u8> {
    [
        head(1, 1),
        sparse(1, 1),
        cell(0, 1, 10, 14, 0),
        END.to_vec(),
    ]
    .concat()
}

/// A key of flat's shape with another B at row 0, column 1: the two are the same where the row coordinate is 1.
pub fn other() -> Vec<u8> {
    let cell = cell(0, 1, 10, 15, 0);
    [head(1, 1), sparse(1, 1), cell, END.to_vec()].concat()
}

/// What is said of the cell in which flat, the old key, and other differ.
pub const FLAT_TO_OTHER: [&str; 3] = [
    "at row 0, column 1",
    "old A 10 B 14 C 0",
    "new A 10 B 15 C 0",
];

/// A key of no bits with one cell.
pub fn single(a: u32) -> Vec<u8> {
    [head(0, 0), sparse(0, 0), cell(0, 0, a, 2, 3), END.to_vec()].concat()
}

/// A key with the values of `single(1)` as the sum of two cells.
pub fn single_in_two() -> Vec<u8> {
    let cells = [cell(0, 0, 1, 1, 1), cell(0, 0, 0, 1, 2)].concat();
    [head(0, 0), sparse(0, 0), cells, END.to_vec()].concat()
}

/// A key of 65,536 bytes: four sparse arrays, and 3,120 cells in the last.
pub fn longest() -> Vec<u8> {
    let openings = sparse(0, 0).repeat(4);
    let cells = cell(0, 0, 1, 2, 3).repeat(3120);
    [head(0, 0), openings, cells, END.to_vec()].concat()
}

/// A key of 30 row bits and 30 column bits with one cell.
pub fn wide(a: u32) -> Vec<u8> {
    let cell = cell(5, 7, a, 2, 3);
    [head(30, 30), sparse(30, 30), cell, END.to_vec()].concat()
}

/// A key with the matrices of `wide(1)` in two arrays.
pub fn wide_in_two() -> Vec<u8> {
    [
        head(30, 30),
        sparse(3, 3),
        cell(5, 7, 1, 2, 3),
        recursive(30, 30),
        call(0, 0, 0),
        END.to_vec(),
    ]
    .concat()
}
