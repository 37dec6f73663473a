//! How the shapes of two keys that are compared go together.

use std::cmp::Ordering;

use crate::independent::calls::check;

/// What is said of the shapes of two keys; nothing where they are one.
pub const ALL: [&str; 5] = [
    "",
    ", rows differ",
    ", columns differ",
    ", both differ",
    ", each larger in one",
];

/// What is said of those of two accepted keys.
pub fn relation(keys: &[Vec<u8>; 2]) -> &'static str {
    let [one, other] = keys
        .each_ref()
        .map(|key| check(key).expect("the key is accepted"));
    let rows = one.rows.cmp(&other.rows);
    let columns = one.columns.cmp(&other.columns);
    ALL[match (rows, columns) {
        (Ordering::Equal, Ordering::Equal) => 0,
        (_, Ordering::Equal) => 1,
        (Ordering::Equal, _) => 2,
        _ if rows == columns => 3,
        _ => 4,
    }]
}
