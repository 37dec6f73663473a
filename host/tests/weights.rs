//! The archive tested against the independent implementation over every window of coordinates that can weigh
//! a call, at every number of records, and on keys of narrow and wide arrays: wherever weights may be
//! worked out in one way or in another. `MORGANA_SEED` gives another seed.

mod archive;
mod cases;
mod generator;
mod independent;
mod lent;

#[path = "differential/held.rs"]
mod held;
#[path = "weights/kind.rs"]
mod kind;

use generator::counted::{of_calls, of_cells, of_few_bits};
use generator::inputs::point;
use generator::keys::uneven;
use generator::windows::{alone, long, short, windows};
use kind::{Kind, ALWAYS_FILLED, MOSTLY_FILLED};

/// Every window in a key of ten records at most.
#[test]
fn windows_in_short_keys() {
    ALWAYS_FILLED.hold("short", &windows(), short);
}

/// Every window in a key of 30 row and 30 column bits and hundreds of records.
#[test]
fn windows_in_long_keys() {
    ALWAYS_FILLED.hold("long", &windows(), long);
}

/// Every window in a key whose bits end where the window ends, with hundreds of records.
#[test]
fn windows_alone() {
    ALWAYS_FILLED.hold("alone", &windows(), alone);
}

/// Every number of cells of all bits.
#[test]
fn counts_of_cells() {
    MOSTLY_FILLED.hold("cells", &up_to(700), of_cells);
}

/// Every number of calls in an array of all bits.
#[test]
fn counts_of_calls() {
    MOSTLY_FILLED.hold("calls", &up_to(700), of_calls);
}

/// Every number of cells or calls of few bits, and some greater ones.
#[test]
fn counts_in_narrow_arrays() {
    let mut counts = up_to(700);
    counts.extend((700..3_000).step_by(23));
    MOSTLY_FILLED.hold("narrow", &counts, of_few_bits);
}

/// Keys of narrow and wide arrays, at points some of which have weights that are zero.
#[test]
fn narrow_beside_wide_arrays() {
    let kind = Kind {
        point,
        ..MOSTLY_FILLED
    };
    kind.hold("uneven", &[(); 1_000], |random, ()| uneven(random));
}

/// The numbers from 0 on; 0 comes often enough for every outcome of two keys without records.
fn up_to(last: usize) -> Vec<usize> {
    let zeros = [0; 20].into_iter();
    zeros.chain(1..=last).collect()
}
