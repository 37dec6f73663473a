//! Whether standard input or standard output was closed when the program began, or open for the other direction alone.
//!
//! The runtime opens `/dev/null` in the place of a closed descriptor before `main`; it takes a descriptor that cannot be
//! read for an empty file, and what is written to one that cannot be written for written. So the descriptors are looked
//! at earlier, where the loader runs what the program has in `.init_array`. There the signal is ignored too that would end
//! the program where it writes to a file that may not grow: writing is then an error, and is said.
#![allow(unsafe_code)]

use std::ffi::c_int;
use std::sync::atomic::{AtomicBool, Ordering};

/// The descriptors of standard input and standard output.
const INPUT: c_int = 0;
const OUTPUT: c_int = 1;

/// The command of `fcntl` that asks how a descriptor is open, and the part of its answer that says for which direction.
const GET_STATUS: c_int = 3;
const DIRECTION: c_int = 3;
const READ_ONLY: c_int = 0;
const WRITE_ONLY: c_int = 1;

/// The signal of a file that may not grow, and what ignores a signal.
const FILE_TOO_LARGE: c_int = 25;
const IGNORE: usize = 1;

/// What was found.
static INPUT_CLOSED: AtomicBool = AtomicBool::new(false);
static OUTPUT_CLOSED: AtomicBool = AtomicBool::new(false);

/// What the loader runs before the runtime.
#[used]
#[link_section = ".init_array"]
static LOOK: extern "C" fn() = look;

extern "C" {
    fn fcntl(descriptor: c_int, command: c_int, ...) -> c_int;
    fn signal(number: c_int, handler: usize) -> usize;
}

/// Asks how both descriptors are open, which a closed one is not.
extern "C" fn look() {
    let closed = |descriptor, wrong| {
        // SAFETY: this command takes no further argument, reads no memory and changes nothing.
        let status = unsafe { fcntl(descriptor, GET_STATUS) };
        status == -1 || status & DIRECTION == wrong
    };
    INPUT_CLOSED.store(closed(INPUT, WRITE_ONLY), Ordering::Relaxed);
    OUTPUT_CLOSED.store(closed(OUTPUT, READ_ONLY), Ordering::Relaxed);
    // SAFETY: no handler is installed, and no other thread runs yet.
    unsafe { signal(FILE_TOO_LARGE, IGNORE) };
}

/// Whether standard input could not be read when the program began.
pub fn input_is_closed() -> bool {
    INPUT_CLOSED.load(Ordering::Relaxed)
}

/// Whether standard output could not be written when the program began.
pub fn output_is_closed() -> bool {
    OUTPUT_CLOSED.load(Ordering::Relaxed)
}
