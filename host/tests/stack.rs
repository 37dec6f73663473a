//! Compiles `stack.c` against the header and the archive, and runs it. With `--nocapture` it shows the
//! bytes of stack that each call needs.

mod compiled;

/// The archive is linked so that memset is bound at its first use, within the call that is measured.
#[test]
fn every_call_keeps_to_the_stated_stack() {
    print!("{}", compiled::run("stack", &["-Wl,-z,lazy"], &["print"]));
}
