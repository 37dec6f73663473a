//! The programs in C beside the tests: compiled against the header and the archive, and run.

use std::path::{Path, PathBuf};
use std::process::{Command, Output};

/// The warnings that end a compilation.
pub const STRICT: [&str; 4] = ["-Wall", "-Wextra", "-Wpedantic", "-Werror"];

/// The folder of the header.
pub fn include() -> PathBuf {
    Path::new(env!("CARGO_MANIFEST_DIR")).join("include")
}

/// What a command writes to standard output. Panics with what it says where it fails.
pub fn output(command: &mut Command, what: &str) -> String {
    let Output {
        status,
        stdout,
        stderr,
    } = command
        .output()
        .unwrap_or_else(|error| panic!("{what}: {command:?} does not run: {error}"));
    let said = String::from_utf8_lossy(&stderr);
    assert!(status.success(), "{what}: {status}\n{said}");
    String::from_utf8_lossy(&stdout).into_owned()
}

/// Compiles `tests/NAME.c` with more arguments for the compiler, runs it with arguments of its own,
/// and gives what it prints. Panics where the compiler or the program fails.
pub fn run(name: &str, flags: &[&str], arguments: &[&str]) -> String {
    let package = Path::new(env!("CARGO_MANIFEST_DIR"));
    let program = Path::new(env!("CARGO_TARGET_TMPDIR")).join(name);
    let mut compiler = Command::new("cc");
    compiler.arg("-std=c11").args(STRICT);
    compiler.arg("-I").arg(include());
    compiler.arg(package.join("tests").join(name).with_extension("c"));
    compiler.arg(env!("MORGANA_LINKED")).args(flags);
    compiler.arg("-o").arg(&program);
    output(&mut compiler, &format!("cc on {name}.c"));
    output(Command::new(&program).args(arguments), name)
}
