//! Compiles `interface.c` against the header and the archive, and runs it; and compiles the header alone
//! as each language that may include it.

mod compiled;

use compiled::{include, output, run, STRICT};
use std::fs;
use std::path::Path;
use std::process::Command;

#[test]
fn the_header_says_what_the_archive_has() {
    print!("{}", run("interface", &[], &[]));
}

#[test]
fn the_header_is_c99() {
    syntax("cc", "c", "c99");
}

#[test]
fn the_header_is_cpp11() {
    syntax("c++", "c++", "c++11");
}

#[test]
fn a_program_in_cpp_is_linked() {
    let folder = Path::new(env!("CARGO_TARGET_TMPDIR"));
    let (source, program) = (folder.join("linked.cpp"), folder.join("linked"));
    let text =
        "#include <morgana.h>\nint main() { return morgana_version() != MORGANA_VERSION; }\n";
    fs::write(&source, text).expect("the source is written");
    let mut compiler = Command::new("c++");
    compiler.args(STRICT).arg("-I").arg(include()).arg(&source);
    compiler.arg(env!("MORGANA_LINKED")).arg("-o").arg(&program);
    output(&mut compiler, "c++");
    output(&mut Command::new(&program), "the program in C++");
}

/// Compiles the header alone by a standard of a language.
fn syntax(compiler: &str, language: &str, standard: &str) {
    let mut command = Command::new(compiler);
    command.args(["-x", language, &format!("-std={standard}"), "-fsyntax-only"]);
    command.args(STRICT).arg(include().join("morgana.h"));
    output(&mut command, &format!("morgana.h as {standard}"));
}
