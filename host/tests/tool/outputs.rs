//! Output that cannot be written, and output that is closed.

use crate::keys::{flat, longest, sample, scaled};
use crate::support::{Folder, Ran};
use std::fs::File;
use std::os::fd::OwnedFd;
use std::os::unix::net::UnixStream;
use std::process::Stdio;

#[test]
fn output_that_cannot_be_written_is_said() {
    let folder = Folder::new("full", &[("sample", &sample())]);
    for arguments in [
        &["--help"][..],
        &["check", "sample"],
        &["check", "sample", "sample"],
        &["check", "sample", "--json"],
        &["compare", "sample", "sample"],
    ] {
        let full = File::options()
            .write(true)
            .open("/dev/full")
            .expect("/dev/full opens");
        let ran = folder.program(arguments).stdout(full).output();
        Ran::of(ran.expect("morgana runs")).fails(&["cannot write to standard output: "]);
    }
}

#[test]
fn a_closed_pipe_ends_the_program_quietly() {
    let folder = Folder::new("pipe", &[("sample", &sample()), ("flat", &flat())]);
    folder.write("longest", &longest());
    for arguments in [
        &["show", "longest"][..],
        &["check", "sample"],
        &["compare", "sample", "flat"],
        &["compare", "sample", "flat", "--json"],
        &["--help"],
    ] {
        let mut program = folder.program(arguments);
        let (reader, writer) = UnixStream::pair().expect("a pair of sockets");
        drop(reader);
        let output = program
            .stdout(OwnedFd::from(writer))
            .stderr(Stdio::piped())
            .output();
        Ran::of(output.expect("morgana runs")).answers(3, "");
    }
}

#[test]
fn a_closed_output_is_said() {
    let folder = Folder::new("closed", &[("sample", &sample())]);
    for (redirection, status) in [
        (">&-", 3),
        ("1</dev/null", 3),
        (">/dev/null", 0),
        ("1<>/dev/null", 0),
    ] {
        let ran = folder.in_shell(":", &format!("check sample {redirection}"));
        match status {
            0 => ran.answers(0, ""),
            _ => ran.fails(&["cannot write to standard output: it is closed"]),
        }
    }
}

#[test]
fn a_file_that_may_not_grow_is_said() {
    let folder = Folder::new("limit", &[("sample", &sample())]);
    let ran = folder.in_shell("ulimit -f 0", "check sample > out");
    ran.fails(&["cannot write to standard output: File too large"]);
}

#[test]
fn a_copy_that_may_not_grow_is_not_there() {
    let folder = Folder::new("limit-copy", &[("sample", &sample()), ("kept", b"kept")]);
    for (line, name) in [
        ("move sample --to new", "new"),
        ("move sample --to kept --force", "kept"),
    ] {
        let ran = folder.in_shell("ulimit -f 0", line);
        ran.fails(&[&format!("cannot write \"{name}\": File too large")]);
        assert_eq!(folder.names(), ["kept", "sample"]);
        assert_eq!(folder.read("kept"), b"kept");
    }
}

#[test]
fn nothing_is_written_where_the_output_is_closed() {
    let folder = Folder::new("closed-copy", &[("sample", &sample())]);
    let ran = folder.in_shell(":", "move sample --to new >&-");
    ran.fails(&["cannot write to standard output: it is closed"]);
    assert_eq!(folder.names(), ["sample"]);
}

#[test]
fn a_copy_that_is_written_stays_where_the_answer_cannot_be() {
    let folder = Folder::new("full-copy", &[("sample", &sample())]);
    let ran = folder.in_shell(":", "move sample --to new >/dev/full");
    ran.fails(&["cannot write to standard output: "]);
    assert_eq!(folder.names(), ["new", "sample"]);
    assert_eq!(folder.read("new"), scaled(1, 1));
}

#[test]
fn a_closed_input_is_no_empty_key() {
    let folder = Folder::new("closed-input", &[("sample", &sample())]);
    for (redirection, status) in [
        ("<&-", 3),
        ("0>/dev/null", 3),
        ("</dev/null", 2),
        ("<sample", 0),
    ] {
        let ran = folder.in_shell(":", &format!("check - {redirection}"));
        match status {
            3 => ran.fails(&["cannot read standard input: it is closed"]),
            _ => ran.status(status),
        }
    }
}
