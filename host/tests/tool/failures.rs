//! Wrong usage, files that cannot be read, and help.

use crate::keys::sample;
use crate::support::Folder;
use std::ffi::OsString;
use std::os::unix::ffi::OsStringExt;

#[test]
fn help_says_how_the_program_is_used() {
    let folder = Folder::new("help", &[]);
    let help = folder.run(&["--help"]);
    for word in [
        "check",
        "show",
        "evaluate",
        "cell",
        "price",
        "move",
        "compare",
        "--cell R",
        "--call R",
        "--factor R",
        "--to",
        "--force",
        "--points",
        "--point ",
        "--pairs",
        "--quadratic",
        "--quiet",
        "--no-locate",
        "--shorter",
        "--keep",
        "--json",
        "What \"same\" means",
        "Exit status",
    ] {
        assert!(help.out.contains(word), "{word}");
    }
    help.answers(0, &help.out);
    for arguments in [
        &["-h"][..],
        &["help"],
        &["check", "--help"],
        &["compare", "a", "-h"],
    ] {
        assert_eq!(folder.run(arguments), help);
    }
    let version = concat!("morgana ", env!("CARGO_PKG_VERSION"), "\n");
    folder.run(&["--version"]).answers(0, version);
}

#[test]
fn wrong_usage_is_said() {
    let folder = Folder::new("usage", &[("sample", &sample())]);
    for (arguments, word) in [
        (&[][..], "a command is missing"),
        (&["checks", "sample"], "no command \"checks\""),
        (&["check"], "check takes KEY"),
        (&["show", "sample", "sample"], "show takes KEY: 2 given"),
        (
            &["check", "--points", "3", "sample"],
            "no option \"--points\"",
        ),
        (&["evaluate", "sample", "--point"], "--point needs a value"),
        (&["cell", "sample", "0", "x"], "COLUMN"),
        (&["price", "sample"], "price needs --cell R, --call R"),
        (&["move", "sample"], "move needs --to FILE"),
        (&["move", "sample", "--to=-"], "standard output (-)"),
        (
            &["compare", "sample", "sample", "--points", "0"],
            "1 to 1000000",
        ),
    ] {
        folder.run(arguments).fails(&[word, "--help"]);
    }
}

#[test]
fn an_unreadable_file_is_named() {
    let folder = Folder::new("unreadable", &[("sample", &sample())]);
    folder.folder("folder");
    for arguments in [
        &["check", "absent"][..],
        &["compare", "sample", "sample", "--point", "absent"],
        &["compare", "--pairs", "absent"],
        &["show", "absent"],
        &["evaluate", "absent"],
        &["evaluate", "sample", "--point", "absent"],
        &["cell", "absent", "0", "0"],
        &["price", "absent", "--cell=1", "--call=1", "--factor=1"],
        &["move", "absent", "--to", "new"],
        &["compare", "absent", "sample"],
        &["compare", "sample", "absent"],
    ] {
        folder.run(arguments).fails(&["cannot read \"absent\": "]);
    }
    folder
        .run(&["check", "folder"])
        .fails(&["cannot read \"folder\": "]);
}

#[test]
fn a_wrong_point_file_is_named_with_its_line() {
    let folder = Folder::new("wrong-point", &[("sample", &sample())]);
    for (text, words) in [
        ("", "\"point\" line 1: the line of rows is missing"),
        (
            "rows 3\n\ncolumns 4x\n",
            "\"point\" line 3: \"4x\" is not a number",
        ),
        (
            "rows 4294967296\ncolumns 4\n",
            "\"point\" line 1: \"4294967296\" is not a number",
        ),
        (
            "rows 3\ncolumns 4\n0 20 28 x\n",
            "\"point\" line 3: does not begin with \"rows\"",
        ),
    ] {
        folder.write("point", text.as_bytes());
        folder
            .run(&["evaluate", "sample", "--point", "point"])
            .fails(&[words]);
    }
}

#[test]
fn a_file_may_have_any_name() {
    let folder = Folder::new("names", &[("-h", &sample()), ("--", &sample())]);
    let name = OsString::from_vec(vec![b'k', 0xff]);
    folder.write(&name, &sample());
    let wanted = folder.run(&["check", "--", "-h"]);
    assert_eq!(wanted.status, Some(0));
    assert_eq!(folder.run(&["check", "--", "--"]), wanted);
    assert_eq!(folder.run(&["check", "./-h"]), wanted);
    assert_eq!(folder.run(&["check".into(), name]), wanted);
    let absent = OsString::from_vec(vec![b'a', 0xff, b'\n']);
    folder
        .run(&["check".into(), absent])
        .fails(&[r#""a\xFF\n""#]);
}
