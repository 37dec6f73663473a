//! The commands that answer values of a key: evaluate and cell.

use crate::keys::{sample, scaled};
use crate::support::Folder;

#[test]
fn evaluate_prints_the_point_and_every_array() {
    let folder = Folder::new(
        "evaluate",
        &[("sample", &sample()), ("point", b"rows 3\ncolumns 4\n")],
    );
    let wanted =
        "rows 3\ncolumns 4\n0 20 28 0\n1 2147483567 2147483535 0\nA 2147483567 B 2147483535 C 0\n";
    folder
        .run(&["evaluate", "sample", "--point", "point"])
        .answers(0, &format!("{wanted}factors 3\n"));
    folder.write("twice", b"rows 3\ncolumns 4\n\nrows 3\ncolumns 4\n");
    folder
        .run(&["evaluate", "sample", "--point=twice"])
        .answers(0, &format!("{wanted}{wanted}factors 6\n"));
}

#[test]
fn evaluate_prints_both_parts() {
    let folder = Folder::new(
        "quadratic",
        &[
            ("sample", &sample()),
            ("point", b"rows 0 1\ncolumns 2147483646 2147483646\n"),
            ("old", b"rows 3 0\ncolumns 4 0\n"),
        ],
    );
    for (point, wanted) in [
        (
            "point",
            "rows 0 1\ncolumns 2147483646 2147483646\n\
             0 2147483642 2147483642 2147483640 2147483640 0 0\n\
             1 2147483627 0 2147483619 0 0 0\n\
             A 2147483627 0 B 2147483619 0 C 0 0\nfactors 3\n",
        ),
        (
            "old",
            "rows 3 0\ncolumns 4 0\n0 20 0 28 0 0 0\n1 2147483567 0 2147483535 0 0 0\n\
             A 2147483567 0 B 2147483535 0 C 0 0\nfactors 3\n",
        ),
    ] {
        folder
            .run(&["evaluate", "sample", "--quadratic", "--point", point])
            .answers(0, wanted);
    }
}

#[test]
fn cell_prints_the_values() {
    let folder = Folder::new("cell", &[("sample", &sample())]);
    for (row, column, status, wanted) in [
        ("0", "1", 0, "A 10 B 14 C 0\nfactors 3\n"),
        ("1", "1", 0, "A 0 B 0 C 0\nfactors 3\n"),
        (
            "2",
            "9",
            2,
            "refused 24 at 0: row outside the last array; row 2 given, and rows are 0 to 1; key \"sample\"\n",
        ),
        (
            "1",
            "4294967295",
            2,
            "refused 24 at 1: column outside the last array; column 4294967295 given, and columns are 0 to 1; key \"sample\"\n",
        ),
    ] {
        folder
            .run(&["cell", "sample", row, column])
            .answers(status, wanted);
    }
}

#[test]
fn a_factor_multiplies_what_is_called() {
    let p = morgana::P;
    let folder = Folder::new("factors", &[("point", b"rows 3\ncolumns 4\n")]);
    for (first, second, cell, array) in [
        (1, 1, "A 10 B 14 C 0\n", "1 2147483567 2147483535 0\n"),
        (p - 1, 3, "A 10 B 14 C 0\n", "1 2147483567 2147483535 0\n"),
        (p - 1, 1, "A 0 B 0 C 0\n", "1 0 0 0\n"),
        (0, 5, "A 25 B 35 C 0\n", "1 2147483447 2147483367 0\n"),
    ] {
        folder.write("key", &scaled(first, second));
        let ran = folder.run(&["cell", "key", "0", "1"]);
        ran.answers(0, &format!("{cell}factors 3\n"));
        let ran = folder.run(&["evaluate", "key", "--point=point"]);
        assert!(ran.out.contains("\n0 20 28 0\n"), "{}", ran.out);
        assert!(ran.out.contains(array), "{}", ran.out);
    }
}

#[test]
fn a_key_may_come_from_standard_input() {
    let folder = Folder::new("input", &[("sample", &sample())]);
    for arguments in [
        &["check", "-"][..],
        &["show", "-"],
        &["cell", "-", "0", "1"],
    ] {
        let named: Vec<_> = arguments
            .iter()
            .map(|word| if *word == "-" { "sample" } else { word })
            .collect();
        let ran = folder.run_on(arguments, &sample());
        assert_eq!(ran.status, Some(0));
        assert_eq!(ran, folder.run(&named));
    }
    let ran = folder.run_on(&["check", "-"], b"");
    ran.answers(
        2,
        "refused 2 at 0: record missing or cut off; the key has 0 bytes and no end; key standard input\n",
    );
    let ran = folder.run_on(&["evaluate", "sample", "--point=-"], b"rows 0\ncolumns 1\n");
    let last = "\nA 10 B 14 C 0\nfactors 3\n";
    assert!(ran.out.ends_with(last), "{}", ran.out);
}

#[test]
fn every_array_is_printed() {
    let key = [&[1, 0, 0][..], &[2, 0, 0].repeat(1024), &[6]].concat();
    let folder = Folder::new("arrays", &[("key", &key)]);
    let ran = folder.run(&["evaluate", "key"]);
    let lines: Vec<_> = ran.out.lines().skip(2).take(1024).collect();
    let wanted: Vec<_> = (0..1024).map(|array| format!("{array} 0 0 0")).collect();
    assert_eq!(lines, wanted);
    let json = folder.run(&["evaluate", "key", "--json"]);
    assert_eq!(json.out.matches("[0,0,0]").count(), 1024);
}
