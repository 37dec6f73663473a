//! Keys of two shapes compared: the line that says so, members of JSON, and points.

use crate::keys::{call, cell, flat, head, other, recursive, sample, single, sparse, wide, END};
use crate::support::Folder;

/// A key of these bits with flat's matrices at row 0 and column 0, by a call.
fn grown(rows: u8, columns: u8) -> Vec<u8> {
    [
        head(rows, columns),
        sparse(1, 1),
        cell(0, 1, 10, 14, 0),
        recursive(rows, columns),
        call(0, 0, 0),
        END.to_vec(),
    ]
    .concat()
}

/// Files with the keys: the sample and flat have one row bit and one column bit, tall and broad more of one, both of both.
fn folder(name: &str) -> Folder {
    Folder::new(
        name,
        &[
            ("sample", &sample()),
            ("flat", &flat()),
            ("other", &other()),
            ("tall", &grown(3, 1)),
            ("broad", &grown(1, 2)),
            ("both", &grown(3, 2)),
            ("single", &single(1)),
            ("wide", &wide(1)),
        ],
    )
}

/// Pairs of keys that are the same, and what is said of their shapes.
const PAIRS: [(&str, &str, u32, &str); 8] = [
    ("flat", "tall", 4, "old has 1 row bit, new 3"),
    ("tall", "sample", 4, "old has 3 row bits, new 1"),
    ("flat", "broad", 3, "old has 1 column bit, new 2"),
    ("broad", "sample", 3, "old has 2 column bits, new 1"),
    (
        "sample",
        "both",
        5,
        "old has 1 row bit and 1 column bit, new 3 and 2",
    ),
    (
        "both",
        "flat",
        5,
        "old has 3 row bits and 2 column bits, new 1 and 1",
    ),
    (
        "tall",
        "broad",
        5,
        "old has 3 row bits and 1 column bit, new 1 and 2",
    ),
    ("tall", "both", 5, "old has 1 column bit, new 2"),
];

#[test]
fn the_line_comes_behind_the_verdict_and_names_what_differs() {
    let folder = folder("line");
    for (old, new, m, bits) in PAIRS {
        let line = format!("{bits}: compared as filled with zeros");
        for (option, field) in [(&[][..], ""), (&["--quadratic"], "q = p², ")] {
            let run = |rest: &[&str]| folder.run(&[&["compare", old, new], option, rest].concat());
            let quiet = run(&["--quiet"]);
            quiet.status(0);
            let lines: Vec<_> = quiet.out.lines().collect();
            assert_eq!(lines[..2], ["same", &line]);
            let size = format!("({field}m = {m}, ");
            assert!(
                lines[2].starts_with("keys that differ would pass"),
                "{}",
                lines[2]
            );
            assert!(lines[2].contains(&size), "{}", lines[2]);
            assert!(lines[3].starts_with("factors "), "{}", lines[3]);
            assert_eq!(lines.len(), 4);
            let full = run(&[]);
            let shown: Vec<_> = full.out.lines().collect();
            assert_eq!(shown[..3], lines[..3]);
            assert!(shown[3].starts_with("rows "), "{}", full.out);
            assert_eq!(full.out.matches("filled").count(), 1);
        }
    }
}

#[test]
fn points_have_the_larger_bits() {
    let folder = folder("larger");
    for (old, new, rows, columns) in [
        ("flat", "tall", 3, 1),
        ("broad", "tall", 3, 2),
        ("single", "both", 3, 2),
        ("wide", "single", 30, 30),
    ] {
        for (option, numbers) in [(&[][..], 1), (&["--quadratic"], 2)] {
            let ran = folder.run(&[&["compare", old, new], option].concat());
            for (word, bits) in [("rows ", rows), ("columns ", columns)] {
                let lines = ran.out.lines().filter(|line| line.starts_with(word));
                let counts: Vec<_> = lines.map(|line| line.split(' ').count() - 1).collect();
                assert!(!counts.is_empty(), "{}", ran.out);
                assert!(
                    counts.iter().all(|count| *count == numbers * bits),
                    "{}",
                    ran.out
                );
            }
        }
    }
}

#[test]
fn the_bound_goes_by_the_larger_bits() {
    let folder = folder("larger-bound");
    // A key of one zero, and one of no cells in 60 bits.
    folder.write("zero", &[head(0, 0), sparse(0, 0), END.to_vec()].concat());
    folder.write(
        "empty",
        &[head(30, 30), sparse(30, 30), END.to_vec()].concat(),
    );
    for (old, new, bits) in [
        (
            "zero",
            "empty",
            "old has 0 row bits and 0 column bits, new 30 and 30",
        ),
        (
            "empty",
            "zero",
            "old has 30 row bits and 30 column bits, new 0 and 0",
        ),
    ] {
        let line = format!("{bits}: compared as filled with zeros");
        let bound =
            "keys that differ would pass with probability at most 6.1e-31 (m = 60, 4 points)";
        folder
            .run(&["compare", old, new, "--quiet"])
            .answers(0, &format!("same\n{line}\n{bound}\nfactors 240\n"));
    }
}

#[test]
fn keys_that_are_different_have_the_line_too() {
    let folder = folder("line-different");
    for (old, new, bits, cell) in [
        (
            "other",
            "tall",
            "old has 1 row bit, new 3",
            "at row 0, column 1\nold A 10 B 15 C 0\nnew A 10 B 14 C 0",
        ),
        (
            "broad",
            "other",
            "old has 2 column bits, new 1",
            "at row 0, column 1\nold A 10 B 14 C 0\nnew A 10 B 15 C 0",
        ),
        (
            "single",
            "wide",
            "old has 0 row bits and 0 column bits, new 30 and 30",
            "at row 0, column 0\nold A 1 B 2 C 3\nnew A 0 B 0 C 0",
        ),
    ] {
        for option in [&[][..], &["--quadratic"], &["--points=9"]] {
            let ran = folder.run(&[&["compare", old, new, "--quiet"], option].concat());
            ran.status(1);
            let zeros = format!("{bits}: compared as filled with zeros");
            let start = format!("different\n{zeros}\n{cell}\nat point 1 of ");
            assert!(ran.out.starts_with(&start), "{}", ran.out);
        }
    }
}

#[test]
fn keys_of_one_shape_have_no_such_line() {
    let folder = folder("one-shape");
    for (old, new) in [("sample", "flat"), ("flat", "other"), ("tall", "tall")] {
        for option in [&[][..], &["--quadratic"], &["--json"], &["--quiet"]] {
            let ran = folder.run(&[&["compare", old, new], option].concat());
            assert!(!ran.out.contains("filled"), "{}", ran.out);
            assert!(!ran.out.contains("bits"), "{}", ran.out);
        }
    }
}

#[test]
fn lists_and_folders_say_it_on_the_line_of_the_pair() {
    let folder = folder("pairs-of-shapes");
    folder.folder("old");
    folder.folder("new");
    let zeros = "compared as filled with zeros";
    let mut list = String::new();
    let mut wanted = [String::new(), String::new()];
    for (number, (old, new, word, bits)) in [
        ("flat", "tall", "same", "old has 1 row bit, new 3"),
        ("broad", "flat", "same", "old has 2 column bits, new 1"),
        ("other", "tall", "different", "old has 1 row bit, new 3"),
    ]
    .into_iter()
    .enumerate()
    {
        list += &format!("{old} {new}\n");
        folder.write(format!("old/{number}"), &folder.read(old));
        folder.write(format!("new/{number}"), &folder.read(new));
        let rest = match word {
            "same" if bits.contains("row") => "bound 6.5e-27 (m = 4, 3 points)",
            "same" => "bound 2.8e-27 (m = 3, 3 points)",
            _ => "at row 0, column 1; old A 10 B 15 C 0; new A 10 B 14 C 0; at point 1 of 3",
        };
        let names = [
            format!("{old:?} {new:?}"),
            format!("\"old/{number}\" \"new/{number}\""),
        ];
        for (wanted, names) in wanted.iter_mut().zip(names) {
            *wanted += &format!("{word} {names}; {bits}: {zeros}; {rest}\n");
        }
    }
    // Of flat and tall 2 and 4, and 2 unused; of broad 3, of flat 2 and 1 unused; of the last as of the first, once.
    let total = 3 * 8 + 3 * 6 + 8;
    folder.write("list", list.as_bytes());
    for option in [&[][..], &["--quiet"]] {
        folder
            .run(&[&["compare", "--pairs=list"], option].concat())
            .answers(1, &format!("{}factors {total}\n", wanted[0]));
        folder
            .run(&[&["compare", "old", "new"], option].concat())
            .answers(1, &format!("{}factors {total}\n", wanted[1]));
    }
}

#[test]
fn json_has_the_bits_of_both_keys() {
    let folder = folder("json-shapes");
    folder.write("point", b"rows 3 4 5\ncolumns 6\n");
    let start = |new: &str, word: &str| {
        format!(
            "{{\"command\":\"compare\",\"old\":\"flat\",\"new\":\"{new}\",\"status\":\"{word}\","
        )
    };
    let members = |m: u32, rows: u32, columns: u32| {
        format!(
            "\"field\":\"p\",\"m\":{m},\"old_row_bits\":1,\"old_column_bits\":1,\
             \"new_row_bits\":{rows},\"new_column_bits\":{columns},"
        )
    };
    for (new, options, status, wanted) in [
        (
            "tall",
            &["--point=point"][..],
            0,
            start("tall", "same")
                + "\"certain\":false,\"identical\":false,"
                + &members(4, 3, 1)
                + "\"count\":1,\"points_from\":\"point\",\"factors\":8,\
                   \"points\":[{\"rows\":[3,4,5],\"columns\":[6]}]}\n",
        ),
        (
            "broad",
            &["--quiet"],
            0,
            start("broad", "same")
                + "\"certain\":false,\"identical\":false,"
                + &members(3, 1, 2)
                + "\"count\":3,\"bound\":2.8e-27,\"factors\":18}\n",
        ),
        (
            "single",
            &["--quiet", "--points=5"],
            1,
            start("single", "different")
                + "\"certain\":true,\"point\":1,\"row\":0,\"column\":0,\
                   \"old_a\":0,\"old_b\":0,\"old_c\":0,\"new_a\":1,\"new_b\":2,\"new_c\":3,"
                + &members(2, 0, 0)
                + "\"count\":5,\"factors\":4}\n",
        ),
    ] {
        let arguments = [&["compare", "flat", new, "--json"], options].concat();
        folder.run(&arguments).answers(status, &wanted);
    }
}

#[test]
fn what_is_printed_can_be_used_again() {
    let folder = folder("shapes-again");
    for (old, new, _, bits) in PAIRS {
        let line = format!("{bits}: compared as filled with zeros\n");
        for field in [&[][..], &["--quadratic"]] {
            let run =
                |options: &[&str]| folder.run(&[&["compare", old, new], field, options].concat());
            let text = run(&["--points=5"]).out;
            let json = run(&["--points=2", "--json"]).out;
            let quiet = run(&["--points=2", "--json", "--quiet"]).out;
            folder.write("out", [text, json, quiet].concat().as_bytes());
            let again = run(&["--point=out", "--quiet"]);
            again.status(0);
            let start = format!("same\n{line}at the 7 points of \"out\"; no bound");
            assert!(
                again.out.starts_with(&start),
                "{}{}",
                again.out,
                again.errors
            );
        }
    }
    folder.write("list", b"flat tall\nother broad\n");
    let several = folder.run(&["compare", "--pairs=list"]).out;
    folder.write("out", (several + "rows 1\ncolumns 2\n").as_bytes());
    let ran = folder.run(&["evaluate", "flat", "--point=out"]);
    assert!(ran.out.starts_with("rows 1\ncolumns 2\n"), "{}", ran.errors);
}

#[test]
fn a_point_that_shows_a_difference_shows_it_again() {
    let folder = folder("shapes-differ-again");
    for field in [&[][..], &["--quadratic"]] {
        let run = |options: &[&str]| {
            folder.run(&[&["compare", "other", "both"], field, options].concat())
        };
        for json in [&[][..], &["--json"]] {
            folder.write("out", run(json).out.as_bytes());
            let again = run(&["--point=out"]);
            again.status(1);
            let line =
                "old has 1 row bit and 1 column bit, new 3 and 2: compared as filled with zeros";
            let cell = "at row 0, column 1\nold A 10 B 15 C 0\nnew A 10 B 14 C 0";
            let start = format!("different\n{line}\n{cell}\nat point 1 of 1\nrows ");
            assert!(again.out.starts_with(&start), "{}", again.out);
        }
    }
}

#[test]
fn a_refused_count_says_which_key_it_comes_from() {
    let folder = folder("refused-counts");
    let row = "row count not n (N for two keys, twice that over p²)";
    let column = "column count not n' (N' for two keys, twice that over p²)";
    for (old, new, option, point, wanted) in [
        (
            "flat",
            "tall",
            &[][..],
            "rows 1\ncolumns 1\n",
            format!("21 at 1: {row}; 1 given, 3 wanted: old has 1 row bit, new 3"),
        ),
        (
            "tall",
            "broad",
            &[],
            "rows 1\ncolumns 1 2\n",
            format!("21 at 1: {row}; 1 given, 3 wanted: old has 3 row bits, new 1"),
        ),
        (
            "tall",
            "broad",
            &[],
            "rows 1 2 3\ncolumns 1\n",
            format!("22 at 1: {column}; 1 given, 2 wanted: old has 1 column bit, new 2"),
        ),
        (
            "flat",
            "tall",
            &[],
            "rows 1 2 3\ncolumns 1 2\n",
            format!("22 at 2: {column}; 2 given, 1 wanted (2 with --quadratic)"),
        ),
        (
            "flat",
            "broad",
            &["--quadratic"],
            "rows 1 2\ncolumns 1 2\n",
            format!("22 at 2: {column}; 2 given, 4 wanted (2 without --quadratic): old has 1 column bit, new 2"),
        ),
        (
            "both",
            "single",
            &["--quadratic"],
            "rows 1 2 3\ncolumns\n",
            format!("21 at 3: {row}; 3 given, 6 wanted (3 without --quadratic): old has 3 row bits, new 0"),
        ),
        (
            "single",
            "both",
            &[],
            "rows 1 2 2147483647\ncolumns 1 2\n",
            "23 at 2: coordinate p or more; row coordinate 2 is 2147483647, at most 2147483646".to_owned(),
        ),
    ] {
        folder.write("point", point.as_bytes());
        let ran = folder.run(&[&["compare", old, new, "--point=point"], option].concat());
        let keys = format!("point 1 of \"point\"; keys {old:?} {new:?}");
        ran.answers(2, &format!("refused {wanted}; {keys}\n"));
        let json = folder.run(&[&["compare", old, new, "--point=point", "--json"], option].concat());
        let (_, detail) = wanted.split_once("; ").expect("there is a detail");
        assert!(json.out.contains(&format!("\"detail\":\"{detail}\"")), "{}", json.out);
    }
}
