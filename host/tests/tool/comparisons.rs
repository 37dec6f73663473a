//! The command that compares two keys.

use crate::keys::{cell, flat, head, sample, single, single_in_two, sparse, wide, END};
use crate::support::Folder;
use std::collections::BTreeSet;

/// The verdict's two lines, the numbers of each line of the points, and the line of the factors.
fn parts(out: &str) -> ([&str; 2], Vec<(&str, Vec<u32>)>, &str) {
    let mut lines = out.lines();
    let verdict = [(); 2].map(|()| lines.next().expect("a verdict has two lines"));
    let factors = lines.next_back().expect("the factors come last");
    let point = |line| {
        let mut words = str::split_ascii_whitespace(line);
        let word = words.next().expect("a line has a word");
        let numbers = words.map(|number| number.parse().expect("a number"));
        (word, numbers.collect())
    };
    (verdict, lines.map(point).collect(), factors)
}

#[test]
fn the_verdict_comes_first_and_the_points_behind_it() {
    let folder = Folder::new("same", &[("sample", &sample()), ("flat", &flat())]);
    for (option, numbers, points, bound) in [
        (&[][..], 1, 3, "8.1e-28 (m = 2, 3 points)"),
        (&["--points", "1"], 1, 1, "9.4e-10 (m = 2, 1 point)"),
        (&["--points=4"], 1, 4, "7.6e-37 (m = 2, 4 points)"),
        (&["--points", "100"], 1, 100, "1.0e-38 (m = 2, 100 points)"),
        (&["--quadratic"], 2, 2, "1.9e-37 (q = p², m = 2, 2 points)"),
        (
            &["--quadratic", "--points=1"],
            2,
            1,
            "4.4e-19 (q = p², m = 2, 1 point)",
        ),
    ] {
        let ran = folder.run(&[&["compare", "sample", "flat"], option].concat());
        assert_eq!((ran.status, ran.errors.as_str()), (Some(0), ""));
        let (verdict, used, factors) = parts(&ran.out);
        let bound = format!("keys that differ would pass with probability at most {bound}");
        assert_eq!(verdict, ["same", &bound]);
        assert_eq!(used.len(), 2 * points);
        for (line, word) in used.iter().zip(["rows", "columns"].into_iter().cycle()) {
            assert_eq!((line.0, line.1.len()), (word, numbers));
            assert!(line.1.iter().all(|number| *number < morgana::P));
        }
        assert_eq!(factors, format!("factors {}", 5 * points));
        let quiet = [&["compare", "sample", "flat", "--quiet"], option].concat();
        folder
            .run(&quiet)
            .answers(0, &format!("same\n{bound}\n{factors}\n"));
    }
}

#[test]
fn wide_keys_take_a_point_more() {
    let folder = Folder::new("wide", &[("one", &wide(1)), ("again", &wide(1))]);
    let identical = "same\nthe files are identical, so this is certain\n";
    folder
        .run(&["compare", "one", "again"])
        .answers(0, identical);
    folder.write("two", &crate::keys::wide_in_two());
    let ran = folder.run(&["compare", "one", "two", "--quiet"]);
    ran.answers(
        0,
        "same\nkeys that differ would pass with probability at most 6.1e-31 (m = 60, 4 points)\nfactors 480\n",
    );
}

#[test]
fn identical_files_are_certain_whatever_the_points() {
    let folder = Folder::new("identical", &[("sample", &sample()), ("cut", b"\x01")]);
    for option in [
        &[][..],
        &["--points", "1000000"],
        &["--quadratic"],
        &["--quiet"],
    ] {
        folder
            .run(&[&["compare", "sample", "sample"], option].concat())
            .answers(0, "same\nthe files are identical, so this is certain\n");
    }
    let ran = folder.run(&["compare", "cut", "cut"]);
    ran.answers(
        2,
        "refused 2 at 0: record missing or cut off; a head has 3 bytes and 1 is left; old key \"cut\"\n",
    );
}

#[test]
fn a_key_of_one_cell_is_certain() {
    let folder = Folder::new("one", &[("once", &single(1)), ("twice", &single_in_two())]);
    folder.run(&["compare", "once", "twice"]).answers(
        0,
        "same\nthe matrices have one place, and it was compared, so this is certain\nrows\ncolumns\nfactors 0\n",
    );
}

#[test]
fn the_first_point_that_differs_is_shown() {
    let folder = Folder::new("different", &[("one", &single(1)), ("two", &single(2))]);
    for (option, count) in [(&[][..], 1), (&["--points", "5"], 5), (&["--quadratic"], 1)] {
        let arguments = [&["compare", "one", "two"], option].concat();
        let cell = "at row 0, column 0\nold A 1 B 2 C 3\nnew A 2 B 2 C 3\n";
        let verdict = format!("different\n{cell}at point 1 of {count}\n");
        folder
            .run(&arguments)
            .answers(1, &format!("{verdict}rows\ncolumns\nfactors 0\n"));
        let quiet = [&arguments[..], &["--quiet"]].concat();
        let ran = folder.run(&quiet);
        ran.answers(1, &format!("{verdict}factors 0\n"));
    }
}

#[test]
fn each_point_is_drawn_anew() {
    let folder = Folder::new("anew", &[("sample", &sample()), ("flat", &flat())]);
    for field in [&[][..], &["--quadratic"]] {
        let ran = folder.run(&[&["compare", "sample", "flat", "--points=7"], field].concat());
        let lines: Vec<_> = ran.out.lines().skip(2).take(14).collect();
        // No two of 14 lines, and no two of the numbers, are the same but once in millions of runs.
        assert_eq!(
            lines.iter().collect::<BTreeSet<_>>().len(),
            14,
            "{}",
            ran.out
        );
        let words = lines.iter().flat_map(|line| line.split(' ').skip(1));
        let numbers: Vec<_> = words.collect();
        assert_eq!(
            numbers.iter().collect::<BTreeSet<_>>().len(),
            numbers.len(),
            "{}",
            ran.out
        );
    }
}

#[test]
fn a_key_need_not_be_square() {
    for (rows, columns) in [(0, 2), (2, 0), (1, 2)] {
        let key =
            |cells: &[u8]| [&head(rows, columns), &sparse(rows, columns), cells, &END].concat();
        let (one, two) = (
            cell(0, 0, 3, 0, 0),
            [cell(0, 0, 1, 0, 0), cell(0, 0, 2, 0, 0)].concat(),
        );
        let folder = Folder::new(
            &format!("oblong-{rows}-{columns}"),
            &[("one", &key(&one)), ("two", &key(&two))],
        );
        let ran = folder.run(&["compare", "one", "two", "--quiet"]);
        let m = rows + columns;
        let size = format!(" (m = {m}, 3 points)\nfactors {}\n", 3 * 3 * m);
        assert!(ran.out.ends_with(&size), "{}", ran.out);
        let json = folder
            .run(&["compare", "one", "two", "--quiet", "--json"])
            .out;
        assert!(
            json.contains("\"certain\":false,\"identical\":false"),
            "{json}"
        );
        let last = (1 << columns) - 1;
        let there = if columns == 0 {
            "0 alone".to_owned()
        } else {
            format!("0 to {last}")
        };
        folder.run(&["cell", "one", "0", "9"]).answers(
            2,
            &format!("refused 24 at 1: column outside the last array; column 9 given, and columns are {there}; key \"one\"\n"),
        );
    }
}
