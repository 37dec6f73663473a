//! The cell that compare shows of keys that are different, and the option that leaves it out.

use crate::keys::{call, cell, flat, head, other, recursive, sample, single, sparse, wide, END};
use crate::keys::{wide_in_two, FLAT_TO_OTHER};
use crate::support::Folder;
use std::time::{Duration, Instant};

/// Files with the keys: flat and other differ at row 0, column 1; wide and wider at row 5, column 7; below is flat with its
/// cell at row 6, in three row bits.
fn folder(name: &str) -> Folder {
    let below = [
        head(3, 1),
        sparse(0, 1),
        cell(0, 1, 10, 14, 0),
        recursive(3, 1),
        call(0, 0, 0),
        call(0, 6, 0),
        END.to_vec(),
    ]
    .concat();
    Folder::new(
        name,
        &[
            ("sample", &sample()),
            ("flat", &flat()),
            ("other", &other()),
            ("single", &single(1)),
            ("wide", &wide(1)),
            ("wider", &wide(4)),
            ("two", &wide_in_two()),
            ("below", &below),
        ],
    )
}

/// Pairs of keys that are different, and what is said of the cell: a line each.
const PAIRS: [(&str, &str, [&str; 3]); 6] = [
    ("flat", "other", FLAT_TO_OTHER),
    (
        "other",
        "sample",
        [
            "at row 0, column 1",
            "old A 10 B 15 C 0",
            "new A 10 B 14 C 0",
        ],
    ),
    (
        "wide",
        "wider",
        ["at row 5, column 7", "old A 1 B 2 C 3", "new A 4 B 2 C 3"],
    ),
    (
        "wider",
        "two",
        ["at row 5, column 7", "old A 4 B 2 C 3", "new A 1 B 2 C 3"],
    ),
    // Beyond the rows of the sample, which are 0 and 1.
    (
        "sample",
        "below",
        ["at row 6, column 1", "old A 0 B 0 C 0", "new A 10 B 14 C 0"],
    ),
    (
        "below",
        "sample",
        ["at row 6, column 1", "old A 10 B 14 C 0", "new A 0 B 0 C 0"],
    ),
];

/// The numbers of a cell's three lines: row, column, the old key's A, B and C, and the new key's.
fn numbers(cell: &[&str; 3]) -> Vec<u32> {
    let words = cell.iter().flat_map(|line| line.split([' ', ',']));
    words.filter_map(|word| word.parse().ok()).collect()
}

/// The members of a cell in JSON.
fn members(cell: &[&str; 3]) -> String {
    let names = [
        "row", "column", "old_a", "old_b", "old_c", "new_a", "new_b", "new_c",
    ];
    let numbers = numbers(cell);
    assert_eq!(numbers.len(), names.len());
    let member = |(name, number)| format!("\"{name}\":{number},");
    names.into_iter().zip(numbers).map(member).collect()
}

#[test]
fn the_cell_stands_behind_the_verdict() {
    let folder = folder("cell-text");
    for (old, new, cell) in PAIRS {
        for option in [
            &[][..],
            &["--quadratic"],
            &["--points=7"],
            &["--quadratic", "--points=3"],
        ] {
            let ran = folder.run(&[&["compare", old, new], option].concat());
            ran.status(1);
            let lines: Vec<_> = ran.out.lines().collect();
            let shapes = usize::from(lines[1].starts_with("old has "));
            assert_eq!(shapes == 1, [old, new].contains(&"below"), "{}", ran.out);
            assert_eq!(lines[0], "different");
            assert_eq!(lines[1 + shapes..4 + shapes], cell);
            assert!(lines[4 + shapes].starts_with("at point 1 of "));
            assert!(lines[5 + shapes].starts_with("rows "), "{}", ran.out);
            // Without the cell the answer is the same but for the point, which is another.
            let quiet = [&["compare", old, new, "--quiet"], option].concat();
            let with = folder.run(&quiet).out;
            let bare = folder.run(&[&quiet[..], &["--no-locate"]].concat());
            bare.status(1);
            assert_eq!(with.replace(&(cell.join("\n") + "\n"), ""), bare.out);
            assert_eq!(with.lines().count(), bare.out.lines().count() + 3);
        }
    }
}

#[test]
fn the_values_are_those_of_the_command_cell() {
    let folder = folder("cell-cell");
    for (old, new, cell) in &PAIRS[..4] {
        let place: Vec<_> = numbers(cell)[..2].iter().map(u32::to_string).collect();
        for (file, line) in [(old, cell[1]), (new, cell[2])] {
            let ran = folder.run(&["cell", file, &place[0], &place[1]]);
            let values = ran.out.lines().next().expect("a line");
            assert_eq!(&line[4..], values);
        }
    }
}

#[test]
fn json_has_the_cell_as_members() {
    let folder = folder("cell-json");
    for (old, new, cell) in PAIRS {
        for (option, field) in [(&[][..], "p"), (&["--quadratic"], "p^2")] {
            let run = |more: &[&str]| {
                let given = ["compare", old, new, "--json", "--quiet"];
                folder.run(&[&given[..], option, more].concat())
            };
            let start = format!(
                "{{\"command\":\"compare\",\"old\":\"{old}\",\"new\":\"{new}\",\
                 \"status\":\"different\",\"certain\":true,\"point\":1,"
            );
            let rest = format!("\"field\":\"{field}\",\"m\":");
            let (with, bare) = (run(&[]), run(&["--no-locate"]));
            let wanted = [&start, &members(&cell), &rest]
                .map(String::as_str)
                .concat();
            assert!(with.out.starts_with(&wanted), "{}", with.out);
            assert_eq!(with.out.replace(&members(&cell), ""), bare.out);
            assert!(bare.out.starts_with(&(start + &rest)), "{}", bare.out);
            assert_eq!((with.status, bare.status), (Some(1), Some(1)));
        }
    }
}

#[test]
fn keys_that_are_the_same_have_no_cell() {
    let folder = folder("cell-same");
    for (old, new) in [("sample", "flat"), ("wide", "two"), ("flat", "flat")] {
        for option in [
            &[][..],
            &["--quadratic"],
            &["--json"],
            &["--json", "--quadratic"],
        ] {
            for no in [&[][..], &["--no-locate"]] {
                let ran = folder.run(&[&["compare", old, new], option, no].concat());
                ran.status(0);
                for word in ["at row", "old A", "new A", "\"row\"", "old_a", "new_a"] {
                    assert!(!ran.out.contains(word), "{}", ran.out);
                }
            }
        }
    }
}

#[test]
fn lists_and_folders_have_it_on_the_line_of_the_pair() {
    let folder = folder("cell-many");
    folder.folder("old");
    folder.folder("new");
    let mut list = String::from("sample flat\n");
    for (number, (old, new, _)) in PAIRS.iter().enumerate() {
        list += &format!("{old} {new}\n");
        folder.write(format!("old/{number}"), &folder.read(old));
        folder.write(format!("new/{number}"), &folder.read(new));
    }
    folder.write("list", list.as_bytes());
    for option in [&[][..], &["--quadratic"]] {
        let of_list = ["compare", "--pairs", "list"];
        let of_folders = ["compare", "old", "new"];
        for (arguments, before) in [(of_list, 1), (of_folders, 0)] {
            let run = |more: &[&str]| folder.run(&[&arguments[..], option, more].concat());
            let (with, bare) = (run(&[]), run(&["--no-locate"]));
            let json = run(&["--json", "--quiet"]);
            let (with_lines, bare_lines): (Vec<_>, Vec<_>) =
                (with.out.lines().collect(), bare.out.lines().collect());
            assert_eq!(with_lines.len(), PAIRS.len() + before + 1, "{}", with.out);
            for (number, (_, _, cell)) in PAIRS.iter().enumerate() {
                let number = number + before;
                let (line, cell_said) = (with_lines[number], cell.join("; "));
                assert!(line.starts_with("different \""), "{line}");
                assert!(line.contains(&format!("; {cell_said}; at point 1 of ")));
                let without = line.replace(&format!("{cell_said}; "), "");
                assert_eq!(without, bare_lines[number]);
                let object = json.out.lines().nth(number).expect("an object");
                assert!(object.contains(&members(cell)), "{object}");
            }
            assert_eq!(with_lines.last(), bare_lines.last());
            let bare = run(&["--json", "--quiet", "--no-locate"]).out;
            assert!(!bare.contains("\"row\""), "{bare}");
        }
    }
}

#[test]
fn a_point_of_a_file_gives_its_own_cell() {
    // The new key has 2 and 1 in row 0, which weigh -1 and 2 where the column coordinate is 2, and 3 at row 1, column 0.
    let cells = [
        cell(0, 0, 2, 0, 0),
        cell(0, 1, 1, 0, 0),
        cell(1, 0, 3, 0, 0),
    ];
    let key = |cells: &[Vec<u8>]| [&head(1, 1), &sparse(1, 1), &cells.concat()[..], &END].concat();
    let folder = Folder::new(
        "cell-points",
        &[("none", &key(&[])), ("some", &key(&cells))],
    );
    for (point, row, a) in [
        ("rows 5\ncolumns 2\n", 1, 3),
        ("rows 5\ncolumns 3\n", 0, 2),
        ("rows 0\ncolumns 0\n", 0, 2),
        ("rows 1\ncolumns 0\n", 0, 2),
        ("rows 1\ncolumns 2\n", 1, 3),
    ] {
        folder.write("point", point.as_bytes());
        let cell = format!("at row {row}, column 0\nold A 0 B 0 C 0\nnew A {a} B 0 C 0\n");
        let ran = folder.run(&["compare", "none", "some", "--point=point"]);
        let wanted = format!("different\n{cell}at point 1 of 1\n{point}factors 6\n");
        ran.answers(1, &wanted);
        // What was printed gives the same cell again.
        folder.write("printed", wanted.as_bytes());
        let again = folder.run(&["compare", "none", "some", "--point=printed"]);
        again.answers(1, &wanted);
        let json = folder.run(&["compare", "none", "some", "--point=point", "--json"]);
        folder.write("printed", json.out.as_bytes());
        let again = folder.run(&["compare", "none", "some", "--point=printed"]);
        again.answers(1, &wanted);
    }
}

#[test]
fn over_both_parts_a_point_over_p_is_found() {
    // Flat and other are the same over p where the row coordinate is 1 or the column coordinate 0: so where the row
    // coordinate is 1 + i, the numbers u alone show nothing. Of the last key the numbers u + v show nothing either: its
    // values are (7 - r)·(8 - c), and t·(t - 1) on the points u + t·v.
    let cells = [
        cell(0, 0, 56, 0, 0),
        cell(0, 1, 49, 0, 0),
        cell(1, 0, 48, 0, 0),
        cell(1, 1, 42, 0, 0),
    ];
    let key = |cells: &[u8]| [&head(1, 1), &sparse(1, 1), cells, &END].concat();
    let folder = folder("cell-parts");
    folder.write("none", &key(&[]));
    folder.write("some", &key(&cells.concat()));
    let first = "at row 0, column 0\nold A 0 B 0 C 0\nnew A 56 B 0 C 0";
    let flat_to_other = FLAT_TO_OTHER.join("\n");
    for (old, new, point, cell) in [
        (
            "flat",
            "other",
            "rows 3 1\ncolumns 5 0\n",
            flat_to_other.as_str(),
        ),
        ("flat", "other", "rows 1 1\ncolumns 5 0\n", &flat_to_other),
        ("flat", "other", "rows 1 1\ncolumns 0 1\n", &flat_to_other),
        (
            "flat",
            "other",
            "rows 1 2147483646\ncolumns 0 2147483646\n",
            &flat_to_other,
        ),
        ("none", "some", "rows 7 1\ncolumns 7 1\n", first),
    ] {
        folder.write("point", point.as_bytes());
        let run = |more: &[&str]| {
            let given = ["compare", old, new, "--quadratic", "--point=point"];
            folder.run(&[&given[..], more].concat())
        };
        let factors = run(&[]).out.lines().last().map(str::to_owned);
        let factors = factors.expect("the factors come last");
        let said = format!("at point 1 of 1\n{point}{factors}\n");
        run(&[]).answers(1, &format!("different\n{cell}\n{said}"));
        run(&["--no-locate"]).answers(1, &format!("different\n{said}"));
    }
}

#[test]
fn the_cell_counts_no_factors() {
    let folder = folder("cell-factors");
    for (old, new, _) in PAIRS {
        for option in [&[][..], &["--quadratic"]] {
            let factors = |more: &[&str]| {
                let ran = folder.run(&[&["compare", old, new], option, more].concat());
                ran.out.lines().last().map(str::to_owned)
            };
            let with = factors(&[]);
            assert!(with.as_deref().is_some_and(|it| it.starts_with("factors ")));
            assert_eq!(with, factors(&["--no-locate"]));
        }
    }
}

#[test]
fn a_thousand_pairs_take_little_longer_with_their_cells() {
    let folder = folder("cell-time");
    folder.write("list", "wide wider\n".repeat(1_000).as_bytes());
    let time = |more: &[&str]| {
        let from = Instant::now();
        let ran = folder.run(&[&["compare", "--pairs=list"], more].concat());
        ran.status(1);
        let cells = ran.out.matches("at row 5, column 7; ").count();
        assert_eq!(cells, if more.is_empty() { 1_000 } else { 0 });
        from.elapsed()
    };
    let (bare, with) = (time(&["--no-locate"]), time(&[]));
    println!("{bare:?} without cells, {with:?} with them");
    assert!(with < bare + Duration::from_secs(3), "{bare:?} {with:?}");
}
