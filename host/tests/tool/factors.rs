//! The count of factors: the last line of evaluate, cell and compare, and a member of their JSON.

use crate::keys::{flat, other, sample, scaled, single, single_in_two, wide, wide_in_two};
use crate::support::{Folder, Ran};

/// What stands on the last line behind the word, if it is the line of the factors. Wants no other line to be one.
fn factors(ran: &Ran) -> Option<&str> {
    let lines = ran.out.lines();
    let found: Vec<_> = lines
        .filter_map(|line| line.strip_prefix("factors "))
        .collect();
    let last = ran.out.lines().next_back()?.strip_prefix("factors ");
    assert_eq!(found, last.into_iter().collect::<Vec<_>>(), "{}", ran.out);
    last
}

/// The counts of a run's objects, in order; those without a count have none.
fn counts(ran: &Ran) -> Vec<Option<&str>> {
    let lines = ran.out.lines();
    let counts = lines.map(|line| {
        let (_, behind) = line.split_once("\"factors\":")?;
        behind.split([',', '}']).next()
    });
    counts.collect()
}

/// Files with the keys: the sample counts 3, flat and other 2, wide 60 and wide in two 6 + 54, the single ones nothing.
fn folder(name: &str) -> Folder {
    Folder::new(
        name,
        &[
            ("sample", &sample()),
            ("scaled", &scaled(3, morgana::P - 1)),
            ("flat", &flat()),
            ("other", &other()),
            ("wide", &wide(1)),
            ("wide-in-two", &wide_in_two()),
            ("single", &single(1)),
            ("single-in-two", &single_in_two()),
            ("bad", b"\xff"),
        ],
    )
}

#[test]
fn evaluate_and_cell_count_the_key() {
    let folder = folder("counted");
    for (key, wanted) in [
        ("sample", "3"),
        ("scaled", "3"),
        ("flat", "2"),
        ("wide", "60"),
        ("wide-in-two", "60"),
        ("single", "0"),
        ("single-in-two", "0"),
    ] {
        for arguments in [
            &["evaluate", key][..],
            &["evaluate", key, "--quadratic"],
            &["cell", key, "0", "0"],
        ] {
            let ran = folder.run(arguments);
            ran.status(0);
            assert_eq!(factors(&ran), Some(wanted), "{arguments:?}");
            let json = folder.run(&[arguments, &["--json"]].concat());
            assert_eq!(counts(&json), [Some(wanted)], "{arguments:?}");
        }
    }
}

#[test]
fn several_points_are_added_up() {
    let folder = folder("added-up");
    let point = "rows 1\ncolumns 5\n";
    for points in [1, 2, 7] {
        folder.write("points", point.repeat(points).as_bytes());
        let run = |arguments: &[&str]| folder.run(&[arguments, &["--point=points"]].concat());
        for (arguments, each) in [
            (&["evaluate", "sample"][..], 3),
            (&["compare", "sample", "flat"], 5),
            (&["compare", "flat", "sample", "--quiet"], 5),
            (&["compare", "scaled", "sample"], 6),
        ] {
            let total = (points * each).to_string();
            assert_eq!(factors(&run(arguments)), Some(total.as_str()));
        }
        let json = run(&["evaluate", "sample", "--json"]);
        assert_eq!(counts(&json), vec![Some("3"); points]);
        let json = run(&["compare", "sample", "flat", "--json"]);
        assert_eq!(counts(&json), [Some((5 * points).to_string().as_str())]);
    }
}

#[test]
fn only_points_that_were_tried_count() {
    let folder = folder("tried");
    // The keys are the same where the row coordinate is 1.
    folder.write(
        "points",
        b"rows 1\ncolumns 5\nrows 3\ncolumns 4\nrows 7\ncolumns 7\n",
    );
    let run = |options: &[&str]| {
        let keys = ["compare", "flat", "other", "--point=points"];
        folder.run(&[&keys[..], options].concat())
    };
    assert_eq!(factors(&run(&[])), Some("8"));
    assert_eq!(factors(&run(&["--quiet"])), Some("8"));
    assert_eq!(counts(&run(&["--json"])), [Some("8")]);
    let no_bits = [
        "compare",
        "single",
        "single-in-two",
        "--points=1000",
        "--quiet",
    ];
    assert_eq!(factors(&folder.run(&no_bits)), Some("0"));
    let many = ["compare", "wide", "wide-in-two", "--points=1000", "--quiet"];
    assert_eq!(factors(&folder.run(&many)), Some("120000"));
}

#[test]
fn unused_coordinates_count() {
    let folder = folder("unused");
    folder.write("points", b"rows 1\ncolumns 5\nrows 1\ncolumns 6\n");
    for (old, new, each) in [("single", "flat", 2 + 2), ("other", "single", 2 + 2)] {
        // At row coordinate 1 flat and other are zero, and so is the weight of the one that single does not use.
        let run = |options: &[&str]| {
            let keys = ["compare", old, new, "--point=points"];
            folder.run(&[&keys[..], options].concat())
        };
        let total = (2 * each).to_string();
        assert_eq!(factors(&run(&[])), Some(total.as_str()));
        assert_eq!(factors(&run(&["--quiet"])), Some(total.as_str()));
        assert_eq!(counts(&run(&["--json"])), [Some(total.as_str())]);
    }
    let ran = folder.run(&["compare", "single", "wide", "--points=7", "--quiet"]);
    // They are different at the first point, where single does not use 60 coordinates.
    assert_eq!((ran.status, factors(&ran)), (Some(1), Some("120")));
}

#[test]
fn all_pairs_are_added_up() {
    let folder = folder("all-pairs");
    folder.write(
        "list",
        b"sample flat\nflat flat\nflat bad\nsample absent\nflat other\nwide wide-in-two\n",
    );
    let total = 3 * 5 + 2 * 2 + 4 * 120;
    let ran = folder.run(&["compare", "--pairs=list"]);
    ran.status(3);
    assert_eq!(factors(&ran), Some(total.to_string().as_str()));
    assert_eq!(ran.out.lines().count(), 7, "{}", ran.out);
    let json = folder.run(&["compare", "--pairs=list", "--json"]);
    let wanted = [Some("15"), None, None, None, Some("4"), Some("480")];
    assert_eq!(counts(&json), wanted);
}

#[test]
fn nothing_is_counted_where_nothing_is_evaluated() {
    let folder = folder("uncounted");
    folder.write("short", b"rows\ncolumns 1\n");
    folder.write("list", b"flat flat\nbad flat\nflat absent\n");
    for (arguments, status) in [
        (&["check", "sample"][..], 0),
        (&["check", "sample", "flat"], 0),
        (&["show", "sample"], 0),
        (&["move", "sample", "--to", "copy", "--force"], 0),
        (&["evaluate", "bad"], 2),
        (&["evaluate", "sample", "--point=short"], 2),
        (&["cell", "bad", "0", "0"], 2),
        (&["cell", "sample", "2", "0"], 2),
        (&["compare", "sample", "sample"], 0),
        (&["compare", "sample", "sample", "--quiet"], 0),
        (&["compare", "sample", "bad"], 2),
        (&["compare", "sample", "single", "--point=short"], 2),
        (&["compare", "sample", "flat", "--point=short"], 2),
        (&["compare", "--pairs=list"], 3),
    ] {
        let ran = folder.run(arguments);
        ran.status(status);
        assert_eq!(factors(&ran), None, "{arguments:?}");
        let json = folder.run(&[arguments, &["--json"]].concat());
        assert!(counts(&json).iter().all(Option::is_none), "{}", json.out);
    }
}

#[test]
fn a_moved_key_counts_the_same() {
    let folder = folder("moved-count");
    folder
        .run(&["move", "wide-in-two", "--to", "moved"])
        .status(0);
    assert_eq!(factors(&folder.run(&["evaluate", "moved"])), Some("60"));
    let ran = folder.run(&["compare", "wide-in-two", "moved", "--points=1"]);
    assert_eq!(factors(&ran), Some("120"));
}

#[test]
fn output_with_and_without_factors_is_read() {
    let folder = folder("read-again");
    let run = |arguments: &[&str]| folder.run(arguments).out;
    let outputs = [
        run(&["evaluate", "flat", "--random"]),
        run(&["compare", "sample", "flat", "--points=2"]),
        run(&["evaluate", "flat", "--json"]),
        run(&["compare", "sample", "flat", "--points=3", "--json"]),
    ];
    let with = outputs.concat();
    let kept = |line: &&str| !line.starts_with("factors ");
    let lines: Vec<_> = with.lines().filter(kept).collect();
    let without = lines.join("\n").replace(",\"factors\":2", "");
    let without = without.replace(",\"factors\":15", "");
    assert!(!without.contains("factors"), "{without}");
    for text in [with, without] {
        folder.write("out", text.as_bytes());
        let ran = folder.run(&["compare", "flat", "sample", "--point=out", "--quiet"]);
        assert!(
            ran.out.starts_with("same\nat the 7 points of \"out\""),
            "{}",
            ran.out
        );
        assert_eq!(factors(&ran), Some("35"));
    }
}
