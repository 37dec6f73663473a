//! The shorter of two keys that are the same, which compare names.

use crate::keys::{call, cell, flat, head, other, recursive, sample, scaled, single, sparse};
use crate::keys::{single_in_two, wide, wide_in_two, END};
use crate::support::Folder;
use std::fs;

/// Files with the keys: flat and sample are the same, in 28 and 53 bytes, and so is scaled, in 61 of edition 2, and tall, in
/// 28 of three row bits; copy is flat again. Other is different.
pub fn folder(name: &str) -> Folder {
    let tall = [
        head(3, 1),
        sparse(3, 1),
        cell(0, 1, 10, 14, 0),
        END.to_vec(),
    ];
    Folder::new(
        name,
        &[
            ("sample", &sample()),
            ("flat", &flat()),
            ("copy", &flat()),
            ("scaled", &scaled(1, 1)),
            ("tall", &tall.concat()),
            ("other", &other()),
            ("wide", &wide(1)),
            ("two", &wide_in_two()),
            ("once", &single(1)),
            ("sum", &single_in_two()),
            ("bad", b"\xff"),
        ],
    )
}

/// The names of these files.
pub const NAMES: [&str; 11] = [
    "bad", "copy", "flat", "once", "other", "sample", "scaled", "sum", "tall", "two", "wide",
];

/// Pairs of keys that are the same, and what is said of their lengths.
pub const PAIRS: [(&str, &str, &str); 12] = [
    (
        "sample",
        "flat",
        "new is shorter, 28 bytes for 53: \"flat\"",
    ),
    (
        "flat",
        "sample",
        "old is shorter, 28 bytes for 53: \"flat\"",
    ),
    (
        "scaled",
        "sample",
        "new is shorter, 53 bytes for 61: \"sample\"",
    ),
    (
        "sample",
        "scaled",
        "old is shorter, 53 bytes for 61: \"sample\"",
    ),
    ("flat", "copy", "both have 28 bytes: \"flat\""),
    ("copy", "flat", "both have 28 bytes: \"copy\""),
    ("flat", "tall", "both have 28 bytes: \"flat\""),
    ("tall", "flat", "both have 28 bytes: \"tall\""),
    (
        "scaled",
        "tall",
        "new is shorter, 28 bytes for 61: \"tall\"",
    ),
    ("wide", "two", "old is shorter, 28 bytes for 42: \"wide\""),
    ("sum", "once", "new is shorter, 28 bytes for 49: \"once\""),
    ("sample", "sample", "both have 53 bytes: \"sample\""),
];

/// The file that such a line names.
pub fn named(line: &str) -> &str {
    line.split('"').nth(1).expect("a name")
}

/// The members of JSON that say the same as such a line of two files.
fn members(folder: &Folder, old: &str, new: &str, line: &str) -> String {
    let which = if line.starts_with("new") {
        "new"
    } else {
        "old"
    };
    let [old, new] = [old, new].map(|name| folder.read(name).len());
    format!("\"shorter\":\"{which}\",\"old_bytes\":{old},\"new_bytes\":{new}")
}

#[test]
fn the_line_stands_behind_the_verdict_and_the_shapes() {
    let folder = folder("shorter-line");
    for (old, new, line) in PAIRS {
        for option in [&[][..], &["--quadratic"], &["--points=7"], &["--points=1"]] {
            let run = |rest: &[&str]| {
                let ran = folder.run(&[&["compare", old, new], option, rest].concat());
                ran.status(0);
                ran.out
            };
            let with = run(&["--shorter"]);
            let lines: Vec<_> = with.lines().collect();
            let shapes = usize::from(lines[1].starts_with("old has "));
            assert_eq!(shapes == 1, (old == "tall") != (new == "tall"), "{with}");
            assert_eq!((lines[0], lines[1 + shapes]), ("same", line));
            assert_eq!(with.matches(" bytes").count(), 1, "{with}");
            // Without it the answer is the same but for the points, which are others.
            let (quiet, bare) = (run(&["--quiet", "--shorter"]), run(&["--quiet"]));
            assert_eq!(quiet.replace(&format!("{line}\n"), ""), bare);
            assert_eq!(quiet.lines().count(), bare.lines().count() + 1);
            assert_eq!(with.lines().next_back(), run(&[]).lines().next_back());
        }
    }
    assert_eq!(folder.names(), NAMES);
}

#[test]
fn a_whole_answer() {
    let folder = folder("shorter-whole");
    folder.write("point", b"rows 3\ncolumns 4\n");
    let compare = ["compare", "sample", "flat", "--point", "point", "--shorter"];
    folder.run(&compare).answers(
        0,
        "same\nnew is shorter, 28 bytes for 53: \"flat\"\n\
         at the 1 point of \"point\"; no bound is given, since they were not drawn here\n\
         rows 3\ncolumns 4\nfactors 5\n",
    );
    folder
        .run(&["compare", "sample", "tall", "--quiet", "--keep=small"])
        .answers(
            0,
            "same\nold has 1 row bit, new 3: compared as filled with zeros\n\
             new is shorter, 28 bytes for 53: \"tall\", kept as \"small\"\n\
             keys that differ would pass with probability at most 6.5e-27 (m = 4, 3 points)\n\
             factors 27\n",
        );
    folder
        .run(&["compare", "flat", "copy", "--shorter"])
        .answers(
            0,
            "same\nboth have 28 bytes: \"flat\"\nthe files are identical, so this is certain\n",
        );
    folder
        .run(&["compare", "sum", "once", "--shorter"])
        .answers(
            0,
            "same\nnew is shorter, 28 bytes for 49: \"once\"\n\
         the matrices have one place, and it was compared, so this is certain\n\
         rows\ncolumns\nfactors 0\n",
        );
}

#[test]
fn nothing_is_named_of_keys_that_are_different_or_refused() {
    let folder = folder("shorter-different");
    folder.write("kept", b"kept");
    folder.write("point", b"rows 3\ncolumns 4 5\n");
    let names = folder.names();
    for (arguments, status) in [
        (&["flat", "other"][..], 1),
        (&["other", "sample"], 1),
        (&["sample", "once"], 1),
        (&["wide", "once"], 1),
        (&["bad", "flat"], 2),
        (&["flat", "bad"], 2),
        (&["bad", "bad"], 2),
        (&["sample", "flat", "--point=point"], 2),
    ] {
        for option in [&[][..], &["--quadratic"], &["--json"]] {
            let run = |rest: &[&str]| {
                let quiet = ["compare", "--quiet"];
                folder.run(&[&quiet[..], arguments, option, rest].concat())
            };
            let bare = run(&[]);
            bare.status(status);
            for rest in [
                &["--shorter"][..],
                &["--keep=new"],
                &["--keep=kept", "--force"],
                &["--keep=flat", "--force", "--shorter"],
            ] {
                assert_eq!(run(rest), bare, "{arguments:?} {rest:?}");
            }
        }
    }
    assert_eq!(folder.names(), names);
    assert_eq!(folder.read("kept"), b"kept");
    assert_eq!(folder.read("flat"), flat());
}

#[test]
fn json_has_the_shorter_key_as_members() {
    let folder = folder("shorter-json");
    for (old, new, line) in PAIRS {
        for option in [&[][..], &["--quadratic"]] {
            let run = |rest: &[&str]| {
                let given = ["compare", old, new, "--json", "--quiet"];
                let ran = folder.run(&[&given[..], option, rest].concat());
                ran.status(0);
                ran.out
            };
            let bare = run(&[]);
            let members = members(&folder, old, new, line);
            let (start, identical) = bare.split_once("\"identical\":").expect("a member");
            let end = identical.find([',', '}']).expect("it goes on");
            let (identical, rest) = identical.split_at(end);
            let wanted =
                |more: &str| format!("{start}\"identical\":{identical},{members}{more}{rest}");
            assert_eq!(run(&["--shorter"]), wanted(""));
            let kept = ",\"kept\":\"small\"";
            assert_eq!(run(&["--keep=small"]), wanted(kept));
            assert_eq!(run(&["--keep=small", "--shorter", "--force"]), wanted(kept));
            fs::remove_file(folder.path("small")).expect("it is kept");
        }
    }
    let start = "{\"command\":\"compare\",\"old\":\"flat\",\"new\":\"copy\",\"status\":\"same\",";
    let members = "\"shorter\":\"old\",\"old_bytes\":28,\"new_bytes\":28,\"kept\":\"a\\\"b\"";
    folder
        .run(&["compare", "flat", "copy", "--json", "--keep=a\"b"])
        .answers(
            0,
            &format!("{start}\"certain\":true,\"identical\":true,{members}}}\n"),
        );
    assert_eq!(folder.read("a\"b"), flat());
}

#[test]
fn lists_and_folders_have_it_on_the_line_of_the_pair() {
    let folder = folder("shorter-many");
    folder.folder("one");
    folder.folder("new");
    let mut list = String::from("flat other\nbad flat\n");
    for (number, (old, new, _)) in (10..).zip(&PAIRS) {
        list += &format!("{old} {new}\n");
        folder.write(format!("one/{number}"), &folder.read(old));
        folder.write(format!("new/{number}"), &folder.read(new));
    }
    folder.write("list", list.as_bytes());
    let names = folder.names();
    let of_list = ["compare", "--pairs", "list"];
    let of_folders = ["compare", "one", "new"];
    for option in [&[][..], &["--quadratic"], &["--points=2"]] {
        for (arguments, before, status) in [(of_list, 2, 2), (of_folders, 0, 0)] {
            let run = |more: &[&str]| {
                let ran = folder.run(&[&arguments[..], option, more].concat());
                ran.status(status);
                ran.out
            };
            let (with, bare) = (run(&["--shorter"]), run(&[]));
            let (with, bare): (Vec<_>, Vec<_>) = (with.lines().collect(), bare.lines().collect());
            assert_eq!((with.len(), &with[..before]), (bare.len(), &bare[..before]));
            let json = run(&["--shorter", "--json", "--quiet"]);
            for (number, (old, new, line)) in PAIRS.iter().enumerate() {
                let name = match before {
                    0 if line.starts_with("new") => format!("new/{}", 10 + number),
                    0 => format!("one/{}", 10 + number),
                    _ => named(line).to_owned(),
                };
                let said = line.replace(&format!("{:?}", named(line)), &format!("{name:?}"));
                let (with, bare) = (with[before + number], bare[before + number]);
                assert_eq!(with.replace(&format!("; {said}"), ""), bare);
                assert_ne!(with, bare);
                let reason = with.rsplit("; ").next().expect("a part");
                let first = ["bound ", "certain, "]
                    .iter()
                    .any(|it| reason.starts_with(it));
                assert!(first, "{with}");
                let object = json.lines().nth(before + number).expect("an object");
                let members = members(&folder, old, new, line);
                assert!(object.contains(&format!(",{members}")), "{object}");
            }
            assert_eq!(with.last(), bare.last());
        }
    }
    assert_eq!(folder.names(), names);
}

#[test]
fn a_shape_stands_before_it_on_the_line_of_a_pair() {
    let folder = folder("shorter-pair");
    folder.write("list", b"sample tall\n");
    folder.write("point", b"rows 3 5 6\ncolumns 4\n");
    let compare = ["compare", "--pairs=list", "--point=point", "--shorter"];
    folder.run(&compare).answers(
        0,
        "same \"sample\" \"tall\"; old has 1 row bit, new 3: compared as filled with zeros; \
         new is shorter, 28 bytes for 53: \"tall\"; no bound, 1 point of \"point\"\nfactors 9\n",
    );
}

#[test]
fn wrong_usage_is_said_and_writes_nothing() {
    let folder = folder("shorter-usage");
    folder.folder("one");
    folder.folder("new");
    for name in ["one/k", "new/k"] {
        folder.write(name, &flat());
    }
    folder.write("list", b"flat copy\n");
    let names = folder.names();
    for (arguments, words) in [
        (
            &["flat", "copy", "--force"][..],
            "--force needs --keep FILE",
        ),
        (&["--pairs=list", "--force"], "--force needs --keep FILE"),
        (
            &["--pairs=list", "--keep=f"],
            "--pairs and --keep exclude each other",
        ),
        (
            &["one", "new", "--keep=f"],
            "--keep takes one pair of files, and OLD and NEW are folders",
        ),
        (
            &["one", "new", "--keep=list", "--force"],
            "--keep takes one pair of files, and OLD and NEW are folders",
        ),
        (
            &["flat", "copy", "--keep", "-"],
            "--keep takes a file, and standard output (-) has the answer",
        ),
        (
            &["flat", "copy", "--keep", "--shorter"],
            "--keep needs a value; a file of that name is --keep=--shorter",
        ),
        (&["flat", "copy", "--keep"], "--keep needs a value"),
    ] {
        for json in [&[][..], &["--json"]] {
            let compare = [&["compare"], json, arguments].concat();
            folder.run(&compare).fails(&[words, "--help"]);
        }
    }
    assert_eq!(folder.names(), names);
    assert_eq!(folder.read("list"), b"flat copy\n");
}

#[test]
fn what_is_printed_can_be_given_to_point() {
    let folder = folder("shorter-again");
    let calling = [
        head(1, 1),
        sparse(1, 1),
        cell(0, 1, 10, 14, 0),
        recursive(1, 1),
        call(0, 0, 0),
        END.to_vec(),
    ];
    folder.write("}", &calling.concat());
    for (old, new, rule) in [
        (
            "sample",
            "flat",
            "new is shorter, 28 bytes for 53: \"flat\"",
        ),
        (
            "flat",
            "sample",
            "old is shorter, 28 bytes for 53: \"flat\"",
        ),
        ("flat", "tall", "both have 28 bytes: \"flat\""),
        ("}", "sample", "old is shorter, 42 bytes for 53: \"}\""),
    ] {
        for field in [&[][..], &["--quadratic"]] {
            for keep in [&["--shorter"][..], &["--force", "--keep=new}"]] {
                let run = |rest: &[&str]| {
                    let ran = folder.run(&[&["compare", old, new], field, keep, rest].concat());
                    ran.status(0);
                    ran.out
                };
                let first = run(&["--points=3"]);
                folder.write("out", first.as_bytes());
                let again = run(&["--point=out"]);
                assert!(again.contains(rule), "{again}");
                let points = |out: &str| {
                    let lines = out.lines();
                    let point =
                        |line: &&str| line.starts_with("rows") || line.starts_with("columns");
                    lines.filter(point).map(str::to_owned).collect::<Vec<_>>()
                };
                assert_eq!(points(&again), points(&first));
                assert_eq!(points(&first).len(), 6);
                folder.write("out", run(&["--point=out", "--json"]).as_bytes());
                assert_eq!(run(&["--point=out"]), again);
            }
        }
    }
    // The lines of several pairs, of which one is refused, and of identical files beside a point.
    folder.write("list", b"flat copy\nsample flat\nbad flat\n");
    for json in [&[][..], &["--json", "--quiet"]] {
        let run = |rest: &[&str]| {
            folder
                .run(&[&["compare"], rest, json, &["--shorter"]].concat())
                .out
        };
        let out = run(&["--pairs=list"]) + &run(&["flat", "copy"]) + "rows 3\ncolumns 4\n";
        folder.write("out", out.as_bytes());
        let ran = folder.run(&["compare", "sample", "flat", "--point=out", "--quiet"]);
        let start = "same\nat the 1 point of \"out\"; ";
        assert!(ran.out.starts_with(start), "{}{}", ran.out, ran.errors);
    }
}

#[test]
fn the_shorter_key_counts_no_factors() {
    let folder = folder("shorter-factors");
    for (old, new, _) in PAIRS {
        for option in [&[][..], &["--quadratic"]] {
            let last = |more: &[&str]| {
                let ran = folder.run(&[&["compare", old, new, "--quiet"], option, more].concat());
                ran.out.lines().next_back().map(str::to_owned)
            };
            assert_eq!(last(&[]), last(&["--shorter"]));
            assert_eq!(last(&[]), last(&["--keep=new", "--force"]));
        }
    }
}

#[test]
fn other_commands_have_no_such_options() {
    let folder = folder("shorter-others");
    for arguments in [
        &["check", "flat", "--shorter"][..],
        &["move", "flat", "--to=new", "--keep=new"],
        &["evaluate", "flat", "--keep=new"],
    ] {
        folder.run(arguments).fails(&["there is no option"]);
    }
    assert_eq!(folder.names(), NAMES);
}
