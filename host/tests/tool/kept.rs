//! The shorter of two keys that are the same, which compare keeps in a file.

use crate::keys::{cell, flat, head, longest, sample, sparse, END};
use crate::shorter::{folder, named, NAMES, PAIRS};
use crate::support::{Folder, Ran};
use std::fs::{self, Permissions};
use std::os::unix::fs::PermissionsExt;
use std::process::Stdio;

/// Wants status 3 and these words, with an object on standard output where JSON is asked for.
#[track_caller]
fn fails(ran: &Ran, json: bool, words: &str) {
    ran.status(3);
    assert!(ran.errors.starts_with("morgana: "), "{}", ran.errors);
    assert!(ran.errors.contains(words), "{}", ran.errors);
    let object = ran.out.contains("\"status\":\"failed\"") && ran.out.ends_with("}\n");
    assert_eq!(object, json, "{}", ran.out);
    assert_eq!(ran.out.is_empty(), !json);
}

#[test]
fn the_shorter_key_is_kept() {
    let folder = folder("shorter-keep");
    for (old, new, line) in PAIRS {
        for option in [&[][..], &["--quadratic"]] {
            for also in [&[][..], &["--shorter"], &["--force"]] {
                let keep = ["compare", old, new, "--keep", "small", "--quiet"];
                let ran = folder.run(&[&keep[..], option, also].concat());
                ran.status(0);
                let wanted = format!("{line}, kept as \"small\"");
                assert_eq!(ran.out.lines().filter(|it| *it == wanted).count(), 1);
                assert_eq!(folder.read("small"), folder.read(named(line)));
                fs::remove_file(folder.path("small")).expect("it is kept");
                assert_eq!(folder.names(), NAMES);
            }
        }
    }
}

#[test]
fn a_full_key_is_kept_whole() {
    let folder = Folder::new("shorter-full", &[("longest", &longest())]);
    let sum = [
        head(0, 0),
        sparse(0, 0),
        cell(0, 0, 3120, 6240, 9360),
        END.to_vec(),
    ];
    let mut same = longest();
    // The first array is recursive and calls nothing, where the other's is sparse and empty.
    same[3] = 3;
    folder.write("same", &same);
    folder.write("sum", &sum.concat());
    for (old, new, name) in [
        ("same", "longest", "same"),
        ("longest", "same", "longest"),
        ("longest", "sum", "sum"),
    ] {
        let keep = ["compare", old, new, "--force", "--keep", "small", "--quiet"];
        folder.run(&keep).status(0);
        assert_eq!(folder.read("small"), folder.read(name));
    }
}

#[test]
fn a_file_that_is_there_stays() {
    let folder = folder("shorter-there");
    folder.write("kept", b"kept");
    folder.link("kept", "link");
    folder.link("absent", "broken");
    folder.folder("folder");
    let names = folder.names();
    for (old, new) in [
        ("sample", "flat"),
        ("flat", "copy"),
        ("wide", "two"),
        ("flat", "other"),
    ] {
        for (name, why) in [
            ("kept", "--force is not given"),
            (old, "--force is not given"),
            (new, "--force is not given"),
            ("link", "is no regular file"),
            ("broken", "is no regular file"),
            ("folder", "is no regular file"),
        ] {
            let words = format!("cannot write \"{name}\": it exists, and {why}");
            let compare = ["compare", old, new, "--keep", name];
            fails(&folder.run(&compare), false, &words);
            fails(
                &folder.run(&[&compare[..], &["--json"]].concat()),
                true,
                &words,
            );
        }
        for name in ["link", "broken", "folder", "."] {
            let compare = ["compare", old, new, "--force", "--keep", name];
            let words = format!("cannot write \"{name}\": it is no regular file");
            fails(&folder.run(&compare), false, &words);
        }
    }
    assert_eq!(folder.names(), names);
    assert_eq!(folder.read("kept"), b"kept");
    assert_eq!(folder.read("sample"), sample());
    assert_eq!(folder.read("flat"), flat());
}

#[test]
fn that_a_file_is_there_is_said_before_any_point_is_tried() {
    let folder = folder("shorter-early");
    folder.write("kept", b"kept");
    // A point that is refused, and one at which the keys are different: neither is come to.
    folder.write("refused", b"rows 3\ncolumns 2147483647\n");
    folder.write("differs", b"rows 3\ncolumns 4\n");
    for (new, point, status) in [("sample", "refused", 2), ("other", "differs", 1)] {
        let run =
            |keep: &str| folder.run(&["compare", "flat", new, "--keep", keep, "--point", point]);
        run("new").status(status);
        run("kept").fails(&["cannot write \"kept\": it exists, and --force is not given"]);
    }
    // A key that is refused is refused all the same, as for move.
    folder
        .run(&["compare", "bad", "flat", "--keep=kept"])
        .status(2);
    assert_eq!(folder.read("kept"), b"kept");
}

#[test]
fn nothing_is_kept_before_the_last_point() {
    let folder = folder("shorter-last");
    folder.write("kept", b"kept");
    // Flat and other are the same where the row coordinate is 1.
    for (last, status) in [
        ("rows 3\ncolumns 4\n", 1),
        ("rows 1 2\ncolumns 4\n", 2),
        ("rows 1\ncolumns 4\n", 0),
    ] {
        let points = "rows 1\ncolumns 5\n".repeat(2) + last;
        folder.write("points", points.as_bytes());
        for options in [&["--keep=new"][..], &["--keep=kept", "--force"]] {
            let compare = ["compare", "flat", "other", "--point=points"];
            folder.run(&[&compare[..], options].concat()).status(status);
        }
        let kept = if status == 0 {
            flat()
        } else {
            b"kept".to_vec()
        };
        assert_eq!(folder.read("kept"), kept);
        assert_eq!(folder.path("new").exists(), status == 0);
    }
}

#[test]
fn a_file_is_replaced_where_that_is_forced() {
    let folder = folder("shorter-force");
    let force = |old: &str, new: &str, to: &str| {
        let ran = folder.run(&["compare", old, new, "--keep", to, "--force", "--quiet"]);
        ran.status(0);
        assert!(
            ran.out.contains(&format!(", kept as {to:?}\n")),
            "{}",
            ran.out
        );
    };
    folder.write("kept", b"kept");
    let closed = Permissions::from_mode(0o600);
    fs::set_permissions(folder.path("kept"), closed).expect("the modes are set");
    force("sample", "flat", "kept");
    assert_eq!(folder.read("kept"), flat());
    let modes = fs::metadata(folder.path("kept")).expect("a file");
    assert_eq!(modes.permissions().mode() & 0o777, 0o600);
    // Onto the keys themselves: the longer becomes the shorter, and the shorter stays what it is.
    force("sample", "flat", "flat");
    assert_eq!(
        (folder.read("sample"), folder.read("flat")),
        (sample(), flat())
    );
    force("scaled", "sample", "scaled");
    assert_eq!(folder.read("scaled"), sample());
    force("tall", "sample", "sample");
    assert_eq!(folder.read("sample"), folder.read("tall"));
    force("tall", "flat", "flat");
    assert_eq!(folder.read("flat"), folder.read("tall"));
    force("tall", "tall", "./tall");
    assert_eq!(folder.read("tall").len(), 28);
    assert_eq!(folder.names().len(), NAMES.len() + 1);
}

#[test]
fn a_failed_writing_is_said() {
    let folder = folder("shorter-failed");
    for (name, words) in [
        ("absent/new", "cannot write \"absent/new\": No such file"),
        ("", "cannot write \"\": "),
        ("flat/new", "cannot write \"flat/new\": Not a directory"),
    ] {
        for (old, new) in [("sample", "flat"), ("flat", "copy")] {
            for option in [&[][..], &["--force"], &["--quadratic"]] {
                let compare = [&["compare", old, new, "--keep", name], option].concat();
                fails(&folder.run(&compare), false, words);
                fails(
                    &folder.run(&[&compare[..], &["--json"]].concat()),
                    true,
                    words,
                );
            }
        }
    }
    assert_eq!(folder.names(), NAMES);
}

#[test]
fn a_file_is_kept_whole_or_not_at_all() {
    let folder = folder("shorter-limit");
    folder.write("kept", b"kept");
    let names = folder.names();
    for (line, name) in [("--keep new", "new"), ("--keep kept --force", "kept")] {
        for keys in ["sample flat", "flat copy"] {
            let ran = folder.in_shell("ulimit -f 0", &format!("compare {keys} {line}"));
            ran.fails(&[&format!("cannot write \"{name}\": File too large")]);
        }
    }
    let closed = "cannot write to standard output: it is closed";
    folder
        .in_shell(":", "compare sample flat --keep new >&-")
        .fails(&[closed]);
    assert_eq!(folder.names(), names);
    assert_eq!(folder.read("kept"), b"kept");
    // What is written stays where the answer cannot be.
    let ran = folder.in_shell(":", "compare sample flat --keep new >/dev/full");
    ran.fails(&["cannot write to standard output: "]);
    assert_eq!(folder.read("new"), flat());
}

#[test]
fn of_several_that_keep_in_one_file_one_does() {
    let folder = folder("shorter-race");
    for round in 0..5 {
        let name = format!("new-{round}");
        let start = |number: usize| {
            let old = ["sample", "scaled"][number % 2];
            let new = ["flat", "sample"][number % 2];
            let mut program = folder.program(&["compare", old, new, "--keep", &name]);
            let piped = program.stdout(Stdio::piped()).stderr(Stdio::piped());
            piped.spawn().expect("morgana runs")
        };
        let children: Vec<_> = (0..8).map(start).collect();
        let ran = children
            .into_iter()
            .map(|child| Ran::of(child.wait_with_output().expect("morgana ends")));
        let (done, failed): (Vec<_>, Vec<_>) = ran.partition(|ran| ran.status == Some(0));
        assert_eq!(done.len(), 1);
        for ran in failed {
            ran.fails(&["it exists"]);
        }
        let wanted = match done[0].out.contains("28 bytes") {
            true => flat(),
            false => sample(),
        };
        assert_eq!(folder.read(&name), wanted);
    }
    assert_eq!(folder.names().len(), NAMES.len() + 5);
}

#[test]
fn standard_input_is_named_and_kept() {
    let folder = folder("shorter-input");
    let run = |arguments: &[&str], input: &[u8]| {
        let compare = ["compare", "--quiet", "--keep=new", "--force"];
        let ran = folder.run_on(&[&compare[..], arguments].concat(), input);
        ran.status(0);
        ran.out
    };
    let out = run(&["sample", "-"], &flat());
    let line = "same\nnew is shorter, 28 bytes for 53: standard input, kept as \"new\"\n";
    assert!(out.starts_with(line), "{out}");
    assert_eq!(folder.read("new"), flat());
    let out = run(&["-", "scaled"], &sample());
    let line = "same\nold is shorter, 53 bytes for 61: standard input, kept as \"new\"\n";
    assert!(out.starts_with(line), "{out}");
    assert_eq!(folder.read("new"), sample());
    let out = run(&["-", "flat", "--json"], &flat());
    let members = "\"shorter\":\"old\",\"old_bytes\":28,\"new_bytes\":28,\"kept\":\"new\"}\n";
    assert!(out.ends_with(members), "{out}");
    let compare = ["compare", "-", "flat", "--keep", "./-"];
    folder.run_on(&compare, &sample()).status(0);
    assert_eq!(folder.read("-"), flat());
}
