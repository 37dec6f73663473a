//! Several keys at once: check of several files, compare of two folders and of a list of pairs.

use crate::keys::{flat, other, sample, single, single_in_two, FLAT_TO_OTHER};
use crate::support::Folder;
use std::fs;

const BOUND: &str = "bound 8.1e-28 (m = 2, 3 points)";

#[test]
fn check_goes_on_behind_a_fault() {
    let folder = Folder::new(
        "check-many",
        &[("sample", &sample()), ("bad", b"\xff"), ("flat", &flat())],
    );
    let accepted = [
        "key 53 bytes arrays 2 cells 1 calls 2 rows 1 columns 1; \"sample\"\n",
        "key 28 bytes arrays 1 cells 1 calls 0 rows 1 columns 1; \"flat\"\n",
    ];
    let refused = "refused 3 at 0: unknown kind; kind ff, and kinds are 01 to 08; key \"bad\"\n";
    folder
        .run(&["check", "sample", "flat"])
        .answers(0, &accepted.concat());
    folder
        .run(&["check", "bad", "sample", "flat"])
        .answers(2, &(refused.to_owned() + &accepted.concat()));
    let ran = folder.run(&["check", "sample", "absent", "bad", "flat"]);
    let failed = "failed; cannot read \"absent\": No such file or directory (os error 2)\n";
    ran.answers(3, &[accepted[0], failed, refused, accepted[1]].concat());
    let ran = folder.run_on(&["check", "sample", "-"], &flat());
    let input = "key 28 bytes arrays 1 cells 1 calls 0 rows 1 columns 1; standard input\n";
    ran.answers(0, &[accepted[0], input].concat());
}

#[test]
fn folders_are_compared_by_the_paths_in_them() {
    let folder = Folder::new("folders", &[]);
    for name in ["old", "new", "old/deep", "new/deep"] {
        folder.folder(name);
    }
    for (name, old, new) in [
        ("a", sample(), flat()),
        ("b", sample(), sample()),
        ("deep/c", flat(), sample()),
    ] {
        folder.write(format!("old/{name}"), &old);
        folder.write(format!("new/{name}"), &new);
    }
    let same = [
        format!("same \"old/a\" \"new/a\"; {BOUND}\n"),
        "same \"old/b\" \"new/b\"; certain, identical files\n".to_owned(),
        format!("same \"old/deep/c\" \"new/deep/c\"; {BOUND}\n"),
    ];
    folder
        .run(&["compare", "old", "new"])
        .answers(0, &(same.concat() + "factors 30\n"));
    folder.write("old/d", &flat());
    folder.write("new/d", &other());
    let cell = FLAT_TO_OTHER.join("; ");
    let different = format!("different \"old/d\" \"new/d\"; {cell}; at point 1 of 3\n");
    let wanted = [&same[0], &same[1], &different, &same[2], "factors 34\n"].concat();
    folder.run(&["compare", "old", "new"]).answers(1, &wanted);
    folder.write("new/deep/bad", b"\xff");
    folder.write("old/deep/bad", &sample());
    let refused =
        "refused 3 at 0: unknown kind; kind ff, and kinds are 01 to 08; new key \"new/deep/bad\"; \
         keys \"old/deep/bad\" \"new/deep/bad\"\n";
    let pairs = [&same[0], &same[1], &different, refused, &same[2]].concat();
    folder.run(&["compare", "old/", "new"]).status(2);
    folder
        .run(&["compare", "old", "new"])
        .answers(2, &[&pairs, "factors 34\n"].concat());
    folder.write("new/only", &sample());
    let failed = "failed \"old/only\" \"new/only\"; cannot read \"old/only\": No such file or directory (os error 2)\n";
    folder
        .run(&["compare", "old", "new"])
        .answers(3, &[&pairs, failed, "factors 34\n"].concat());
}

#[test]
fn a_folder_goes_with_a_folder() {
    let folder = Folder::new("uneven", &[("file", &sample())]);
    folder.folder("folder");
    folder.folder("empty");
    for arguments in [["compare", "folder", "file"], ["compare", "file", "folder"]] {
        folder
            .run(&arguments)
            .fails(&["\"folder\" is a folder and \"file\" is none"]);
    }
    folder
        .run(&["compare", "folder", "empty"])
        .fails(&["there is no file in \"folder\" or \"empty\""]);
}

#[test]
fn a_list_has_a_pair_on_each_line() {
    let folder = Folder::new(
        "list",
        &[
            ("sample", &sample()),
            ("flat key", &flat()),
            ("single", &single(1)),
        ],
    );
    let list = b"sample\tflat key\n\n  sample   sample  \r\nsingle sample\n";
    let wanted = format!(
        "same \"sample\" \"flat key\"; {BOUND}\n\
         same \"sample\" \"sample\"; certain, identical files\n\
         different \"single\" \"sample\"; old has 0 row bits and 0 column bits, new 1 and 1: \
         compared as filled with zeros; at row 0, column 0; old A 1 B 2 C 3; new A 0 B 0 C 0; \
         at point 1 of 3\nfactors 20\n"
    );
    folder.write("list", list);
    folder
        .run(&["compare", "--pairs", "list"])
        .answers(1, &wanted);
    folder
        .run_on(&["compare", "--pairs=-"], list)
        .answers(1, &wanted);
    for (list, words) in [
        (
            &b"sample\n"[..],
            "\"list\" line 1: does not have two file names",
        ),
        (
            b"a b\na b c\n",
            "\"list\" line 2: does not have two file names",
        ),
        (
            b"sample -\n",
            "\"list\" line 1: standard input (-) is no file of a list",
        ),
        (b"\n", "there is no pair in \"list\""),
    ] {
        folder.write("list", list);
        folder.run(&["compare", "--pairs", "list"]).fails(&[words]);
    }
}

#[test]
fn points_are_read_once_for_all_pairs() {
    let folder = Folder::new("points-many", &[("sample", &sample()), ("flat", &flat())]);
    folder.write("list", b"sample flat\nflat sample\n");
    let point = b"rows 3\ncolumns 4\n";
    folder
        .run_on(&["compare", "--pairs", "list", "--point", "-"], point)
        .answers(
            0,
            "same \"sample\" \"flat\"; no bound, 1 point of standard input\n\
             same \"flat\" \"sample\"; no bound, 1 point of standard input\nfactors 10\n",
        );
    folder
        .run_on(&["compare", "--pairs", "list", "--point", "-"], b"")
        .fails(&["standard input line 1: the line of rows is missing"]);
}

#[test]
fn pairs_of_one_place_are_certain() {
    let folder = Folder::new(
        "one-many",
        &[
            ("once", &single(1)),
            ("sum", &single_in_two()),
            ("list", b"once sum\n"),
        ],
    );
    let run = |options: &[&str]| folder.run(&[&["compare", "--pairs", "list"], options].concat());
    run(&[]).answers(0, "same \"once\" \"sum\"; certain, one place\nfactors 0\n");
    run(&["--json", "--quiet"]).answers(
        0,
        "{\"command\":\"compare\",\"old\":\"once\",\"new\":\"sum\",\"status\":\"same\",\
         \"certain\":true,\"identical\":false,\"field\":\"p\",\"m\":0,\"count\":1,\"factors\":0}\n",
    );
}

#[test]
fn a_folder_that_cannot_be_read_is_said() {
    let folder = Folder::new("deep", &[]);
    folder.folder("old");
    // A path is limited to 4,096 bytes: this one is made in two halves, of which one is moved into the other.
    let name = "d".repeat(250);
    let half = [name.as_str(); 9].join("/");
    for path in [format!("new/{half}"), format!("rest/{half}")] {
        fs::create_dir_all(folder.path(&path)).expect("the folders are made");
    }
    let (from, to) = (format!("rest/{name}"), format!("new/{half}/{name}"));
    fs::rename(folder.path(&from), folder.path(&to)).expect("the folder is moved");
    folder.write("old/a", &sample());
    folder.write("new/a", &sample());
    let ran = folder.run(&["compare", "old", "new"]);
    ran.status(3);
    let lines: Vec<_> = ran.out.lines().collect();
    assert_eq!(
        lines[0],
        "same \"old/a\" \"new/a\"; certain, identical files"
    );
    let start = format!("failed \"old/{name}/{name}");
    let cause = format!("cannot read \"new/{name}/{name}");
    assert!(
        lines[1].starts_with(&start) && lines[1].contains(&cause),
        "{}",
        lines[1]
    );
    assert!(
        lines[1].ends_with("File name too long (os error 36)"),
        "{}",
        lines[1]
    );
    assert_eq!(lines.len(), 2);
}

#[test]
fn only_regular_files_of_folders_are_read() {
    let folder = Folder::new("odd", &[("key", &sample())]);
    for name in ["old", "new", "deep"] {
        folder.folder(name);
    }
    for name in ["old/a", "new/a", "deep/b"] {
        folder.write(name, &sample());
    }
    folder.link("../key", "old/link");
    folder.link("../key", "new/link");
    folder.link("../deep", "old/deep");
    folder.link("../deep", "new/deep");
    folder.link("/dev/zero", "old/endless");
    folder.link("/dev/zero", "new/endless");
    let failed = |name: &str| {
        format!("failed \"old/{name}\" \"new/{name}\"; cannot read \"old/{name}\": it is no regular file\n")
    };
    let same =
        |name: &str| format!("same \"old/{name}\" \"new/{name}\"; certain, identical files\n");
    let wanted = [same("a"), failed("deep"), failed("endless"), same("link")].concat();
    folder.run(&["compare", "old", "new"]).answers(3, &wanted);
}

#[test]
fn folders_take_the_options_and_every_file() {
    let folder = Folder::new("folder-options", &[]);
    // The keys differ at row 0, column 1 alone, which weighs (1 - r)·c: nothing where r is 1.
    let point = b"rows 1\ncolumns 5\n";
    folder.folder("old");
    folder.folder("new");
    for name in ["a", ".hidden"] {
        folder.write(format!("old/{name}"), &flat());
        folder.write(format!("new/{name}"), &other());
    }
    folder.write("points", point);
    let run = |rest: &[&str]| folder.run(&[&["compare", "old", "new"], rest].concat());
    let same = |name: &str| {
        format!("same \"old/{name}\" \"new/{name}\"; no bound, 1 point of \"points\"\n")
    };
    run(&["--point=points"]).answers(0, &(same(".hidden") + &same("a") + "factors 8\n"));
    let ran = folder.run_on(&["compare", "old", "new", "--point=-"], point);
    let input = |name: &str| {
        format!("same \"old/{name}\" \"new/{name}\"; no bound, 1 point of standard input\n")
    };
    ran.answers(0, &(input(".hidden") + &input("a") + "factors 8\n"));
    folder.write("new/a", &sample());
    folder.write("new/.hidden", &flat());
    let wanted = "same \"old/.hidden\" \"new/.hidden\"; certain, identical files\n\
        same \"old/a\" \"new/a\"; bound 1.9e-37 (q = p², m = 2, 2 points)\n";
    run(&["--quadratic"]).answers(0, &format!("{wanted}factors 10\n"));
    folder.write("old/only", &flat());
    let failed = "failed \"old/only\" \"new/only\"; cannot read \"new/only\": No such file or directory (os error 2)\n";
    run(&["--quadratic"]).answers(3, &format!("{wanted}{failed}factors 10\n"));
}
