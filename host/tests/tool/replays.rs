//! Points that were printed, used again.

use crate::keys::{flat, other, sample, single, single_in_two, wide, wide_in_two, FLAT_TO_OTHER};
use crate::support::Folder;

#[test]
fn what_evaluate_printed_can_be_used_again() {
    let folder = Folder::new("again", &[("sample", &sample()), ("wide", &wide(1))]);
    for (key, coordinates) in [("sample", 2), ("wide", 60)] {
        for (numbers, option) in [(1, &[][..]), (2, &["--quadratic"])] {
            let run = |arguments: &[&str]| folder.run(&[&["evaluate"], arguments, option].concat());
            let first = run(&[key, "--random"]);
            let point: Vec<_> = first.out.lines().take(2).collect();
            let words = point.iter().flat_map(|line| line.split(' ').skip(1));
            assert_eq!(words.count(), numbers * coordinates, "{}", first.out);
            for text in [point.join("\n"), first.out.clone()] {
                folder.write("point", text.as_bytes());
                run(&["--point", "point", key]).answers(0, &first.out);
            }
            folder.write("point", run(&[key, "--json"]).out.as_bytes());
            let again = run(&[key, "--json", "--point=point"]);
            folder.write("again", again.out.as_bytes());
            run(&[key, "--json", "--point=again"]).answers(0, &again.out);
            assert_ne!(run(&[key]), first);
        }
    }
}

#[test]
fn points_of_the_other_field_are_not_taken() {
    let folder = Folder::new("other-field", &[("sample", &sample()), ("flat", &flat())]);
    for command in [&["evaluate", "sample"][..], &["compare", "sample", "flat"]] {
        for (from, to, words) in [
            (
                &["--quadratic"][..],
                &[][..],
                "a point over p² goes with --quadratic",
            ),
            (
                &[],
                &["--quadratic"],
                "a point over p goes without --quadratic",
            ),
        ] {
            let printed = folder.run(&[command, &["--json"], from].concat());
            folder.write("out", printed.out.as_bytes());
            let again = folder.run(&[command, &["--point=out"], to].concat());
            again.fails(&["\"out\" line 1: ", words]);
        }
    }
}

#[test]
fn a_mark_of_utf8_is_no_part_of_a_file() {
    let folder = Folder::new("mark", &[("sample", &sample()), ("flat", &flat())]);
    folder.write("point", b"\xef\xbb\xbfrows 3\ncolumns 4\n");
    folder.write("list", b"\xef\xbb\xbfsample flat\n");
    folder
        .run(&["compare", "--pairs=list", "--point=point"])
        .answers(
            0,
            "same \"sample\" \"flat\"; no bound, 1 point of \"point\"\nfactors 5\n",
        );
}

/// The lines of the points in compare's output: those behind the verdict and its reason, and before the factors.
fn points(out: &str) -> Vec<&str> {
    let lines = out.lines().skip(2);
    lines
        .take_while(|line| !line.starts_with("factors"))
        .collect()
}

#[test]
fn what_compare_printed_can_be_used_again() {
    let folder = Folder::new(
        "compared-again",
        &[("sample", &sample()), ("flat", &flat())],
    );
    folder.write("wide", &wide(1));
    folder.write("two", &wide_in_two());
    for keys in [["sample", "flat"], ["wide", "two"]] {
        for field in [&[][..], &["--quadratic"]] {
            let run =
                |options: &[&str]| folder.run(&[&["compare"], &keys[..], field, options].concat());
            let first = run(&["--points", "7"]);
            folder.write("out", first.out.as_bytes());
            let second = run(&["--point", "out"]);
            second.status(0);
            let reason =
                "at the 7 points of \"out\"; no bound is given, since they were not drawn here";
            assert!(
                second.out.starts_with(&format!("same\n{reason}\n")),
                "{}",
                second.out
            );
            assert_eq!(points(&second.out), points(&first.out));
            assert_eq!(points(&first.out).len(), 14);
            let json = run(&["--json", "--point", "out"]);
            folder.write("out", json.out.as_bytes());
            run(&["--point", "out"]).answers(0, &second.out);
        }
    }
}

#[test]
fn a_point_that_shows_a_difference_shows_it_again() {
    let folder = Folder::new("differs-again", &[("flat", &flat()), ("other", &other())]);
    for option in [&[][..], &["--quadratic"]] {
        let run = |arguments: &[&str]| {
            folder.run(&[&["compare", "flat", "other"], arguments, option].concat())
        };
        let first = run(&[]);
        assert_eq!(first.status, Some(1));
        folder.write("out", first.out.as_bytes());
        let (_, points) = first.out.split_once("\nrows").expect("a point");
        let cell = FLAT_TO_OTHER.join("\n");
        let wanted = format!("different\n{cell}\nat point 1 of 1\nrows{points}");
        run(&["--point", "out"]).answers(1, &wanted);
    }
}

#[test]
fn points_of_a_file_have_no_bound_but_may_be_certain() {
    let folder = Folder::new(
        "certain-again",
        &[("once", &single(1)), ("sum", &single_in_two())],
    );
    folder.write("point", b"rows\ncolumns\n");
    folder
        .run(&["compare", "once", "sum", "--point=point", "--quiet"])
        .answers(
            0,
            "same\nthe matrices have one place, and it was compared, so this is certain\nfactors 0\n",
        );
}

#[test]
fn the_points_before_one_that_differs_are_left_out() {
    let folder = Folder::new("agrees-first", &[("flat", &flat()), ("other", &other())]);
    // The keys differ at row 0, column 1 alone, which weighs (1 - r)·c: nothing where r is 1.
    folder.write(
        "points",
        b"rows 1\ncolumns 5\nrows 3\ncolumns 4\nrows 5\ncolumns 6\n",
    );
    let run = |options: &[&str]| {
        let keys = ["compare", "flat", "other", "--point", "points"];
        folder.run(&[&keys[..], options].concat())
    };
    let verdict = format!("different\n{}\nat point 2 of 3\n", FLAT_TO_OTHER.join("\n"));
    run(&[]).answers(1, &format!("{verdict}rows 3\ncolumns 4\nfactors 8\n"));
    run(&["--quiet"]).answers(1, &format!("{verdict}factors 8\n"));
    let json = run(&["--json", "--no-locate"]);
    let wanted = "\"point\":2,\"field\":\"p\",\"m\":2,\"count\":3,\"points_from\":\"points\",\
        \"factors\":8,\"points\":[{\"rows\":[3],\"columns\":[4]}]}\n";
    assert!(json.out.ends_with(wanted), "{}", json.out);
    folder.write("points", b"rows 1\ncolumns 5\n");
    let ran = run(&[]);
    ran.status(0);
    assert!(
        ran.out
            .starts_with("same\nat the 1 point of \"points\"; no bound"),
        "{}",
        ran.out
    );
}

#[test]
fn a_later_point_may_show_the_difference() {
    let folder = Folder::new("later", &[("flat", &flat()), ("other", &other())]);
    // The keys are the same where the row coordinate is 1.
    let points = "rows 1\ncolumns 5\nrows 1\ncolumns 6\nrows 3\ncolumns 4\nrows 7\ncolumns 7\n";
    folder.write("points", points.as_bytes());
    folder.write("list", b"flat other\n");
    let run = |rest: &[&str]| folder.run(&[&["compare", "--point=points"], rest].concat());
    let cell = FLAT_TO_OTHER.join("\n");
    run(&["flat", "other"]).answers(
        1,
        &format!("different\n{cell}\nat point 3 of 4\nrows 3\ncolumns 4\nfactors 12\n"),
    );
    let cell = FLAT_TO_OTHER.join("; ");
    run(&["--pairs=list"]).answers(
        1,
        &format!("different \"flat\" \"other\"; {cell}; at point 3 of 4\nfactors 12\n"),
    );
    folder.write("points", &points.as_bytes()[..points.len() / 2]);
    run(&["--pairs=list"]).answers(
        0,
        "same \"flat\" \"other\"; no bound, 2 points of \"points\"\nfactors 8\n",
    );
    folder.write("points", b"rows 1\ncolumns 5\nrows\ncolumns\n");
    run(&["flat", "other"]).answers(
        2,
        "refused 21 at 0: row count not n (N for two keys, twice that over p²); 0 given, 1 wanted; point 2 of \"points\"; \
         keys \"flat\" \"other\"\n",
    );
}

#[test]
fn whole_output_with_refusals_in_it_is_read() {
    let folder = Folder::new(
        "refusals-in-it",
        &[("sample", &sample()), ("flat", &flat()), ("bad", b"\xff")],
    );
    folder.write("list", b"sample bad\nsample absent\n");
    folder.write("point", b"rows 1\ncolumns 5\n");
    for json in [&[][..], &["--json"]] {
        let run = |rest: &[&str]| folder.run(&[&["compare"], rest, json].concat()).out;
        let text = [
            run(&["bad", "flat"]),
            run(&["--pairs=list"]),
            run(&["sample", "sample"]),
            run(&["sample", "flat", "--points=2"]),
            run(&["sample", "flat", "--point=point"]),
            folder.run(&[&["evaluate", "sample"], json].concat()).out,
        ];
        for text in [
            text.concat(),
            text.concat()
                .replace('\n', "\r\n")
                .replace(":[", ": [")
                .replace(",\"", ", \""),
        ] {
            folder.write("out", text.as_bytes());
            let ran = folder.run(&["compare", "sample", "flat", "--point=out", "--quiet"]);
            assert!(
                ran.out.starts_with("same\nat the 4 points of \"out\""),
                "{}{}",
                ran.out,
                ran.errors
            );
        }
    }
}

#[test]
fn a_point_file_may_be_long() {
    let folder = Folder::new("long-points", &[("sample", &sample())]);
    let point = "rows 2147483646\ncolumns 2147483646\n";
    folder.write("points", point.repeat(20_000).as_bytes());
    let ran = folder.run(&["evaluate", "sample", "--point=points"]);
    ran.status(0);
    assert_eq!(ran.out.matches(point).count(), 20_000);
}
