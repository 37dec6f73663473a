//! Answers as JSON: one object a line, for each command.

use crate::keys::{flat, sample, scaled, single};
use crate::support::Folder;

#[test]
fn check_has_an_object_for_each_key() {
    let folder = Folder::new("json-check", &[("sample", &sample()), ("bad", b"\xff")]);
    let sample = "{\"command\":\"check\",\"file\":\"sample\",\"status\":\"accepted\",\"bytes\":53,\
        \"arrays\":2,\"cells\":1,\"calls\":2,\"rows\":1,\"columns\":1,\"edition\":1}\n";
    let bad =
        "{\"command\":\"check\",\"file\":\"bad\",\"status\":\"refused\",\"number\":3,\"place\":0,\
        \"reason\":\"unknown kind\",\"detail\":\"kind ff, and kinds are 01 to 08\"}\n";
    let absent = "{\"command\":\"check\",\"file\":\"absent\",\"status\":\"failed\",\
        \"message\":\"cannot read \\\"absent\\\": No such file or directory (os error 2)\"}\n";
    folder
        .run(&["check", "--json", "sample"])
        .answers(0, sample);
    folder.run(&["check", "--json", "bad"]).answers(2, bad);
    folder
        .run(&["check", "sample", "absent", "bad", "--json"])
        .answers(3, &[sample, absent, bad].concat());
    folder.write("scaled", &scaled(2, 3));
    let scaled = sample
        .replace("sample", "scaled")
        .replace("53", "61")
        .replace("\"edition\":1", "\"edition\":2");
    folder
        .run(&["check", "--json", "scaled"])
        .answers(0, &scaled);
    let ran = folder.run(&["check", "--json", "absent"]);
    assert_eq!((ran.status, ran.out.as_str()), (Some(3), absent));
    assert!(ran.errors.starts_with("morgana: cannot read \"absent\""));
}

#[test]
fn show_has_an_object_for_each_record_and_one_for_the_key() {
    let cut = [&sample()[..40], &[]].concat();
    let folder = Folder::new("json-show", &[("sample", &sample()), ("cut", &cut)]);
    let line =
        |file: &str, rest: &str| format!("{{\"command\":\"show\",\"file\":\"{file}\",{rest}}}\n");
    let records = [
        "\"offset\":0,\"fault\":false,\"kind\":\"head\",\"edition\":1,\"row_bits\":1,\"column_bits\":1",
        "\"offset\":3,\"fault\":false,\"kind\":\"sparse\",\"array\":0,\"row_bits\":0,\"column_bits\":1",
        "\"offset\":6,\"fault\":false,\"kind\":\"cell\",\"array\":0,\"row\":0,\"column\":1,\"a\":5,\"b\":7,\"c\":0",
        "\"offset\":27,\"fault\":false,\"kind\":\"recursive\",\"array\":1,\"row_bits\":1,\"column_bits\":1",
        "\"offset\":30,\"fault\":false,\"kind\":\"call\",\"array\":1,\"id\":0,\"row_position\":0,\"column_position\":0",
        "\"offset\":41,\"fault\":false,\"kind\":\"call\",\"array\":1,\"id\":0,\"row_position\":0,\"column_position\":0",
        "\"offset\":52,\"fault\":false,\"kind\":\"end\"",
        "\"status\":\"accepted\"",
    ];
    let wanted: String = records.iter().map(|rest| line("sample", rest)).collect();
    folder
        .run(&["show", "--json", "sample"])
        .answers(0, &wanted);
    let mut wanted: String = records[..4].iter().map(|rest| line("cut", rest)).collect();
    for rest in [
        "\"offset\":30,\"fault\":true,\"kind\":\"call\",\"array\":1,\"wanted\":11,\"left\":10",
        "\"status\":\"refused\",\"number\":2,\"place\":30,\"reason\":\"record missing or cut off\",\
         \"detail\":\"a call of edition 1 has 11 bytes and 10 are left\"",
    ] {
        wanted.push_str(&line("cut", rest));
    }
    folder.run(&["show", "--json", "cut"]).answers(2, &wanted);
    for (key, fault) in [
        (&b""[..], "\"kind\":\"missing\""),
        (b"\xff", "\"kind\":\"unknown\",\"byte\":255"),
        (
            &[sample(), vec![1, 2]].concat(),
            "\"kind\":\"more\",\"left\":2",
        ),
    ] {
        folder.write("cut", key);
        let ran = folder.run(&["show", "--json", "cut"]);
        let fault = format!("\"fault\":true,{fault}}}\n");
        assert_eq!(ran.out.matches(&fault).count(), 1, "{}", ran.out);
    }
}

#[test]
fn show_has_the_factors_of_edition_2() {
    let whole = scaled(3, morgana::P - 1);
    let folder = Folder::new("json-scaled", &[("whole", &whole), ("cut", &whole[..59])]);
    let head = "\"kind\":\"head\",\"edition\":2,\"row_bits\":1,\"column_bits\":1}";
    let call = |rest: &str| format!("\"kind\":\"call\",\"array\":1,{rest}}}");
    let called = |factor: u32| {
        let positions = "\"row_position\":0,\"column_position\":0";
        call(&format!("\"id\":0,{positions},\"factor\":{factor}"))
    };
    let cut = call("\"wanted\":15,\"left\":14");
    for (name, status, wanted) in [
        ("whole", 0, [called(3), called(morgana::P - 1)]),
        ("cut", 2, [called(3), cut]),
    ] {
        let ran = folder.run(&["show", name, "--json"]);
        ran.status(status);
        for object in [head.to_owned()].into_iter().chain(wanted) {
            assert_eq!(ran.out.matches(&object).count(), 1, "{object}\n{}", ran.out);
        }
    }
}

#[test]
fn evaluate_has_an_object_for_each_point() {
    let folder = Folder::new("json-evaluate", &[("sample", &sample())]);
    folder.write("point", b"rows 3\ncolumns 4\nrows 0\ncolumns 1\n");
    let start = "{\"command\":\"evaluate\",\"file\":\"sample\",\"status\":\"accepted\",";
    let wanted = [
        "\"field\":\"p\",\"rows\":[3],\"columns\":[4],\"arrays\":[[20,28,0],[2147483567,2147483535,0]],\
         \"a\":2147483567,\"b\":2147483535,\"c\":0,\"factors\":3}\n",
        "\"field\":\"p\",\"rows\":[0],\"columns\":[1],\"arrays\":[[5,7,0],[10,14,0]],\"a\":10,\"b\":14,\"c\":0,\
         \"factors\":3}\n",
    ]
    .map(|rest| format!("{start}{rest}"));
    folder
        .run(&["evaluate", "sample", "--json", "--point=point"])
        .answers(0, &wanted.concat());
    folder.write("point", b"rows 3 2\ncolumns 4 5\n");
    let wanted = "\"field\":\"p^2\",\"rows\":[3,2],\"columns\":[4,5],\
        \"arrays\":[[[20,25],[28,35],[0,0]],[[20,2147483467],[28,2147483395],[0,0]]],\
        \"a\":[20,2147483467],\"b\":[28,2147483395],\"c\":[0,0],\"factors\":3}\n";
    folder
        .run(&[
            "evaluate",
            "sample",
            "--json",
            "--quadratic",
            "--point=point",
        ])
        .answers(0, &format!("{start}{wanted}"));
    folder.run(&["evaluate", "sample", "--json", "--point=point"]).answers(
        2,
        "{\"command\":\"evaluate\",\"file\":\"sample\",\"status\":\"refused\",\"number\":21,\"place\":2,\
         \"reason\":\"row count not n (N for two keys, twice that over p²)\",\"detail\":\"2 given, 1 wanted (2 with --quadratic)\",\
         \"points_from\":\"point\",\"point\":1}\n",
    );
}

#[test]
fn cell_has_an_object() {
    let folder = Folder::new("json-cell", &[("sample", &sample())]);
    let start = "{\"command\":\"cell\",\"file\":\"sample\",\"status\":";
    folder.run(&["cell", "sample", "0", "1", "--json"]).answers(
        0,
        &format!(
            "{start}\"accepted\",\"row\":0,\"column\":1,\"a\":10,\"b\":14,\"c\":0,\"factors\":3}}\n"
        ),
    );
    folder.run(&["cell", "sample", "0", "2", "--json"]).answers(
        2,
        &format!(
            "{start}\"refused\",\"number\":24,\"place\":1,\"reason\":\"column outside the last array\",\
             \"detail\":\"column 2 given, and columns are 0 to 1\"}}\n"
        ),
    );
}

#[test]
fn move_has_an_object() {
    let folder = Folder::new(
        "json-move",
        &[("sample", &sample()), ("two", &scaled(1, 2))],
    );
    let start = |file: &str, to: &str| {
        format!("{{\"command\":\"move\",\"file\":\"{file}\",\"to\":\"{to}\",\"status\":")
    };
    for (file, to, wanted) in [
        (
            "sample",
            "there",
            "\"bytes\":53,\"edition\":1,\"to_bytes\":61,\"to_edition\":2",
        ),
        (
            "there",
            "back",
            "\"bytes\":61,\"edition\":2,\"to_bytes\":53,\"to_edition\":1",
        ),
    ] {
        let wanted = format!("{}\"accepted\",{wanted}}}\n", start(file, to));
        folder
            .run(&["move", file, "--to", to, "--json"])
            .answers(0, &wanted);
    }
    let wanted = "\"refused\",\"number\":55,\"place\":45,\"reason\":\"a factor other than 1 on the way back\",\
         \"detail\":\"array 0 is called in array 1 with factor 2, and in edition 1 every factor is 1\"}\n";
    folder
        .run(&["move", "two", "--to", "one", "--json"])
        .answers(2, &(start("two", "one") + wanted));
    let ran = folder.run(&["move", "sample", "--to", "two", "--json"]);
    let message = "cannot write \\\"two\\\": it exists, and --force is not given";
    let wanted = format!(
        "{}\"failed\",\"message\":\"{message}\"}}\n",
        start("sample", "two")
    );
    assert_eq!((ran.status, ran.out), (Some(3), wanted));
    assert!(ran.errors.starts_with("morgana: cannot write \"two\""));
}

#[test]
fn compare_has_an_object_for_each_pair() {
    let folder = Folder::new(
        "json-compare",
        &[
            ("sample", &sample()),
            ("flat", &flat()),
            ("single", &single(1)),
            ("other", &single(2)),
        ],
    );
    folder.write("point", b"rows 3\ncolumns 4\n");
    let start = |old: &str, new: &str| {
        format!("{{\"command\":\"compare\",\"old\":\"{old}\",\"new\":\"{new}\",\"status\":")
    };
    for (old, new, options, status, wanted) in [
        (
            "sample",
            "sample",
            &[][..],
            0,
            "\"same\",\"certain\":true,\"identical\":true}",
        ),
        (
            "sample",
            "flat",
            &["--quiet"],
            0,
            "\"same\",\"certain\":false,\"identical\":false,\"field\":\"p\",\"m\":2,\"count\":3,\"bound\":8.1e-28,\
             \"factors\":15}",
        ),
        (
            "sample",
            "flat",
            &["--quiet", "--quadratic"],
            0,
            "\"same\",\"certain\":false,\"identical\":false,\"field\":\"p^2\",\"m\":2,\"count\":2,\"bound\":1.9e-37,\
             \"factors\":10}",
        ),
        (
            "sample",
            "flat",
            &["--point", "point"],
            0,
            "\"same\",\"certain\":false,\"identical\":false,\"field\":\"p\",\"m\":2,\"count\":1,\
             \"points_from\":\"point\",\"factors\":5,\"points\":[{\"rows\":[3],\"columns\":[4]}]}",
        ),
        (
            "single",
            "other",
            &["--points=2"],
            1,
            "\"different\",\"certain\":true,\"point\":1,\"row\":0,\"column\":0,\
             \"old_a\":1,\"old_b\":2,\"old_c\":3,\"new_a\":2,\"new_b\":2,\"new_c\":3,\
             \"field\":\"p\",\"m\":0,\"count\":2,\"factors\":0,\"points\":[{\"rows\":[],\"columns\":[]}]}",
        ),
        (
            "single",
            "sample",
            &["--quiet"],
            1,
            "\"different\",\"certain\":true,\"point\":1,\"row\":0,\"column\":0,\
             \"old_a\":1,\"old_b\":2,\"old_c\":3,\"new_a\":0,\"new_b\":0,\"new_c\":0,\
             \"field\":\"p\",\"m\":2,\
             \"old_row_bits\":0,\"old_column_bits\":0,\"new_row_bits\":1,\"new_column_bits\":1,\
             \"count\":3,\"factors\":5}",
        ),
    ] {
        let wanted = start(old, new) + wanted + "\n";
        let arguments = [&["compare", old, new, "--json"], options].concat();
        folder.run(&arguments).answers(status, &wanted);
        folder.write("list", format!("{old} {new}\n").as_bytes());
        let arguments = [&["compare", "--pairs", "list", "--json"], options].concat();
        folder.run(&arguments).answers(status, &wanted);
    }
    let bad = start("point", "flat")
        + "\"refused\",\"number\":3,\"place\":0,\"reason\":\"unknown kind\",\
           \"detail\":\"kind 72, and kinds are 01 to 08\",\"key\":\"old\"}\n";
    folder
        .run(&["compare", "point", "flat", "--json"])
        .answers(2, &bad);
    let bad = start("flat", "point")
        + "\"refused\",\"number\":3,\"place\":0,\"reason\":\"unknown kind\",\
           \"detail\":\"kind 72, and kinds are 01 to 08\",\"key\":\"new\"}\n";
    folder
        .run(&["compare", "flat", "point", "--json"])
        .answers(2, &bad);
    let ran = folder.run(&["compare", "sample", "flat", "--json"]);
    assert_eq!(ran.out.matches("{\"rows\":[").count(), 3, "{}", ran.out);
}

#[test]
fn a_name_of_any_characters_is_a_string() {
    let folder = Folder::new("json-names", &[("a\"b\\c\nd\u{1}é", &sample())]);
    let ran = folder.run(&["check", "--json", "a\"b\\c\nd\u{1}é"]);
    let start = "{\"command\":\"check\",\"file\":\"a\\\"b\\\\c\\u000ad\\u0001é\",\"status\":";
    assert!(ran.out.starts_with(start), "{}", ran.out);
    assert_eq!(ran.out.lines().count(), 1);
}

#[test]
fn a_run_without_pairs_is_an_object_too() {
    let folder = Folder::new("json-none", &[("sample", &sample()), ("list", b"\n")]);
    folder.folder("folder");
    for (arguments, wanted) in [
        (
            &["compare", "--pairs", "list", "--json"][..],
            "{\"command\":\"compare\",\"file\":\"list\",\"status\":\"failed\",\
             \"message\":\"there is no pair in \\\"list\\\"\"}\n",
        ),
        (
            &["compare", "sample", "folder", "--json"],
            "{\"command\":\"compare\",\"old\":\"sample\",\"new\":\"folder\",\"status\":\"failed\",\
             \"message\":\"\\\"folder\\\" is a folder and \\\"sample\\\" is none\"}\n",
        ),
    ] {
        let ran = folder.run(arguments);
        assert_eq!((ran.status, ran.out.as_str()), (Some(3), wanted));
        assert!(ran.errors.starts_with("morgana: "), "{}", ran.errors);
    }
}
