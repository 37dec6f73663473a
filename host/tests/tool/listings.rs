//! The commands that list a key: check and show.

use crate::keys::{call, cell, head, longest, recursive, sample, scaled, scaled_call, sparse};
use crate::support::Folder;

const LINES: [&str; 7] = [
    "      0  head       edition 1, row bits 1, column bits 1\n",
    "      3  sparse     array 0, row bits 0, column bits 1\n",
    "      6  cell       row 0, column 1, A 5, B 7, C 0\n",
    "     27  recursive  array 1, row bits 1, column bits 1\n",
    "     30  call       array 0 at row position 0, column position 0\n",
    "     41  call       array 0 at row position 0, column position 0\n",
    "     52  end\n",
];

#[test]
fn check_prints_the_counts() {
    let folder = Folder::new("check", &[("sample", &sample()), ("longest", &longest())]);
    folder.write("scaled", &scaled(2, 3));
    folder.run(&["check", "sample"]).answers(
        0,
        "key 53 bytes arrays 2 cells 1 calls 2 rows 1 columns 1\n",
    );
    folder.run(&["check", "scaled"]).answers(
        0,
        "key 61 bytes arrays 2 cells 1 calls 2 rows 1 columns 1\n",
    );
    folder.run(&["check", "longest"]).answers(
        0,
        "key 65536 bytes arrays 4 cells 3120 calls 0 rows 0 columns 0\n",
    );
}

#[test]
fn check_prints_the_refusal_of_a_key_that_is_too_long() {
    let over = [longest(), vec![0; 100_000]].concat();
    let folder = Folder::new("check-refused", &[("over", &over)]);
    folder.run(&["check", "over"]).answers(
        2,
        "refused 1 at 65536: key over 65,536 bytes; key \"over\"\n",
    );
}

#[test]
fn show_prints_each_record() {
    let folder = Folder::new("show", &[("sample", &sample())]);
    folder.run(&["show", "sample"]).answers(0, &LINES.concat());
}

#[test]
fn show_prints_the_factors_of_edition_2() {
    let folder = Folder::new("show-scaled", &[("scaled", &scaled(3, morgana::P - 1))]);
    let calls = [
        "     30  call       array 0 at row position 0, column position 0, factor 3\n",
        "     45  call       array 0 at row position 0, column position 0, factor 2147483646 = -1\n",
        "     60  end\n",
    ];
    let head = "      0  head       edition 2, row bits 1, column bits 1\n";
    let wanted = [head, &LINES[1..4].concat(), &calls.concat()].concat();
    folder.run(&["show", "scaled"]).answers(0, &wanted);
}

#[test]
fn show_marks_what_is_at_fault() {
    let start = [
        head(1, 1),
        sparse(0, 1),
        cell(0, 1, 5, 7, 0),
        recursive(1, 1),
    ]
    .concat();
    let mixed = [start.clone(), scaled_call(0, 0, 0, 1), vec![6]].concat();
    let later = [start, call(1, 0, 0), call(0, 0, 0), vec![6]].concat();
    let folder = Folder::new(
        "show-refused",
        &[
            ("later", &later),
            ("mixed", &mixed),
            ("cut", &sample()[..50]),
            ("behind", &[sample(), vec![1]].concat()),
            ("unknown", b"key"),
            ("empty", b""),
        ],
    );
    for (name, lines, marked, refusal) in [
        (
            "later",
            4,
            ">    30  call       array 1 at row position 0, column position 0, in array 1",
            "refused 9 at 30: called id not earlier; array 1 called in array 1, and only array 0 is earlier",
        ),
        (
            "mixed",
            4,
            ">    30  call       array 0 at row position 0, column position 0, factor 1, in array 1",
            "refused 4 at 30: record not allowed at this point, or end before any array; \
             a call of edition 2 in array 1, and the key is of edition 1",
        ),
        (
            "cut",
            5,
            ">    41  call       cut off: 9 of 11 bytes, in array 1",
            "refused 2 at 41: record missing or cut off; a call of edition 1 has 11 bytes and 9 are left",
        ),
        (
            "behind",
            7,
            ">    53  more       1 byte",
            "refused 13 at 53: bytes after the end; 1 byte",
        ),
        (
            "unknown",
            0,
            ">     0  unknown    kind 6b",
            "refused 3 at 0: unknown kind; kind 6b, and kinds are 01 to 08",
        ),
        (
            "empty",
            0,
            ">     0  missing    the key ends here",
            "refused 2 at 0: record missing or cut off; the key has 0 bytes and no end",
        ),
    ] {
        let lines = LINES[..lines].concat();
        let wanted = format!("{lines}{marked}\n{refusal}; key \"{name}\"\n");
        folder.run(&["show", name]).answers(2, &wanted);
    }
}

#[test]
fn show_prints_the_records_of_a_key_that_is_too_long() {
    let opened = [head(0, 0), sparse(0, 0), cell(0, 0, 1, 2, 3).repeat(4000)].concat();
    let files: [(&str, &[u8]); 2] = [("end", &[longest(), vec![6]].concat()), ("open", &opened)];
    let folder = Folder::new("show-long", &files);
    for (name, records, last) in [
        ("end", 3126, "  65535  end"),
        (
            "open",
            3122,
            "  65505  cell       row 0, column 0, A 1, B 2, C 3",
        ),
    ] {
        let ran = folder.run(&["show", name]);
        let lines: Vec<_> = ran.out.lines().collect();
        assert_eq!(lines.len(), records + 1);
        assert_eq!(lines[records - 1], last);
        let refused = format!("refused 1 at 65536: key over 65,536 bytes; key \"{name}\"");
        assert_eq!(lines[records], refused);
        assert_eq!((ran.status, ran.errors.as_str()), (Some(2), ""));
    }
}
