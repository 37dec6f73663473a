//! Refusals: what is known of each stands on its line.

use crate::keys::{call, cell, head, recursive, sample, scaled_call, scaled_head, sparse, END};
use crate::support::Folder;

/// A key that is refused, with its line up to the file's name.
fn refused() -> Vec<(Vec<u8>, &'static str)> {
    let p = morgana::P;
    let opened = |rest: Vec<u8>| [head(2, 1), sparse(1, 1), rest].concat();
    let calling = |rest: Vec<u8>| {
        [
            head(2, 1),
            sparse(1, 1),
            sparse(2, 0),
            recursive(2, 1),
            rest,
        ]
        .concat()
    };
    let scaled = |rest: Vec<u8>| [scaled_head(2, 1), sparse(1, 1), recursive(2, 1), rest].concat();
    let inner = |rest: Vec<u8>| [head(2, 1), sparse(2, 0), recursive(1, 0), rest].concat();
    let wider = |rest: Vec<u8>| [head(2, 1), sparse(0, 1), recursive(1, 0), rest].concat();
    vec![
        (vec![], "2 at 0: record missing or cut off; the key has 0 bytes and no end"),
        (vec![1], "2 at 0: record missing or cut off; a head has 3 bytes and 1 is left"),
        (
            opened(vec![4, 0]),
            "2 at 6: record missing or cut off; a cell has 21 bytes and 2 are left",
        ),
        (
            opened(vec![2, 0]),
            "2 at 6: record missing or cut off; the opening of a sparse array has 3 bytes and 2 are left",
        ),
        (opened(vec![]), "2 at 6: record missing or cut off; the key has 6 bytes and no end"),
        (
            calling(vec![5, 0, 0]),
            "2 at 12: record missing or cut off; a call of edition 1 has 11 bytes and 3 are left",
        ),
        (
            calling(scaled_call(0, 0, 0, 1)[..14].to_vec()),
            "2 at 12: record missing or cut off; a call of edition 2 has 15 bytes and 14 are left",
        ),
        (vec![7, 0], "2 at 0: record missing or cut off; a head has 3 bytes and 2 are left"),
        (vec![0], "3 at 0: unknown kind; kind 00, and kinds are 01 to 08"),
        (opened(vec![9]), "3 at 6: unknown kind; kind 09, and kinds are 01 to 08"),
        (opened(vec![171]), "3 at 6: unknown kind; kind ab, and kinds are 01 to 08"),
        (
            END.to_vec(),
            "4 at 0: record not allowed at this point, or end before any array; \
             the first record is the end, and a key begins with a head",
        ),
        (
            sparse(0, 0),
            "4 at 0: record not allowed at this point, or end before any array; \
             the first record is the opening of a sparse array, and a key begins with a head",
        ),
        (
            opened(head(0, 0)),
            "4 at 6: record not allowed at this point, or end before any array; a second head, of edition 1",
        ),
        (
            opened(scaled_head(0, 0)),
            "4 at 6: record not allowed at this point, or end before any array; a second head, of edition 2",
        ),
        (
            scaled(head(2, 1)),
            "4 at 9: record not allowed at this point, or end before any array; a second head, of edition 1",
        ),
        (
            scaled_call(0, 0, 0, 1),
            "4 at 0: record not allowed at this point, or end before any array; \
             the first record is a call of edition 2, and a key begins with a head",
        ),
        (
            scaled(call(9, 9, 9)),
            "4 at 9: record not allowed at this point, or end before any array; \
             a call of edition 1 in array 1, and the key is of edition 2",
        ),
        (
            calling(scaled_call(9, 9, 9, p)),
            "4 at 12: record not allowed at this point, or end before any array; \
             a call of edition 2 in array 2, and the key is of edition 1",
        ),
        (
            opened(scaled_call(0, 0, 0, 1)),
            "4 at 6: record not allowed at this point, or end before any array; \
             a call of edition 2 in array 0, which is sparse",
        ),
        (
            [head(0, 0), call(0, 0, 0)].concat(),
            "4 at 3: record not allowed at this point, or end before any array; a call of edition 1 before any array",
        ),
        (
            [head(0, 0), END.to_vec()].concat(),
            "4 at 3: record not allowed at this point, or end before any array; the end before any array",
        ),
        (
            opened(call(0, 0, 0)),
            "4 at 6: record not allowed at this point, or end before any array; \
             a call of edition 1 in array 0, which is sparse",
        ),
        (
            calling(cell(0, 0, 0, 0, 0)),
            "4 at 12: record not allowed at this point, or end before any array; \
             a cell in array 2, which is recursive",
        ),
        (scaled_head(31, 0), "5 at 0: head bits over 30, or array bits over the head's; row bits 31, at most 30"),
        (head(31, 99), "5 at 0: head bits over 30, or array bits over the head's; row bits 31, at most 30"),
        (head(30, 99), "5 at 0: head bits over 30, or array bits over the head's; column bits 99, at most 30"),
        (
            opened(sparse(3, 3)),
            "5 at 6: head bits over 30, or array bits over the head's; array 1 has row bits 3, and the head 2",
        ),
        (
            opened(recursive(2, 2)),
            "5 at 6: head bits over 30, or array bits over the head's; array 1 has column bits 2, and the head 1",
        ),
        (
            [head(0, 0), sparse(0, 0).repeat(1025)].concat(),
            "6 at 3075: a 1,025th array; arrays are numbered 0 to 1023",
        ),
        (
            opened(cell(2, 9, p, 0, 0)),
            "7 at 6: cell address outside its array; row 2 in array 0, whose rows are 0 to 1",
        ),
        (
            calling(vec![]).into_iter().chain(sparse(0, 0)).chain(cell(0, 1, 0, 0, 0)).collect(),
            "7 at 15: cell address outside its array; column 1 in array 3, whose columns are 0 alone",
        ),
        (
            opened(cell(0, 0, p, p, 0)),
            "8 at 6: cell value or factor p or more; A is 2147483647 in array 0, at most 2147483646",
        ),
        (
            opened([sparse(0, 0), cell(0, 0, 0, 0, u32::MAX)].concat()),
            "8 at 9: cell value or factor p or more; C is 4294967295 in array 1, at most 2147483646",
        ),
        (
            scaled(scaled_call(1, 9, 9, p)),
            "8 at 9: cell value or factor p or more; the factor is 2147483647 in array 1, at most 2147483646",
        ),
        (
            scaled([scaled_call(0, 0, 0, p - 1), scaled_call(0, 0, 0, u32::MAX)].concat()),
            "8 at 24: cell value or factor p or more; the factor is 4294967295 in array 1, at most 2147483646",
        ),
        (
            scaled(scaled_call(1, 9, 9, p - 1)),
            "9 at 9: called id not earlier; array 1 called in array 1, and only array 0 is earlier",
        ),
        (
            scaled(scaled_call(0, 2, 9, 0)),
            "11 at 9: call position too great; row position 2 of array 0 in array 1, at most 1",
        ),
        (
            [scaled_head(2, 1), sparse(2, 0), recursive(1, 0), scaled_call(0, 0, 0, 1)].concat(),
            "10 at 9: called array larger in rows or columns; array 0 has row bits 2, and array 1 1",
        ),
        (
            [head(0, 0), recursive(0, 0), call(0, 0, 0)].concat(),
            "9 at 6: called id not earlier; array 0 called in array 0, which has none before it",
        ),
        (
            inner(call(1, 0, 0)),
            "9 at 9: called id not earlier; array 1 called in array 1, and only array 0 is earlier",
        ),
        (
            calling(call(65535, 0, 0)),
            "9 at 12: called id not earlier; array 65535 called in array 2, and arrays 0 to 1 are earlier",
        ),
        (
            inner(call(0, 0, 0)),
            "10 at 9: called array larger in rows or columns; array 0 has row bits 2, and array 1 1",
        ),
        (
            wider(call(0, 9, 9)),
            "10 at 9: called array larger in rows or columns; array 0 has column bits 1, and array 1 0",
        ),
        (
            calling(call(0, 2, 9)),
            "11 at 12: call position too great; row position 2 of array 0 in array 2, at most 1",
        ),
        (
            calling(call(1, 0, 2)),
            "11 at 12: call position too great; column position 2 of array 1 in array 2, at most 1",
        ),
        (
            [head(5, 5), sparse(2, 3), recursive(5, 5), call(0, 7, 4)].concat(),
            "11 at 9: call position too great; column position 4 of array 0 in array 1, at most 3",
        ),
        (
            [head(5, 5), sparse(2, 3), recursive(5, 5), call(0, 8, 4)].concat(),
            "11 at 9: call position too great; row position 8 of array 0 in array 1, at most 7",
        ),
        (
            opened(END.to_vec()),
            "12 at 6: last array not of the head's shape; \
             array 0 has row bits 1 and column bits 1, the head 2 and 1",
        ),
        ([sample(), vec![1, 2]].concat(), "13 at 53: bytes after the end; 2 bytes"),
        ([sample(), vec![6]].concat(), "13 at 53: bytes after the end; 1 byte"),
    ]
}

#[test]
fn a_refused_key_is_told_with_the_field_that_breaks_the_rule() {
    let folder = Folder::new("refused-keys", &[("sample", &sample())]);
    for (key, line) in refused() {
        folder.write("key", &key);
        let wanted = format!("refused {line}; key \"key\"\n");
        for arguments in [
            &["check", "key"][..],
            &["evaluate", "key"],
            &["cell", "key", "0", "0"],
            &["move", "key", "--to", "copy"],
        ] {
            folder.run(arguments).answers(2, &wanted);
        }
        assert_eq!(folder.names(), ["key", "sample"]);
        let shown = folder.run(&["show", "key"]);
        assert_eq!(shown.status, Some(2));
        assert!(shown.out.ends_with(&wanted), "{}", shown.out);
        let marked = shown.out.lines().filter(|line| line.starts_with('>'));
        assert_eq!(marked.count(), 1, "{}", shown.out);
        for (old, new, age) in [("key", "sample", "old"), ("sample", "key", "new")] {
            let wanted = format!("refused {line}; {age} key \"key\"\n");
            for option in [&[][..], &["--quadratic"], &["--points", "4"]] {
                let arguments = [&["compare", old, new], option].concat();
                folder.run(&arguments).answers(2, &wanted);
            }
        }
    }
}

#[test]
fn the_array_of_what_is_at_fault_is_told() {
    let start = [head(2, 1), sparse(1, 1), sparse(0, 0), sparse(2, 1)].concat();
    let folder = Folder::new("in-arrays", &[]);
    for (rest, wanted) in [
        (
            cell(0, 0, 1, 2, 3)[..5].to_vec(),
            ">    12  cell       cut off: 5 of 21 bytes, in array 2\n",
        ),
        (vec![255], ">    12  unknown    kind ff, in array 2\n"),
        (
            cell(4, 0, 1, 2, 3),
            ">    12  cell       row 4, column 0, A 1, B 2, C 3, in array 2\n",
        ),
        (
            vec![3, 1],
            ">    12  recursive  array 3, cut off: 2 of 3 bytes\n",
        ),
        (
            sparse(3, 0),
            ">    12  sparse     array 3, row bits 3, column bits 0\n",
        ),
    ] {
        folder.write("key", &[start.clone(), rest].concat());
        let ran = folder.run(&["show", "key"]);
        assert!(ran.out.contains(wanted), "{}", ran.out);
    }
}

#[test]
fn each_number_of_a_key_is_among_them() {
    let numbers: Vec<_> = refused()
        .iter()
        .map(|(key, _)| morgana::check(key).expect_err("the key is refused").number)
        .collect();
    for number in 2..=13 {
        assert!(numbers.contains(&number), "{number}");
    }
}

#[test]
fn a_refused_point_is_told_with_what_is_wanted() {
    let folder = Folder::new(
        "points",
        &[("sample", &sample()), ("flat", &crate::keys::flat())],
    );
    for (point, option, wanted) in [
        (
            "rows\ncolumns 1 2\n",
            &[][..],
            "refused 21 at 0: row count not n (N for two keys, twice that over p²); 0 given, 1 wanted",
        ),
        (
            "rows 1\ncolumns 1 2\n",
            &[],
            "refused 22 at 2: column count not n' (N' for two keys, twice that over p²); 2 given, 1 wanted (2 with --quadratic)",
        ),
        (
            "rows 2147483647\ncolumns 2147483647\n",
            &[],
            "refused 23 at 0: coordinate p or more; row coordinate 0 is 2147483647, at most 2147483646",
        ),
        (
            "rows 1\ncolumns 4294967295\n",
            &[],
            "refused 23 at 1: coordinate p or more; column coordinate 0 is 4294967295, at most 2147483646",
        ),
        (
            "rows 1\ncolumns 1 2\n",
            &["--quadratic"],
            "refused 21 at 1: row count not n (N for two keys, twice that over p²); 1 given, 2 wanted (1 without --quadratic)",
        ),
        (
            "rows 1 2\ncolumns 1 2 3 4\n",
            &["--quadratic"],
            "refused 22 at 4: column count not n' (N' for two keys, twice that over p²); 4 given, 2 wanted",
        ),
        (
            "rows 2147483647 2\ncolumns 3 4\n",
            &["--quadratic"],
            "refused 23 at 0: coordinate p or more; u of row coordinate 0 is 2147483647, at most 2147483646",
        ),
        (
            "rows 1 2\ncolumns 3 2147483647\n",
            &["--quadratic"],
            "refused 23 at 3: coordinate p or more; v of column coordinate 0 is 2147483647, at most 2147483646",
        ),
    ] {
        folder.write("point", point.as_bytes());
        for (command, keys) in [
            (&["evaluate", "sample"][..], "key \"sample\""),
            (&["compare", "sample", "flat"], "keys \"sample\" \"flat\""),
        ] {
            let arguments = [command, &["--point", "point"], option].concat();
            let wanted = format!("{wanted}; point 1 of \"point\"; {keys}\n");
            folder.run(&arguments).answers(2, &wanted);
        }
    }
}

#[test]
fn rows_and_columns_have_their_own_count() {
    let key = [head(2, 1), sparse(2, 1), END.to_vec()].concat();
    let folder = Folder::new("oblong", &[("key", &key)]);
    for (point, option, wanted) in [
        (
            "rows 1\ncolumns 1\n",
            &[][..],
            "21 at 1: row count not n (N for two keys, twice that over p²); 1 given, 2 wanted",
        ),
        (
            "rows 1 2\ncolumns 1 2\n",
            &[],
            "22 at 2: column count not n' (N' for two keys, twice that over p²); 2 given, 1 wanted (2 with --quadratic)",
        ),
        (
            "rows 1 2 3 4\ncolumns 1\n",
            &["--quadratic"],
            "22 at 1: column count not n' (N' for two keys, twice that over p²); 1 given, 2 wanted (1 without --quadratic)",
        ),
        (
            "rows 1 2 3 4\ncolumns 1 4294967295\n",
            &["--quadratic"],
            "23 at 5: coordinate p or more; v of column coordinate 0 is 4294967295, at most 2147483646",
        ),
        (
            "rows 1 2 4294967295 4\ncolumns 1 2\n",
            &["--quadratic"],
            "23 at 2: coordinate p or more; u of row coordinate 1 is 4294967295, at most 2147483646",
        ),
    ] {
        folder.write("point", point.as_bytes());
        let arguments = [&["evaluate", "key", "--point", "point"], option].concat();
        let wanted = format!("refused {wanted}; point 1 of \"point\"; key \"key\"\n");
        folder.run(&arguments).answers(2, &wanted);
    }
    folder.run(&["cell", "key", "3", "2"]).answers(
        2,
        "refused 24 at 1: column outside the last array; column 2 given, and columns are 0 to 1; key \"key\"\n",
    );
}

#[test]
fn what_is_answered_before_a_refused_point_is_printed() {
    let folder = Folder::new("half", &[("sample", &sample())]);
    folder.write("two", b"rows 0\ncolumns 1\nrows 1\ncolumns\n");
    folder.run(&["evaluate", "sample", "--point=two"]).answers(
        2,
        "rows 0\ncolumns 1\n0 5 7 0\n1 10 14 0\nA 10 B 14 C 0\n\
         refused 22 at 0: column count not n' (N' for two keys, twice that over p²); 0 given, 1 wanted; point 2 of \"two\"; \
         key \"sample\"\nfactors 3\n",
    );
    let ran = folder.run(&["evaluate", "sample", "--point=two", "--json"]);
    ran.status(2);
    let statuses: Vec<_> = ran
        .out
        .lines()
        .map(|line| line.contains("\"status\":\"accepted\""))
        .collect();
    assert_eq!(statuses, [true, false], "{}", ran.out);
}

#[test]
fn of_several_pairs_a_refused_point_names_the_keys() {
    let folder = Folder::new(
        "points-of-many",
        &[("sample", &sample()), ("flat", &crate::keys::flat())],
    );
    folder.write("point", b"rows\ncolumns 1\n");
    folder.write("list", b"sample flat\nflat sample\n");
    let wanted = "refused 21 at 0: row count not n (N for two keys, twice that over p²); 0 given, 1 wanted; point 1 of \"point\"";
    folder
        .run(&["compare", "--pairs=list", "--point=point"])
        .answers(
            2,
            &format!("{wanted}; keys \"sample\" \"flat\"\n{wanted}; keys \"flat\" \"sample\"\n"),
        );
}
