//! Points as text: the two lines that write one, and the points in what evaluate and compare print.

use crate::decimal::decimal;
use crate::value::{Member, Value};
use morgana::{Field, Point};
use std::fmt::Write;

/// The verdicts that compare prints as lines.
const VERDICTS: [&str; 2] = ["same", "different"];

/// How the other lines begin that evaluate and compare print beside the points, but for those of values and factors.
const STARTS: [&str; 14] = [
    "same \"",
    "different \"",
    "old has ",
    "old is shorter, ",
    "new is shorter, ",
    "both have ",
    "at row ",
    "keys that differ would pass",
    "the files are identical",
    "the matrices have one place",
    "at point ",
    "at the ",
    "refused ",
    "failed",
];

/// What is wrong with a line of a point file.
#[derive(Debug, Clone, PartialEq, Eq)]
pub struct Fault {
    /// The line, counted from 1.
    pub line: usize,
    /// What is wrong.
    pub message: String,
}

/// The two lines that write a point.
pub fn text(point: &Point) -> String {
    let mut text = String::new();
    for (word, numbers) in [("rows", &point.rows), ("columns", &point.columns)] {
        text.push_str(word);
        for number in numbers {
            // Writing to a String cannot fail.
            let _ = write!(text, " {number}");
        }
        text.push('\n');
    }
    text
}

/// The points of a field in a text, one or more: pairs of lines `rows ...` and `columns ...`, and the points in lines of
/// JSON. Blank lines are skipped, and so is what evaluate and compare print beside the points.
pub fn parse(text: &[u8], field: Field) -> Result<Vec<Point>, Fault> {
    let mut points = Vec::new();
    let mut rows = None;
    let mut last = 1;
    for (bytes, line) in text.split(|byte| *byte == b'\n').zip(1..) {
        let fault = |message| Fault { line, message };
        let text = String::from_utf8_lossy(bytes);
        let text = text.trim_ascii();
        last = line;
        match (text.split_ascii_whitespace().next(), rows.take()) {
            (None, before) => rows = before,
            (Some("rows"), None) => rows = Some(coordinates(text).map_err(fault)?),
            (Some("columns"), Some(rows)) => points.push(Point {
                rows,
                columns: coordinates(text).map_err(fault)?,
            }),
            (_, Some(_)) => return Err(fault(r#"does not begin with "columns""#.to_owned())),
            _ if text.starts_with('{') => points.extend(of_json(text, field).map_err(fault)?),
            _ if !is_other(text) => return Err(fault(r#"does not begin with "rows""#.to_owned())),
            _ => {}
        }
    }
    let missing = |word| Fault {
        line: last,
        message: format!("the line of {word} is missing"),
    };
    match rows {
        Some(_) => Err(missing("columns")),
        None if points.is_empty() => Err(missing("rows")),
        None => Ok(points),
    }
}

/// Whether a line is one that evaluate or compare prints beside a point. None of them ends as an object of JSON does, which
/// may stand behind one where the end of the line was lost.
fn is_other(text: &str) -> bool {
    let of_values = |word: &str| ["A", "B", "C"].contains(&word) || decimal::<u32>(word).is_some();
    let of_key = ["old ", "new "]
        .iter()
        .find_map(|key| text.strip_prefix(key));
    let begins = STARTS.iter().any(|start| text.starts_with(start));
    let count = text.strip_prefix("factors ").and_then(decimal::<u64>);
    of_key.unwrap_or(text).split(' ').all(of_values)
        || VERDICTS.contains(&text)
        || count.is_some()
        || begins && !text.ends_with('}')
}

/// The numbers of a line behind its first word.
fn coordinates(text: &str) -> Result<Vec<u32>, String> {
    text.split_ascii_whitespace().skip(1).map(number).collect()
}

/// The number that a word writes. What is said of a long word that is none quotes its start.
fn number(word: &str) -> Result<u32, String> {
    let start: String = word.chars().take(20).collect();
    let more = if start.len() < word.len() { ".." } else { "" };
    decimal(word).ok_or_else(|| format!("{start:?}{more} is not a number from 0 to 4294967295"))
}

/// The points of a field in an object of JSON: those of its member `points`, or the one that its own `rows` and `columns`
/// make. An object without points must be one that the program prints, and then no member is a list or an object.
fn of_json(text: &str, field: Field) -> Result<Vec<Point>, String> {
    let members = Value::read(text)?.members();
    same_field(member(&members, "field"), field)?;
    let has_parts = |value| matches!(value, Value::List(_) | Value::Object(_));
    let listed = |name| member(&members, name).is_some_and(has_parts);
    let own = listed("rows") || listed("columns");
    match member(&members, "points") {
        Some(Value::List(_)) if own => Err("points stand beside rows or columns".to_owned()),
        Some(list @ Value::List(_)) => list.items().into_iter().map(of_object).collect(),
        Some(_) => Err("points is no list".to_owned()),
        None if own => Ok(vec![of_members(&members)?]),
        None => match members.iter().find(|(_, value)| has_parts(*value)) {
            Some((name, _)) => Err(format!("{name:?} is neither points nor rows and columns")),
            None if member(&members, "command").is_some() => Ok(Vec::new()),
            None => Err("an object of JSON has no rows".to_owned()),
        },
    }
}

/// Wants the field that an object names for its points to be this one.
fn same_field(given: Option<Value>, field: Field) -> Result<(), String> {
    let named = |name, field| name == field_name(field);
    let wrong = match given {
        None => return Ok(()),
        Some(Value::Text(name)) if named(name, field) => return Ok(()),
        Some(Value::Text(name)) if named(name, Field::Quadratic) => {
            "a point over p² goes with --quadratic"
        }
        Some(Value::Text(name)) if named(name, Field::Prime) => {
            "a point over p goes without --quadratic"
        }
        Some(_) => r#"a field is "p" or "p^2""#,
    };
    Err(wrong.to_owned())
}

/// The name of a field in JSON.
pub fn field_name(field: Field) -> &'static str {
    match field {
        Field::Prime => "p",
        Field::Quadratic => "p^2",
    }
}

/// The point that an object is.
fn of_object(object: Value) -> Result<Point, String> {
    of_members(&object.members())
}

/// The point that the members `rows` and `columns` make.
fn of_members(members: &[Member]) -> Result<Point, String> {
    let numbers = |name: &str| match member(members, name) {
        Some(list @ Value::List(_)) => list.items().into_iter().map(of_value).collect(),
        _ => Err(format!("a point of JSON has no list of {name}")),
    };
    Ok(Point {
        rows: numbers("rows")?,
        columns: numbers("columns")?,
    })
}

/// The value of the member with this name, if there is one.
fn member<'a>(members: &[Member<'a>], name: &str) -> Option<Value<'a>> {
    let found = members.iter().find(|(other, _)| *other == name);
    found.map(|(_, value)| *value)
}

/// The number that a value is.
fn of_value(value: Value) -> Result<u32, String> {
    match value {
        Value::Number(digits) => number(digits),
        _ => Err("a coordinate of JSON is no number".to_owned()),
    }
}

#[cfg(test)]
mod tests {
    use super::*;

    fn point(rows: &[u32], columns: &[u32]) -> Point {
        Point {
            rows: rows.to_vec(),
            columns: columns.to_vec(),
        }
    }

    fn read(text: &str) -> Result<Vec<Point>, Fault> {
        parse(text.as_bytes(), Field::Prime)
    }

    #[test]
    fn what_is_printed_can_be_read() {
        for (point, written) in [
            (point(&[3], &[4]), "rows 3\ncolumns 4\n"),
            (point(&[], &[]), "rows\ncolumns\n"),
            (
                point(&[0, 4294967295], &[2147483647, 1]),
                "rows 0 4294967295\ncolumns 2147483647 1\n",
            ),
        ] {
            assert_eq!(text(&point), written);
            assert_eq!(read(written), Ok(vec![point]));
        }
    }

    #[test]
    fn white_space_and_blank_lines_are_tolerated() {
        let text = "\n \t\r\n  rows\t3   5 \r\n\ncolumns 4\n\n  ";
        assert_eq!(read(text), Ok(vec![point(&[3, 5], &[4])]));
    }

    #[test]
    fn several_points_and_what_stands_beside_them_are_read() {
        let text = "different\nat row 0, column 3\nold A 1 B 2 C 3\nnew A 0 B 2147483646 C 3\nat point 2 of 3\n\
            same\nold has 0 row bits, new 1: compared as filled with zeros\n\
            new is shorter, 45 bytes for 53: \"new.key\"\nold is shorter, 7 bytes for 28: standard input, kept as \"f\"\n\
            both have 28 bytes: \"old.key\", kept as \"small.key\"\n\
            keys that differ would pass with probability at most 1.0e-38 (m = 2, 9 points)\n\
            rows 1\ncolumns 2\n0 20 28 0\nA 1 B 2 C 3\nfactors 3\nrows 3\ncolumns 4\nfactors 18446744073709551615\n";
        let wanted = vec![point(&[1], &[2]), point(&[3], &[4])];
        assert_eq!(read(text), Ok(wanted));
    }

    #[test]
    fn lines_of_json_are_read() {
        let text = r#"{"file":"\"rows\":[9],","points":[{"rows":[1],"columns":[2]},{"rows":[],"columns":[3,4]}]}
{ "rows" : [ 5 , 6 ], "columns" : [ ] }
{"columns":[8],"rows":[7]}
{"command":"check","rows":1,"columns":1}
{"command":"compare","old":"a","new":"b","status":"same","m":2,"old_row_bits":0,"old_column_bits":1,"new_row_bits":1,"new_column_bits":0}
{"command":"compare","old":"a","new":"b","status":"same","identical":true,"shorter":"old","old_bytes":7,"new_bytes":7,"kept":"f"}
{"command":"compare","old":"a b","status":"refused"}"#;
        let wanted = [
            (&[1][..], &[2][..]),
            (&[], &[3, 4]),
            (&[5, 6], &[]),
            (&[7], &[8]),
        ];
        let wanted = wanted.map(|(rows, columns)| point(rows, columns));
        assert_eq!(read(text), Ok(wanted.to_vec()));
    }

    #[test]
    fn json_that_has_not_whole_points_is_a_fault() {
        let good = r#"{"rows":[3],"columns":[4]}"#;
        for text in [
            r#"{"rows":[1"#,
            r#"{"points":[{"rows":[1],"columns":[2]}"#,
            r#"{"points":[{"Rows":[1],"columns":[2]},{"rows":[3],"columns":[4]}]}"#,
            r#"{"points":{"rows":[1],"columns":[2]}}"#,
            r#"{"Rows":[1],"columns":[2]}"#,
            r#"{"command":"evaluate","Rows":[1],"columns":[2]}"#,
            r#"{"rows":[1],"column":[2]}"#,
            r#"{"rows":[1],"columns":[2],"rows":[3]}"#,
            r#"{"rows":1,"columns":1}"#,
            r#"{"rows":[1,],"columns":[2]}"#,
            r#"{"rows":[1 2],"columns":[4]}"#,
            r#"{"rows":[1],"columns":[4]} rows 9"#,
            r#"{"rows":[-1],"columns":[2]}"#,
            r#"{"rows":[1.0],"columns":[2]}"#,
            r#"{"rows":["1"],"columns":[2]}"#,
            r#"{"rows":[01],"columns":[2]}"#,
            r#"{"command":"compare","field":"p","Points":[{"rows":[1],"columns":[2]}]}"#,
            r#"{"command":"compare","po\u0069nts":[{"rows":[1],"columns":[2]}]}"#,
            r#"{"points":[{"rows":[1],"columns":[2]}],"rows":[7],"columns":[8]}"#,
            r#"{"points":[],"columns":[8]}"#,
            r#"{"points":[[1],[2]]}"#,
            r#"{"field":"q","rows":[1],"columns":[2]}"#,
            r#"{"field":null,"rows":[1],"columns":[2]}"#,
            r#"A 1 B 2 C 3{"rows":[1],"columns":[2]}"#,
            r#"same{"rows":[1],"columns":[2]}"#,
            r#"at point 1 of 2{"rows":[1],"columns":[2]}"#,
            r#"at row 1, column 2{"rows":[1],"columns":[2]}"#,
            r#"old A 1 B 2 C 3{"rows":[1],"columns":[2]}"#,
            r#"old has 1 row bit, new 2: compared as filled with zeros{"rows":[1],"columns":[2]}"#,
            r#"factors 6{"rows":[1],"columns":[2]}"#,
            r#"new is shorter, 45 bytes for 53: "b"{"rows":[1],"columns":[2]}"#,
            r#"old is shorter, 45 bytes for 53: "a", kept as "f"{"rows":[1],"columns":[2]}"#,
            r#"both have 53 bytes: "a"{"rows":[1],"columns":[2]}"#,
            "A 1 B 2 C 3rows 4\ncolumns 5",
            "new A 1 B 2 C 3rows 4\ncolumns 5",
            "samerows 4\ncolumns 5",
            "factors 6rows 4\ncolumns 5",
        ] {
            assert_eq!(read(text).unwrap_err().line, 1, "{text}");
            assert_eq!(read(&format!("{good}\n{text}\n")).unwrap_err().line, 2);
        }
    }

    #[test]
    fn json_names_the_field_of_its_points() {
        let named = |name| format!(r#"{{"field":"{name}","rows":[1],"columns":[2]}}"#);
        for (field, other) in [
            (Field::Prime, Field::Quadratic),
            (Field::Quadratic, Field::Prime),
        ] {
            let text = named(field_name(field));
            let wanted = vec![point(&[1], &[2])];
            assert_eq!(parse(text.as_bytes(), field), Ok(wanted));
            let fault = parse(text.as_bytes(), other).unwrap_err();
            assert!(fault.message.contains("--quadratic"), "{}", fault.message);
        }
    }

    #[test]
    fn anything_else_is_a_fault_of_its_line() {
        for (text, line, message) in [
            ("", 1, "the line of rows is missing"),
            ("\n\n", 3, "the line of rows is missing"),
            ("same\n{}\n", 2, "an object of JSON has no rows"),
            ("same\n\n", 3, "the line of rows is missing"),
            ("rows 3\n", 2, "the line of columns is missing"),
            ("columns 4\nrows 3\n", 1, r#"does not begin with "rows""#),
            ("row 3\ncolumns 4\n", 1, r#"does not begin with "rows""#),
            ("0 x 1\n", 1, r#"does not begin with "rows""#),
            ("factors\n", 1, r#"does not begin with "rows""#),
            ("factors +1\n", 1, r#"does not begin with "rows""#),
            ("factors 1 2\n", 1, r#"does not begin with "rows""#),
            ("factor 1\n", 1, r#"does not begin with "rows""#),
            ("old had 1 row bit\n", 1, r#"does not begin with "rows""#),
            ("new has 1 row bit\n", 1, r#"does not begin with "rows""#),
            ("old\n", 1, r#"does not begin with "rows""#),
            ("old a 1\n", 1, r#"does not begin with "rows""#),
            ("old new A 1\n", 1, r#"does not begin with "rows""#),
            ("at rows 1\n", 1, r#"does not begin with "rows""#),
            ("old is longer\n", 1, r#"does not begin with "rows""#),
            ("new was shorter\n", 1, r#"does not begin with "rows""#),
            ("both had 1 byte\n", 1, r#"does not begin with "rows""#),
            (
                "factors 18446744073709551616\n",
                1,
                r#"does not begin with "rows""#,
            ),
            ("rows 3\nfactors 1\n", 2, r#"does not begin with "columns""#),
            ("rows 3\nrows 4\n", 2, r#"does not begin with "columns""#),
            ("rows 3\nsame\n", 2, r#"does not begin with "columns""#),
            (
                "rows 3\ncolumns 4\nrows\n",
                4,
                "the line of columns is missing",
            ),
            (
                "rows -3\ncolumns\n",
                1,
                r#""-3" is not a number from 0 to 4294967295"#,
            ),
            (
                "rows\n\ncolumns 1,2",
                3,
                r#""1,2" is not a number from 0 to 4294967295"#,
            ),
        ] {
            let message = message.to_owned();
            assert_eq!(read(text), Err(Fault { line, message }), "{text:?}");
        }
        let fault = parse(b"rows \xff\ncolumns\n", Field::Prime).unwrap_err();
        assert_eq!(fault.line, 1);
        let long = format!("rows {}\n", "7".repeat(30));
        let message = read(&long).unwrap_err().message;
        assert!(message.starts_with(&format!("{:?}.. is not", "7".repeat(20))));
    }
}
