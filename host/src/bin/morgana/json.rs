//! Answers as lines of JSON, one object a line (docs/JSON.md).

use crate::outcome::{About, Answer, Evaluation, Files, Outcome, Priced, Refused, Shorter, Source};
use crate::outcome::{Tried, Verdict};
use crate::output::Pieces;
use crate::points::field_name;
use crate::records::{Edition, Record, Untaken};
use crate::show::{Entry, Line};
use morgana::{Counts, DifferingCell, Field, Point, Values};
use std::iter;

/// The lines of an answer, in pieces.
pub fn json(answer: &Answer) -> Pieces<'_> {
    let open = || Object::of(answer);
    let lines = match &answer.outcome {
        Outcome::Compared(verdict, used) => return compared(open(), verdict, used),
        Outcome::Checked(length, edition, counts) => {
            checked(open().status("accepted"), *length, *edition, counts)
        }
        Outcome::Shown(lines) => shown(open, lines) + &open().status("accepted").line(),
        Outcome::Evaluated(field, evaluation) => {
            evaluated(open().status("accepted"), *field, evaluation)
        }
        Outcome::Celled(row, column, evaluated) => {
            let Values { a, b, c } = evaluated.values;
            let numbers = [
                ("row", *row),
                ("column", *column),
                ("a", a),
                ("b", b),
                ("c", c),
            ];
            let object = open().status("accepted").numbers(&numbers);
            object.factors(evaluated.factors).line()
        }
        Outcome::Priced(priced) => self::priced(open().status("accepted"), priced),
        Outcome::Moved(moved) => open()
            .status("accepted")
            .number("bytes", moved.bytes)
            .number("edition", moved.edition.number())
            .number("to_bytes", moved.to_bytes)
            .number("to_edition", moved.edition.other().number())
            .line(),
        Outcome::Refused(lines, refused) => {
            shown(open, lines) + &refusal(open().status("refused"), refused)
        }
        Outcome::Failed(failure) => {
            let message = failure.to_string();
            open().status("failed").string("message", &message).line()
        }
    };
    Box::new(iter::once(lines))
}

/// An object in the making: its text up to the last member.
struct Object(String);

impl Object {
    /// An object with the command and the files of an answer.
    fn of(answer: &Answer) -> Object {
        let object = Object(String::new()).string("command", answer.command);
        match &answer.files {
            Files::One(file) => object.string("file", &file.text()),
            Files::Two(old, new) => object.string("old", &old.text()).string("new", &new.text()),
            Files::Copy(file, to) => object.string("file", &file.text()).string("to", &to.text()),
        }
    }

    /// The object with one more member, whose value is JSON.
    fn value(mut self, name: &str, value: &str) -> Object {
        self.0.push(if self.0.is_empty() { '{' } else { ',' });
        self.0.push_str(&format!("\"{name}\":{value}"));
        self
    }

    /// The object with a text.
    fn string(self, name: &str, text: &str) -> Object {
        self.value(name, &quoted(text))
    }

    /// The object with a number.
    fn number(self, name: &str, number: impl ToString) -> Object {
        self.value(name, &number.to_string())
    }

    /// The object with some numbers.
    fn numbers(self, numbers: &[(&str, u32)]) -> Object {
        let add = |object: Object, (name, number): &(&str, u32)| object.number(name, number);
        numbers.iter().fold(self, add)
    }

    /// The object with a count of factors.
    fn factors(self, factors: u64) -> Object {
        self.number("factors", factors)
    }

    /// The object with a truth value.
    fn truth(self, name: &str, truth: bool) -> Object {
        self.value(name, if truth { "true" } else { "false" })
    }

    /// The object with its status.
    fn status(self, status: &str) -> Object {
        self.string("status", status)
    }

    /// The object as a line.
    fn line(self) -> String {
        self.0 + "}\n"
    }
}

/// A text as a JSON string.
fn quoted(text: &str) -> String {
    let escaped = text.chars().map(|character| match character {
        '"' => "\\\"".to_owned(),
        '\\' => "\\\\".to_owned(),
        control if control < ' ' => format!("\\u{:04x}", control as u32),
        other => other.to_string(),
    });
    format!("\"{}\"", escaped.collect::<String>())
}

/// A list of JSON values.
fn list(values: impl IntoIterator<Item = impl ToString>) -> String {
    let values: Vec<_> = values.into_iter().map(|value| value.to_string()).collect();
    format!("[{}]", values.join(","))
}

/// The line of an accepted key.
fn checked(object: Object, length: usize, edition: Edition, counts: &Counts) -> String {
    object
        .number("bytes", length)
        .number("arrays", counts.arrays)
        .number("cells", counts.cells)
        .number("calls", counts.calls)
        .number("rows", counts.rows)
        .number("columns", counts.columns)
        .number("edition", edition.number())
        .line()
}

/// A line for each record.
fn shown(open: impl Fn() -> Object, lines: &[Line]) -> String {
    lines.iter().map(|line| record(open(), line)).collect()
}

/// The line of a record.
fn record(object: Object, line: &Line) -> String {
    let object = object.number("offset", line.at).truth("fault", line.fault);
    let (kind, fields) = match line.entry {
        Entry::Record(record) => (record.kind().name(), fields(record)),
        Entry::Untaken(Untaken::Missing) => ("missing", vec![]),
        Entry::Untaken(Untaken::Unknown(byte)) => ("unknown", vec![("byte", byte.into())]),
        Entry::Untaken(Untaken::Cut(kind, left)) => {
            let wanted = kind.length() as u32;
            (kind.name(), vec![("wanted", wanted), ("left", left as u32)])
        }
        Entry::Behind(count) => ("more", vec![("left", count as u32)]),
    };
    let object = object.string("kind", kind);
    let object = match line.array {
        Some(array) => object.number("array", array),
        None => object,
    };
    object.numbers(&fields).line()
}

/// The fields of a record with their names.
fn fields(record: Record) -> Vec<(&'static str, u32)> {
    match record {
        Record::Head {
            edition,
            rows,
            columns,
        } => vec![
            ("edition", edition.number()),
            ("row_bits", rows.into()),
            ("column_bits", columns.into()),
        ],
        Record::Sparse { rows, columns } | Record::Recursive { rows, columns } => {
            vec![("row_bits", rows.into()), ("column_bits", columns.into())]
        }
        Record::Cell {
            row,
            column,
            a,
            b,
            c,
        } => {
            vec![
                ("row", row),
                ("column", column),
                ("a", a),
                ("b", b),
                ("c", c),
            ]
        }
        Record::Call {
            id,
            row,
            column,
            factor,
        } => {
            let fields = vec![
                ("id", id.into()),
                ("row_position", row),
                ("column_position", column),
            ];
            let factor = factor.map(|factor| ("factor", factor));
            fields.into_iter().chain(factor).collect()
        }
        Record::End => vec![],
    }
}

/// The line of an evaluation.
fn evaluated(object: Object, field: Field, evaluation: &Evaluation) -> String {
    let value = |numbers: &[u32]| match numbers {
        [number] => number.to_string(),
        _ => list(numbers),
    };
    let triple = |array: &Vec<u32>| {
        let values = array.chunks_exact(field.numbers());
        values.map(value).collect::<Vec<_>>()
    };
    let arrays = evaluation.arrays.iter().map(|array| list(triple(array)));
    let object = with_point(object.string("field", field_name(field)), &evaluation.point)
        .value("arrays", &list(arrays));
    let last = evaluation.arrays.last().map(triple).unwrap_or_default();
    let names = ["a", "b", "c"].into_iter();
    names
        .zip(last)
        .fold(object, |object, (name, value)| object.value(name, &value))
        .factors(evaluation.factors)
        .line()
}

/// The line of a price.
fn priced(object: Object, priced: &Priced) -> String {
    let rates = priced.rates;
    object
        .number("cells", priced.cells)
        .number("calls", priced.calls)
        .factors(priced.factors)
        .number("per_cell", rates.cell)
        .number("per_call", rates.call)
        .number("per_factor", rates.factor)
        .number("hundredths", priced.hundredths())
        .number("pence", priced.pence)
        .line()
}

/// An object with a point's numbers.
fn with_point(object: Object, point: &Point) -> Object {
    let rows = object.value("rows", &list(&point.rows));
    rows.value("columns", &list(&point.columns))
}

/// The line of a comparison, in pieces: the last member has the points.
fn compared<'a>(object: Object, verdict: &Verdict, points: &'a [Point]) -> Pieces<'a> {
    let object = with_verdict(object, verdict);
    if points.is_empty() {
        return Box::new(iter::once(object.line()));
    }
    let commas = iter::once("").chain(iter::repeat(","));
    let points = commas.zip(points).map(|(comma, point)| {
        let object = with_point(Object(String::new()), point);
        format!("{comma}{}}}", object.0)
    });
    let start = iter::once(object.value("points", "[").0);
    Box::new(start.chain(points).chain(iter::once("]}\n".to_owned())))
}

/// An object with what is found of two keys.
fn with_verdict(object: Object, verdict: &Verdict) -> Object {
    let (object, tried) = match verdict {
        Verdict::Identical(shorter) => {
            let object = object.status("same").truth("certain", true);
            return with_shorter(object.truth("identical", true), shorter);
        }
        Verdict::Same(tried, shorter) => {
            let object = object.status("same").truth("certain", tried.m == 0);
            (
                with_shorter(object.truth("identical", false), shorter),
                tried,
            )
        }
        Verdict::Different(difference, tried) => {
            let object = object.status("different").truth("certain", true);
            let object = object.number("point", difference.point);
            (with_cell(object, difference.cell), tried)
        }
    };
    with_tried(object, verdict, tried)
}

/// An object with the shorter of two keys, if it is named.
fn with_shorter(object: Object, shorter: &Option<Shorter>) -> Object {
    let Some(shorter) = shorter else {
        return object;
    };
    let object = object
        .string("shorter", if shorter.is_new { "new" } else { "old" })
        .number("old_bytes", shorter.old_bytes)
        .number("new_bytes", shorter.new_bytes);
    match &shorter.kept {
        Some(file) => object.string("kept", &file.text()),
        None => object,
    }
}

/// An object with a cell in which two keys differ, if there is one to show.
fn with_cell(object: Object, cell: Option<DifferingCell>) -> Object {
    let Some(cell) = cell else { return object };
    let (old, new) = (cell.first, cell.second);
    object.numbers(&[
        ("row", cell.row),
        ("column", cell.column),
        ("old_a", old.a),
        ("old_b", old.b),
        ("old_c", old.c),
        ("new_a", new.a),
        ("new_b", new.b),
        ("new_c", new.c),
    ])
}

/// An object with the points that were tried, the shapes where they are not one, the bound on keys that differ where there
/// is one, and the factors.
fn with_tried(object: Object, verdict: &Verdict, tried: &Tried) -> Object {
    let object = object
        .string("field", field_name(tried.field))
        .number("m", tried.m);
    let object = match tried.shapes {
        Some(shapes) => object.numbers(&[
            ("old_row_bits", shapes.old[0]),
            ("old_column_bits", shapes.old[1]),
            ("new_row_bits", shapes.new[0]),
            ("new_column_bits", shapes.new[1]),
        ]),
        None => object,
    };
    let object = object.number("count", tried.count);
    match &tried.source {
        Source::File(file) => object.string("points_from", &file.text()),
        Source::Drawn(bound) if matches!(verdict, Verdict::Same(..)) && !bound.is_zero() => {
            object.number("bound", bound)
        }
        Source::Drawn(_) => object,
    }
    .factors(tried.factors)
}

/// The line of a refusal.
fn refusal(object: Object, refused: &Refused) -> String {
    let object = object
        .number("number", refused.refusal.number)
        .number("place", refused.refusal.place)
        .string("reason", refused.refusal.sentence());
    let object = match &refused.detail {
        Some(detail) => object.string("detail", detail),
        None => object,
    };
    match &refused.about {
        About::Old(_) => object.string("key", "old"),
        About::New(_) => object.string("key", "new"),
        About::Point(name, number) => object
            .string("points_from", &name.text())
            .number("point", number),
        About::Key(_) | About::Both => object,
    }
    .line()
}
