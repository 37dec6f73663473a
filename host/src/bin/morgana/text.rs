//! Answers as lines for people.

use crate::outcome::{About, Answer, Evaluation, Files, Moved, Outcome, Priced, Shorter, Source};
use crate::outcome::{Tried, Verdict};
use crate::output::Pieces;
use crate::points;
use crate::show::{bytes, counted, Line};
use morgana::{Counts, DifferingCell, Field, Rates, Values};
use std::iter;

/// The lines of an answer, in pieces; one of several is a line that names its files, and that of a copy names the copy's.
pub fn text(answer: &Answer, several: bool) -> Pieces<'_> {
    let files = match (&answer.files, several) {
        (Files::Copy(_, to), _) => format!("; {to}"),
        (_, false) => String::new(),
        (Files::One(file), true) => format!("; {file}"),
        (Files::Two(old, new), true) => format!(" {old} {new}"),
    };
    let lines = match &answer.outcome {
        Outcome::Checked(length, _, counts) => format!("{}{files}\n", checked(*length, counts)),
        Outcome::Shown(lines) => shown(lines),
        Outcome::Evaluated(_, evaluation) => evaluated(evaluation),
        Outcome::Celled(_, _, evaluated) => format!("{}\n", values(evaluated.values)),
        Outcome::Priced(priced) => priced_lines(priced),
        Outcome::Moved(moved) => format!("{}{files}\n", moved_line(moved)),
        Outcome::Compared(verdict, _) if several => {
            let word = format!("{}{files}", word(verdict));
            let parts: Vec<_> = said(word, verdict, in_short(verdict)).collect();
            parts.join("; ") + "\n"
        }
        Outcome::Compared(verdict, used) => {
            let parts = said(word(verdict).to_owned(), verdict, reason(verdict));
            let lines = parts.map(|line| line + "\n");
            return Box::new(lines.chain(used.iter().map(points::text)));
        }
        // The refusal of a point names no key, and that of one key of a pair not the other.
        Outcome::Refused(lines, refused) => match (&refused.about, several) {
            (About::Point(..), _) | (About::Old(_) | About::New(_), true) => {
                format!("{refused}; {}\n", keys(&answer.files))
            }
            _ => format!("{}{refused}\n", shown(lines)),
        },
        Outcome::Failed(failure) => match answer.files {
            Files::One(_) | Files::Copy(..) => format!("failed; {failure}\n"),
            Files::Two(..) => format!("failed{files}; {failure}\n"),
        },
    };
    Box::new(iter::once(lines))
}

/// The line of the factors of a whole run.
pub fn factors(count: u64) -> String {
    format!("factors {count}\n")
}

/// The keys that an answer is about.
fn keys(files: &Files) -> String {
    match files {
        Files::One(file) | Files::Copy(file, _) => format!("key {file}"),
        Files::Two(old, new) => format!("keys {old} {new}"),
    }
}

/// A line for each record.
fn shown(lines: &[Line]) -> String {
    lines.iter().map(Line::text).collect()
}

/// The line of an accepted key.
fn checked(length: usize, counts: &Counts) -> String {
    let Counts {
        arrays,
        cells,
        calls,
        rows,
        columns,
        ..
    } = counts;
    format!(
        "key {length} bytes arrays {arrays} cells {cells} calls {calls} rows {rows} columns {columns}"
    )
}

/// The lines of a price: in pence and in pounds, and what it is for.
fn priced_lines(priced: &Priced) -> String {
    let pence = match priced.pence {
        1 => "1 penny".to_owned(),
        pence => format!("{pence} pence"),
    };
    let pounds = format!("{}.{:02}", priced.pence / 100, priced.pence % 100);
    let Rates { cell, call, factor } = priced.rates;
    let (cells, calls, factors) = (priced.cells, priced.calls, priced.factors);
    let total = counted(priced.hundredths() as usize, "hundredth");
    format!(
        "price {pence}, {pounds} pounds\n\
         cells {cells} at {cell}, calls {calls} at {call}, factors {factors} at {factor}: \
         {total} of a penny\n"
    )
}

/// The line of a moved key, up to the copy's file.
fn moved_line(moved: &Moved) -> String {
    format!(
        "moved from {}, {}, to {}, {}",
        moved.edition,
        bytes(moved.bytes),
        moved.edition.other(),
        bytes(moved.to_bytes)
    )
}

/// The lines of an evaluation: the point, each array's number and values, and the key's values.
fn evaluated(evaluation: &Evaluation) -> String {
    let mut text = points::text(&evaluation.point);
    for (number, values) in evaluation.arrays.iter().enumerate() {
        text.push_str(&format!("{number}{}\n", numbers(values)));
    }
    if let Some(last) = evaluation.arrays.last() {
        let names = ["A", " B", " C"].into_iter();
        let values = last.chunks_exact(last.len() / 3);
        for (name, value) in names.zip(values) {
            text.push_str(name);
            text.push_str(&numbers(value));
        }
        text.push('\n');
    }
    text
}

/// The values of a cell.
fn values(Values { a, b, c }: Values) -> String {
    format!("A {a} B {b} C {c}")
}

/// Numbers, each behind a space.
fn numbers(numbers: &[u32]) -> String {
    numbers.iter().map(|number| format!(" {number}")).collect()
}

/// The verdict in a word.
fn word(verdict: &Verdict) -> &'static str {
    match verdict {
        Verdict::Identical(_) | Verdict::Same(..) => "same",
        Verdict::Different(..) => "different",
    }
}

/// What is said of two keys, in its order: the verdict in a word, their shapes where they are not one, the shorter key
/// where it is named, a cell in which they differ where it is shown, and a reason.
fn said(word: String, verdict: &Verdict, reason: String) -> impl Iterator<Item = String> {
    let shapes = verdict.shapes().map(|shapes| shapes.line());
    let shorter = verdict.shorter().map(shorter_line);
    let cell = verdict.cell().into_iter().flat_map(differing);
    let behind = shapes.into_iter().chain(shorter).chain(cell);
    iter::once(word).chain(behind).chain(iter::once(reason))
}

/// The lengths of two keys, the file of the shorter one, and the file that it was copied to, if it was.
fn shorter_line(shorter: &Shorter) -> String {
    let (old, new) = (shorter.old_bytes, shorter.new_bytes);
    let lengths = match shorter.is_new {
        true => format!("new is shorter, {} for {old}", bytes(new)),
        false if old == new => format!("both have {}", bytes(old)),
        false => format!("old is shorter, {} for {new}", bytes(old)),
    };
    let kept = shorter.kept.as_ref();
    let kept = kept.map_or(String::new(), |kept| format!(", kept as {kept}"));
    format!("{lengths}: {}{kept}", shorter.file)
}

/// A cell in which two keys differ: its place, the old key's values and the new key's.
fn differing(cell: DifferingCell) -> [String; 3] {
    [
        format!("at row {}, column {}", cell.row, cell.column),
        format!("old {}", values(cell.first)),
        format!("new {}", values(cell.second)),
    ]
}

/// What the verdict rests on.
fn reason(verdict: &Verdict) -> String {
    match verdict {
        Verdict::Identical(_) => "the files are identical, so this is certain".to_owned(),
        Verdict::Same(tried, _) if tried.m == 0 => {
            "the matrices have one place, and it was compared, so this is certain".to_owned()
        }
        Verdict::Same(tried, _) => match &tried.source {
            Source::Drawn(bound) => format!(
                "keys that differ would pass with probability at most {bound} {}",
                size(tried)
            ),
            Source::File(name) => format!(
                "at the {} of {name}; no bound is given, since they were not drawn here",
                points_count(tried.count)
            ),
        },
        Verdict::Different(difference, tried) => {
            format!("at point {} of {}", difference.point, tried.count)
        }
    }
}

/// The same in few words, for one of several pairs.
fn in_short(verdict: &Verdict) -> String {
    match verdict {
        Verdict::Identical(_) => "certain, identical files".to_owned(),
        Verdict::Same(tried, _) if tried.m == 0 => "certain, one place".to_owned(),
        Verdict::Same(tried, _) => match &tried.source {
            Source::Drawn(bound) => format!("bound {bound} {}", size(tried)),
            Source::File(name) => format!("no bound, {} of {name}", points_count(tried.count)),
        },
        Verdict::Different(..) => reason(verdict),
    }
}

/// What a bound goes by: the field where it is not that of p, the coordinates of a point and the number of points.
fn size(tried: &Tried) -> String {
    let field = match tried.field {
        Field::Prime => "",
        Field::Quadratic => "q = p², ",
    };
    let points = points_count(tried.count);
    format!("({field}m = {}, {points})", tried.m)
}

/// So many points, in words.
fn points_count(count: u32) -> String {
    match count {
        1 => "1 point".to_owned(),
        _ => format!("{count} points"),
    }
}

#[cfg(test)]
mod tests {
    use super::*;
    use crate::files::Name;
    use crate::outcome::Difference;
    use crate::shapes::Shapes;
    use morgana::{Likelihood, Point, P};

    /// An answer of compare with these points.
    fn answer(verdict: Verdict, used: &[Point]) -> Answer {
        let name = Name::from("f");
        Answer {
            command: "compare",
            files: Files::Two(name.clone(), name),
            outcome: Outcome::Compared(verdict, used.to_vec()),
        }
    }

    #[test]
    fn the_points_behind_every_verdict_can_be_read() {
        let used = [3, 4].map(|number| Point {
            rows: vec![number],
            columns: vec![],
        });
        let unequal = |old, new| Some(Shapes { old, new });
        let values = |a, b, c| Values { a, b, c };
        let cell = DifferingCell {
            row: 0,
            column: (1 << 30) - 1,
            first: values(0, P - 1, 1),
            second: values(0, 0, 0),
        };
        let different = |cell| Difference { point: 1, cell };
        for field in [Field::Prime, Field::Quadratic] {
            for (m, shapes) in [
                (0, None),
                (1, None),
                (60, None),
                (1, unequal([1, 0], [0, 0])),
                (7, unequal([3, 0], [3, 4])),
                (60, unequal([30, 1], [1, 30])),
            ] {
                for (count, file) in [(1, false), (1, true), (2, false), (2, true)] {
                    let tried = || Tried {
                        field,
                        m,
                        shapes,
                        count,
                        source: match file {
                            true => Source::File(Name::from("f")),
                            false => Source::Drawn(Likelihood::new(field, m, count)),
                        },
                        factors: u64::MAX,
                    };
                    let named = SHORTER.map(|it| Verdict::Same(tried(), Some(shorter(it))));
                    let others = [
                        Verdict::Same(tried(), None),
                        Verdict::Different(different(None), tried()),
                        Verdict::Different(different(Some(cell)), tried()),
                    ];
                    for verdict in named.into_iter().chain(others) {
                        let text: String = text(&answer(verdict, &used), false).collect();
                        let text = text + &factors(u64::MAX);
                        let read = points::parse(text.as_bytes(), field);
                        assert_eq!(read, Ok(used.to_vec()), "{text}");
                    }
                }
            }
        }
        let named = SHORTER.map(|it| Verdict::Identical(Some(shorter(it))));
        for verdict in named.into_iter().chain([Verdict::Identical(None)]) {
            let text: String = text(&answer(verdict, &used), false).collect();
            let read = points::parse(text.as_bytes(), Field::Prime);
            assert_eq!(read, Ok(used.to_vec()), "{text}");
        }
    }

    /// Lengths of an old key and of a new one, and the file that the shorter one was copied to, if it was.
    const SHORTER: [(usize, usize, Option<&str>); 6] = [
        (53, 45, None),
        (45, 53, None),
        (53, 53, None),
        (53, 45, Some("small.key")),
        (45, 53, Some("a \"}\nrows 1")),
        (65_536, 65_536, Some("}")),
    ];

    /// The shorter of two keys of these lengths.
    fn shorter((old_bytes, new_bytes, kept): (usize, usize, Option<&str>)) -> Shorter {
        let is_new = new_bytes < old_bytes;
        Shorter {
            is_new,
            file: Name::from(if is_new { "new.key" } else { "old.key" }),
            old_bytes,
            new_bytes,
            kept: kept.map(Name::from),
        }
    }

    #[test]
    fn the_shorter_key_is_named_with_both_lengths() {
        let wanted = [
            "new is shorter, 45 bytes for 53: \"new.key\"",
            "old is shorter, 45 bytes for 53: \"old.key\"",
            "both have 53 bytes: \"old.key\"",
            "new is shorter, 45 bytes for 53: \"new.key\", kept as \"small.key\"",
            r#"old is shorter, 45 bytes for 53: "old.key", kept as "a \"}\nrows 1""#,
            "both have 65536 bytes: \"old.key\", kept as \"}\"",
        ];
        assert_eq!(SHORTER.map(|it| shorter_line(&shorter(it))), wanted);
        let input = Shorter {
            file: Name::from("-"),
            ..shorter(SHORTER[1])
        };
        let wanted = "old is shorter, 45 bytes for 53: standard input";
        assert_eq!(shorter_line(&input), wanted);
    }

    #[test]
    fn the_shorter_key_stands_between_the_shapes_and_the_reason() {
        let tried = Tried {
            field: Field::Prime,
            m: 3,
            shapes: Some(Shapes {
                old: [1, 1],
                new: [2, 1],
            }),
            count: 1,
            source: Source::File(Name::from("p")),
            factors: 0,
        };
        let verdict = Verdict::Same(tried, Some(shorter(SHORTER[3])));
        let answer = answer(verdict, &[]);
        let shapes = "old has 1 row bit, new 2: compared as filled with zeros";
        let line = shorter_line(&shorter(SHORTER[3]));
        let of_one: String = text(&answer, false).collect();
        let start = format!("same\n{shapes}\n{line}\nat the 1 point of \"p\"; ");
        assert!(of_one.starts_with(&start), "{of_one}");
        let of_several: String = text(&answer, true).collect();
        let wanted = format!("same \"f\" \"f\"; {shapes}; {line}; no bound, 1 point of \"p\"\n");
        assert_eq!(of_several, wanted);
    }
}
