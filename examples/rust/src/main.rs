//! Compares two key files, of any shapes, at as many random points over p² as
//! make it unlikely that keys that differ pass:
//!
//!     cargo run --release -- OLD NEW
//!
//! Prints `same` with the shorter key, `different` with a cell in which the
//! keys differ, or the refusal, and ends with 0, 1 or 2; with 3 where anything
//! else is wrong. (An output that is closed from the start is /dev/null to a
//! Rust program.)

use morgana::{CompareRefusal, DifferingCell, Field, Likelihood, Located, Point, RandomPoints};
use std::error::Error;
use std::ffi::OsString;
use std::fs::File;
use std::io::{self, Read, Write};
use std::process::ExitCode;

fn main() -> ExitCode {
    let files: Vec<_> = std::env::args_os().skip(1).collect();
    let compared = match files.as_slice() {
        [old, new] => compare(old, new),
        _ => Err("usage: compare OLD NEW".into()),
    };
    let (status, text) = match compared {
        Ok(Answer::Same(bound, shorter)) => (
            0,
            format!(
                "same\nkeys that differ would pass with probability at most {bound}\n\
                 keep the {shorter}"
            ),
        ),
        Ok(Answer::Different(Located::Differs(cell))) => (1, different(cell)),
        Ok(Answer::Different(_)) => (1, "different".to_owned()),
        Err(error) if error.is::<CompareRefusal>() => (2, error.to_string()),
        Err(error) => return fail(&*error),
    };
    match writeln!(io::stdout(), "{text}") {
        Ok(()) => ExitCode::from(status),
        Err(error) => fail(&error),
    }
}

fn fail(error: &dyn Error) -> ExitCode {
    eprintln!("compare: {error}");
    ExitCode::from(3)
}

/// What is printed of keys that differ in a cell.
fn different(cell: DifferingCell) -> String {
    let (row, column) = (cell.row, cell.column);
    let [old, new] =
        [cell.first, cell.second].map(|it| format!("A {} B {} C {}", it.a, it.b, it.c));
    format!("different\nat row {row}, column {column}\nold {old}\nnew {new}")
}

/// What is found of two keys.
enum Answer {
    /// They are the same, so unlikely is it that keys that differ pass, and
    /// this is the shorter one with its length.
    Same(Likelihood, String),
    /// They are different, and this is what locate answers of them.
    Different(Located),
}

/// Compares the keys in two files.
fn compare(old: &OsString, new: &OsString) -> Result<Answer, Box<dyn Error>> {
    // Both keys are at hand before a point is drawn: the bound speaks of such
    // points alone.
    let (old, new) = (read(old)?, read(new)?);
    let (row_bits, column_bits) = match (morgana::check(&old), morgana::check(&new)) {
        (Ok(one), Ok(other)) => one.larger_shape(other),
        _ => (0, 0), // compare refuses a key and says why
    };
    let field = Field::Quadratic;
    let count = Likelihood::points(field, row_bits + column_bits);
    let mut points = RandomPoints::new(row_bits, column_bits, field)?;
    let mut sheet = [0; morgana::SHEET_QUADRATIC];
    let mut shorter = &old[..0];
    for _ in 0..count {
        let Point { rows, columns } = points.draw()?;
        let same = morgana::compare_quadratic(&old, &new, &rows, &columns, &mut sheet)?.same;
        // Shorter and locate take a point over p. At the u of a random point
        // keys that differ are found the same less than once in 35 million
        // times; where they are different there, the shorter is empty.
        let (rows, columns) = (keep_u(&rows), keep_u(&columns));
        shorter = morgana::shorter(&old, &new, &rows, &columns, &mut sheet);
        if !same || shorter.is_empty() {
            let located = morgana::locate(&old, &new, &rows, &columns, &mut sheet)?;
            return Ok(Answer::Different(located));
        }
    }
    let name = match std::ptr::eq(shorter, &new[..]) {
        true => "new",
        false => "old",
    };
    let bound = Likelihood::new(field, row_bits + column_bits, count);
    let shorter = format!("{name}, {} bytes", shorter.len());
    Ok(Answer::Same(bound, shorter))
}

/// The u of some coordinates u + v·i.
fn keep_u(numbers: &[u32]) -> Vec<u32> {
    numbers.iter().step_by(2).copied().collect()
}

/// The key in a file, or as much of it as shows that it is too long.
fn read(path: &OsString) -> Result<Vec<u8>, String> {
    let mut key = Vec::new();
    let most = morgana::KEY_LIMIT as u64 + 1;
    File::open(path)
        .and_then(|file| file.take(most).read_to_end(&mut key))
        .map_err(|error| format!("{path:?}: {error}"))?;
    Ok(key)
}
