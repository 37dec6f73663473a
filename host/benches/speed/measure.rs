//! Timing in rounds that alternate, medians, and the rows of the table.

use std::fmt;
use std::time::Instant;

/// The number of rounds that are timed.
const ROUNDS: usize = 301;
/// The number of rounds before them that are not.
const WARMING: usize = 10;
/// A round repeats its call until it takes about this many nanoseconds.
const ROUND: f64 = 200_000.0;

/// The median nanoseconds per call of each of these calls, timed in turn in every round.
pub fn alternate<const N: usize>(mut calls: [&mut dyn FnMut() -> bool; N]) -> [f64; N] {
    let mut repeats = [1; N];
    for (call, repeats) in calls.iter_mut().zip(&mut repeats) {
        for _ in 0..WARMING {
            let each = time(call, *repeats);
            *repeats = (ROUND / each).ceil() as usize;
        }
    }
    let mut times = [(); N].map(|()| Vec::with_capacity(ROUNDS));
    for _ in 0..ROUNDS {
        for ((call, repeats), times) in calls.iter_mut().zip(repeats).zip(&mut times) {
            times.push(time(call, repeats));
        }
    }
    times.map(median)
}

/// The nanoseconds per call of so many calls.
fn time(call: &mut dyn FnMut() -> bool, repeats: usize) -> f64 {
    let start = Instant::now();
    for _ in 0..repeats {
        assert!(call(), "a call that is timed is not refused");
    }
    start.elapsed().as_nanos() as f64 / repeats as f64
}

/// The median of some numbers.
pub fn median(mut numbers: Vec<f64>) -> f64 {
    numbers.sort_by(f64::total_cmp);
    numbers[numbers.len() / 2]
}

/// A row of the table: nanoseconds per call of the archive, of the Rust pass by factors, of the Rust
/// pass by tables, and of a loop for reference.
pub struct Row {
    pub call: &'static str,
    pub sample: &'static str,
    pub bytes: usize,
    pub factors: Option<usize>,
    pub archive: f64,
    pub rust: f64,
    pub tables: Option<f64>,
    pub reference: Option<(&'static str, f64)>,
}

impl Row {
    /// The archive's time by that of the better Rust pass, where there are two.
    pub fn best(&self) -> Option<f64> {
        Some(self.archive / self.rust.min(self.tables?))
    }

    /// The names of the columns.
    pub fn heading() -> String {
        format!(
            "{:<8} {:<13} {:>6} {:>7} | {:>10} {:>8} {:>6} | {:>9} {:>6} | {:>5} | \
             {:>9} {:>6} | {:>9} {:>6} | {}",
            "call",
            "key",
            "bytes",
            "factors",
            "archive ns",
            "Rust ns",
            "ratio",
            "tables ns",
            "ratio",
            "best",
            "ns/byte",
            "Rust",
            "ns/factor",
            "Rust",
            "reference ns, part of the archive's time"
        )
    }
}

impl fmt::Display for Row {
    fn fmt(&self, out: &mut fmt::Formatter<'_>) -> fmt::Result {
        let per = |time: f64, count: Option<usize>| match count {
            None | Some(0) => "-".into(),
            Some(count) => format!("{:.3}", time / count as f64),
        };
        let none = || ["-".into(), "-".into()];
        let [tables, ratio] = self.tables.map_or_else(none, |time| {
            [format!("{time:.0}"), format!("{:.2}", self.archive / time)]
        });
        let best = self.best().map_or("-".into(), |best| format!("{best:.2}"));
        write!(
            out,
            "{:<8} {:<13} {:>6} {:>7} | {:>10.0} {:>8.0} {:>6.2} | {tables:>9} {ratio:>6} | \
             {best:>5} | {:>9} {:>6} | {:>9} {:>6} |",
            self.call,
            self.sample,
            self.bytes,
            self.factors.map_or("-".into(), |count| count.to_string()),
            self.archive,
            self.rust,
            self.archive / self.rust,
            per(self.archive, Some(self.bytes)),
            per(self.rust, Some(self.bytes)),
            per(self.archive, self.factors),
            per(self.rust, self.factors),
        )?;
        if let Some((name, time)) = self.reference {
            let part = 100.0 * time / self.archive;
            write!(out, " {name} {time:.0}, {part:.0} %")?;
        }
        Ok(())
    }
}
