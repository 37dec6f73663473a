//! What the program answers, and how it ends.

use crate::files::Name;
use crate::records::Edition;
use crate::shapes::Shapes;
use crate::show::Line;
use morgana::{Counts, DifferingCell, Evaluated, Field, Likelihood, Point, Rates, Refusal, Values};
use std::fmt::{Display, Formatter};
use std::io;

/// What an answer says, as the exit status; of several answers the greatest counts.
#[derive(Debug, Clone, Copy, PartialEq, Eq, PartialOrd, Ord)]
pub enum Status {
    /// The key is accepted, or the keys are the same.
    Accepted = 0,
    /// The keys are different.
    Different = 1,
    /// The library refuses.
    Refused = 2,
    /// Wrong usage, a file that cannot be read or written, or output that cannot be written.
    Failed = 3,
}

/// An answer about a key or about two.
#[derive(Debug)]
pub struct Answer {
    /// The command that asked.
    pub command: &'static str,
    /// What it asked about.
    pub files: Files,
    /// What there is to say.
    pub outcome: Outcome,
}

/// The files that an answer is about.
#[derive(Debug, Clone)]
pub enum Files {
    /// One key.
    One(Name),
    /// An old key and a new one.
    Two(Name, Name),
    /// A key, and the file that its copy goes to.
    Copy(Name, Name),
}

/// What there is to say of some files.
#[derive(Debug)]
pub enum Outcome {
    /// The key's length, edition and counts.
    Checked(usize, Edition, Counts),
    /// The key's records.
    Shown(Vec<Line>),
    /// The key's values at a point.
    Evaluated(Field, Evaluation),
    /// What cell answers of the key at a row and a column.
    Celled(u32, u32, Evaluated<Values>),
    /// What an evaluation of the key costs.
    Priced(Priced),
    /// Whether two keys are the same, and the points behind that.
    Compared(Verdict, Vec<Point>),
    /// A key's copy in the other edition is written.
    Moved(Moved),
    /// The refusal of the library, and of `show` the records up to the one at fault.
    Refused(Vec<Line>, Refused),
    /// Something that kept the program from an answer.
    Failed(Failure),
}

/// A key's values at a point.
#[derive(Debug)]
pub struct Evaluation {
    /// The point.
    pub point: Point,
    /// Every array's numbers: those of A, then of B, then of C.
    pub arrays: Vec<Vec<u32>>,
    /// The key's count of factors.
    pub factors: u64,
}

/// What an evaluation of a key costs.
#[derive(Debug)]
pub struct Priced {
    /// How many cells the key has.
    pub cells: u32,
    /// How many calls.
    pub calls: u32,
    /// Its count of factors.
    pub factors: u64,
    /// What it is priced by, in hundredths of a penny.
    pub rates: Rates,
    /// The price.
    pub pence: u64,
}

/// A key that was moved.
#[derive(Debug)]
pub struct Moved {
    /// Its edition, and so that its copy is of the other.
    pub edition: Edition,
    /// Its length.
    pub bytes: usize,
    /// Its copy's length.
    pub to_bytes: usize,
}

/// Whether two keys are the same.
#[derive(Debug)]
pub enum Verdict {
    /// The files have the same bytes; the shorter, where it is named.
    Identical(Option<Shorter>),
    /// The keys are the same at every point; the shorter, where it is named.
    Same(Tried, Option<Shorter>),
    /// The keys are different.
    Different(Difference, Tried),
}

/// The shorter of two keys that are the same.
#[derive(Debug)]
pub struct Shorter {
    /// Whether it is the new one; it is the old one where both have one length.
    pub is_new: bool,
    /// Its file.
    pub file: Name,
    /// The old key's length.
    pub old_bytes: usize,
    /// The new key's length.
    pub new_bytes: usize,
    /// The file that it was copied to, if it was.
    pub kept: Option<Name>,
}

/// Where two keys are different.
#[derive(Debug)]
pub struct Difference {
    /// The number of the point that shows it, the last that was tried, counted from 1.
    pub point: u32,
    /// A cell in which they differ, unless none is wanted.
    pub cell: Option<DifferingCell>,
}

/// The points at which keys were compared.
#[derive(Debug)]
pub struct Tried {
    /// The field that they are from.
    pub field: Field,
    /// The coordinates of a point.
    pub m: u32,
    /// The shapes of the two keys, where they are not one.
    pub shapes: Option<Shapes>,
    /// How many points there are.
    pub count: u32,
    /// The file that they are from, or how likely keys that differ pass at as many random ones.
    pub source: Source,
    /// The counts of factors of both keys together, added up over the points that were tried.
    pub factors: u64,
}

/// Where points are from.
#[derive(Debug)]
pub enum Source {
    /// They were drawn at random: the bound on the probability that keys that differ pass.
    Drawn(Likelihood),
    /// A file has them.
    File(Name),
}

/// A refusal with what is known of it.
#[derive(Debug)]
pub struct Refused {
    /// Its number and its place.
    pub refusal: Refusal,
    /// What breaks the rule, where the sentence does not say it.
    pub detail: Option<String>,
    /// What it is about.
    pub about: About,
}

/// What a refusal is about.
#[derive(Debug, Clone, PartialEq, Eq)]
pub enum About {
    /// The key of a command that takes one.
    Key(Name),
    /// The old key.
    Old(Name),
    /// The new key.
    New(Name),
    /// The point of a file with this number, counted from 1.
    Point(Name, usize),
    /// The two keys together.
    Both,
}

/// Why the program ends without an answer.
#[derive(Debug)]
pub enum Failure {
    /// The arguments ask for nothing that the program does.
    Usage(String),
    /// A file cannot be read.
    File(Name, io::Error),
    /// A file cannot be written.
    Write(Name, io::Error),
    /// A line of a file is not what it has to be.
    Line(Name, usize, String),
    /// No random point can be drawn.
    Random(io::Error),
    /// There is no pair of files to compare.
    NoPair(String),
    /// Standard output cannot be written.
    Output(io::Error),
}

impl Outcome {
    /// The exit status.
    pub fn status(&self) -> Status {
        match self {
            Outcome::Compared(Verdict::Different(..), _) => Status::Different,
            Outcome::Refused(..) => Status::Refused,
            Outcome::Failed(_) => Status::Failed,
            _ => Status::Accepted,
        }
    }

    /// The factors of all calls that the outcome rests on; none where no call counts them.
    pub fn factors(&self) -> Option<u64> {
        match self {
            Outcome::Evaluated(_, evaluation) => Some(evaluation.factors),
            Outcome::Celled(_, _, evaluated) => Some(evaluated.factors),
            Outcome::Compared(verdict, _) => verdict.tried().map(|tried| tried.factors),
            _ => None,
        }
    }
}

impl Priced {
    /// The total in hundredths of a penny, which the price is rounded from.
    pub fn hundredths(&self) -> u64 {
        let Rates { cell, call, factor } = self.rates;
        let times = |count: u32, rate: u32| u64::from(count) * u64::from(rate);
        times(self.cells, cell) + times(self.calls, call) + self.factors * u64::from(factor)
    }
}

impl Verdict {
    /// The shapes of the two keys, where they are not one.
    pub fn shapes(&self) -> Option<Shapes> {
        self.tried().and_then(|tried| tried.shapes)
    }

    /// The cell that is shown of keys that are different.
    pub fn cell(&self) -> Option<DifferingCell> {
        match self {
            Verdict::Different(difference, _) => difference.cell,
            _ => None,
        }
    }

    /// The shorter of keys that are the same, where it is named.
    pub fn shorter(&self) -> Option<&Shorter> {
        match self {
            Verdict::Identical(shorter) | Verdict::Same(_, shorter) => shorter.as_ref(),
            Verdict::Different(..) => None,
        }
    }

    /// The points at which the keys were compared; none for identical files.
    pub fn tried(&self) -> Option<&Tried> {
        match self {
            Verdict::Identical(_) => None,
            Verdict::Same(tried, _) | Verdict::Different(_, tried) => Some(tried),
        }
    }
}

impl Display for Refused {
    fn fmt(&self, out: &mut Formatter) -> std::fmt::Result {
        write!(out, "{}", self.refusal)?;
        if let Some(detail) = &self.detail {
            write!(out, "; {detail}")?;
        }
        match &self.about {
            About::Key(name) => write!(out, "; key {name}"),
            About::Old(name) => write!(out, "; old key {name}"),
            About::New(name) => write!(out, "; new key {name}"),
            About::Point(name, number) => write!(out, "; point {number} of {name}"),
            About::Both => Ok(()),
        }
    }
}

impl Display for Failure {
    fn fmt(&self, out: &mut Formatter) -> std::fmt::Result {
        match self {
            Failure::Usage(message) => {
                write!(out, "{message}\nmorgana --help says how it is used")
            }
            Failure::File(name, error) => write!(out, "cannot read {name}: {error}"),
            Failure::Write(name, error) => write!(out, "cannot write {name}: {error}"),
            Failure::Line(name, line, message) => write!(out, "{name} line {line}: {message}"),
            Failure::Random(error) => write!(out, "cannot draw a random point: {error}"),
            Failure::NoPair(message) => write!(out, "{message}"),
            Failure::Output(error) => write!(out, "cannot write to standard output: {error}"),
        }
    }
}
