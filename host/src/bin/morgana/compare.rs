//! The command that compares keys.

use crate::commands::{point_detail, refused};
use crate::fault::detail;
use crate::files::Name;
use crate::locate::differing_cell;
use crate::outcome::{About, Difference, Failure, Outcome, Refused, Shorter, Source};
use crate::outcome::{Tried, Verdict};
use crate::progress::Progress;
use crate::shapes::Shapes;
use morgana::{CompareRefusal, Counts, Field, Likelihood, Point, RandomPoints, Which};
use morgana::{Compared, SHEET, SHEET_QUADRATIC};
use std::ptr;

/// The points at which keys are to be compared.
#[derive(Debug, Clone, PartialEq, Eq)]
pub enum Points {
    /// As many random ones as bring the bound on keys that differ below 2^-80.
    Enough,
    /// So many random ones.
    Number(u32),
    /// Those of a file.
    File(Name),
}

/// How keys are to be compared.
#[derive(Debug, Clone, PartialEq, Eq)]
pub struct Manner {
    /// At which points.
    pub points: Points,
    /// The field that they are from.
    pub field: Field,
    /// Whether the points are left out of the answer.
    pub quiet: bool,
    /// Whether a cell is shown in which keys differ that are different.
    pub locate: bool,
    /// Whether the shorter of keys that are the same is named.
    pub shorter: bool,
    /// Where that one is copied to, if it is.
    pub keep: Option<Keep>,
}

/// The file that the shorter of two keys is copied to.
#[derive(Debug, Clone, PartialEq, Eq)]
pub struct Keep {
    /// The file.
    pub to: Name,
    /// Whether one that is there is replaced.
    pub force: bool,
}

impl Manner {
    /// The points of a file, where it is they that are to be tried; they are read once for all pairs of keys.
    pub fn given(&self) -> Result<Given, Failure> {
        match &self.points {
            Points::File(file) => Ok(Some((file.clone(), file.points(self.field)?))),
            _ => Ok(None),
        }
    }
}

/// The points of a file, with its name.
pub type Given = Option<(Name, Vec<Point>)>;

/// Whether two keys are the same, and the points behind that.
pub fn compare(
    old: &Name,
    new: &Name,
    manner: &Manner,
    given: &Given,
    progress: &mut Progress,
) -> Result<Outcome, Failure> {
    let (first, second) = (old.key()?, new.key()?);
    let trial = match Trial::of((old, &first), (new, &second), manner) {
        Ok(trial) => trial,
        Err(refused) => return Ok(Outcome::Refused(Vec::new(), refused)),
    };
    if let Some(Keep { to, force }) = &manner.keep {
        to.may_be_written(*force)?;
    }
    if first == second {
        let verdict = Verdict::Identical(trial.shorter(None)?);
        return Ok(Outcome::Compared(verdict, Vec::new()));
    }
    match given {
        Some((file, points)) => {
            let all = points.iter().cloned().map(Ok);
            trial.run(all, points.len() as u32, Some(file), progress)
        }
        None => trial.run_at_random(progress),
    }
}

/// Two accepted keys that are compared.
struct Trial<'a> {
    old: Side<'a>,
    new: Side<'a>,
    manner: &'a Manner,
}

/// One of the keys.
struct Side<'a> {
    name: &'a Name,
    key: &'a [u8],
    counts: Counts,
}

impl<'a> Trial<'a> {
    /// The keys of two files, or the refusal of the first that is none.
    fn of(
        (old, first): (&'a Name, &'a [u8]),
        (new, second): (&'a Name, &'a [u8]),
        manner: &'a Manner,
    ) -> Result<Trial<'a>, Refused> {
        let side = |name, key, about: fn(Name) -> About| match morgana::check(key) {
            Ok(counts) => Ok(Side { name, key, counts }),
            Err(refusal) => Err(Refused {
                refusal,
                detail: detail(key, refusal),
                about: about(name.clone()),
            }),
        };
        Ok(Trial {
            old: side(old, first, About::Old)?,
            new: side(new, second, About::New)?,
            manner,
        })
    }

    /// How many row coordinates and column coordinates a point has.
    fn bits(&self) -> (u32, u32) {
        self.old.counts.larger_shape(self.new.counts)
    }

    /// The coordinates of a point.
    fn m(&self) -> u32 {
        let (rows, columns) = self.bits();
        rows + columns
    }

    /// The shapes of the keys, where they are not one.
    fn shapes(&self) -> Option<Shapes> {
        Shapes::of(self.old.counts, self.new.counts)
    }

    /// Compares the keys at random points.
    fn run_at_random(&self, progress: &mut Progress) -> Result<Outcome, Failure> {
        let (field, m) = (self.manner.field, self.m());
        let count = match self.manner.points {
            Points::Number(count) => count,
            _ => Likelihood::points(field, m),
        };
        let (rows, columns) = self.bits();
        let random = RandomPoints::new(rows, columns, field);
        let mut random = random.map_err(Failure::Random)?;
        let points = (0..count).map(|_| random.draw().map_err(Failure::Random));
        self.run(points, count, None, progress)
    }

    /// Compares the keys at one of so many points after the other, which are from a file or were drawn, up to one where they
    /// are different.
    fn run(
        &self,
        points: impl Iterator<Item = Result<Point, Failure>>,
        count: u32,
        file: Option<&Name>,
        progress: &mut Progress,
    ) -> Result<Outcome, Failure> {
        let (mut tried, mut factors, mut used) = (0, 0, Vec::new());
        let mut shorter = None;
        for point in points {
            let point = point?;
            tried += 1;
            progress.at(tried, count);
            let compared = match self.compare_at(&point) {
                Ok(compared) => compared,
                Err(refused) => return Ok(self.refused(refused, &point, tried, file)),
            };
            factors += compared.factors;
            if !compared.same {
                let difference = self.difference(&point, tried);
                let verdict = Verdict::Different(difference, self.tried(count, file, factors));
                let shown = (!self.manner.quiet).then_some(point);
                return Ok(Outcome::Compared(verdict, shown.into_iter().collect()));
            }
            if tried == count {
                shorter = self.shorter(Some(&point))?;
            }
            if !self.manner.quiet {
                used.push(point);
            }
        }
        let verdict = Verdict::Same(self.tried(tried, file, factors), shorter);
        Ok(Outcome::Compared(verdict, used))
    }

    /// Where keys are different that are so at the point with this number.
    fn difference(&self, point: &Point, number: u32) -> Difference {
        let (first, second) = (self.old.key, self.new.key);
        let cell = || differing_cell(first, second, point, self.manner.field);
        Difference {
            point: number,
            cell: self.manner.locate.then(cell),
        }
    }

    /// The shorter of the keys, which are the same, where it is to be named; it is copied where that is asked for. Over p
    /// the library says which it is, at a point; over p², and where no point was tried, the lengths do by the same rule.
    fn shorter(&self, point: Option<&Point>) -> Result<Option<Shorter>, Failure> {
        if !self.manner.shorter {
            return Ok(None);
        }
        let (first, second) = (self.old.key, self.new.key);
        let key = match (point, self.manner.field) {
            (Some(Point { rows, columns }), Field::Prime) => {
                morgana::shorter(first, second, rows, columns, &mut [0; SHEET])
            }
            _ if second.len() < first.len() => second,
            _ => first,
        };
        assert!(!key.is_empty(), "keys that are the same have a shorter one");
        let is_new = ptr::eq(key, second);
        let kept = match &self.manner.keep {
            Some(Keep { to, force }) => {
                to.write(key, *force)?;
                Some(to.clone())
            }
            None => None,
        };
        Ok(Some(Shorter {
            is_new,
            file: if is_new { self.new.name } else { self.old.name }.clone(),
            old_bytes: first.len(),
            new_bytes: second.len(),
            kept,
        }))
    }

    /// What so many points from a file, or drawn, say, and the factors of those that were tried.
    fn tried(&self, count: u32, file: Option<&Name>, factors: u64) -> Tried {
        let (field, m) = (self.manner.field, self.m());
        let source = match file {
            Some(file) => Source::File(file.clone()),
            None => Source::Drawn(Likelihood::new(field, m, count)),
        };
        Tried {
            field,
            m,
            shapes: self.shapes(),
            count,
            source,
            factors,
        }
    }

    /// Compares the keys at one point.
    fn compare_at(&self, point: &Point) -> Result<Compared, CompareRefusal> {
        let compare = match self.manner.field {
            Field::Prime => morgana::compare,
            Field::Quadratic => morgana::compare_quadratic,
        };
        let (first, second) = (self.old.key, self.new.key);
        let mut sheet = [0; SHEET_QUADRATIC];
        compare(first, second, &point.rows, &point.columns, &mut sheet)
    }

    /// The refusal of a point with its number.
    fn refused(
        &self,
        refused_for: CompareRefusal,
        point: &Point,
        number: u32,
        file: Option<&Name>,
    ) -> Outcome {
        let refusal = refused_for.refusal;
        let about = match (refused_for.which, file) {
            (Which::First, _) => About::Old(self.old.name.clone()),
            (Which::Second, _) => About::New(self.new.name.clone()),
            (Which::Neither, Some(file)) => About::Point(file.clone(), number as usize),
            (Which::Neither, None) => About::Both,
        };
        let detail = point_detail(refusal, point, self.bits(), self.manner.field);
        let bits = self
            .shapes()
            .and_then(|shapes| shapes.behind(refusal.number));
        let known: Vec<_> = detail.into_iter().chain(bits).collect();
        let detail = (!known.is_empty()).then(|| known.join(": "));
        refused(refusal, detail, about)
    }
}
