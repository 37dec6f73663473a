//! Standard output, and what is said on standard error.

use crate::closed;
use crate::json;
use crate::outcome::{Answer, Failure, Files, Outcome, Status};
use crate::text;
use std::io::{self, BufWriter, ErrorKind, Write};
use std::iter;

/// Text in pieces, so that many points need not stand in one.
pub type Pieces<'a> = Box<dyn Iterator<Item = String> + 'a>;

/// Standard output, for text or for lines of JSON.
pub struct Output {
    out: BufWriter<io::Stdout>,
    json: bool,
    /// The factors of all answers up to now; none where no answer has a count.
    factors: Option<u64>,
}

impl Output {
    /// Standard output, unless it was closed when the program began.
    pub fn open(json: bool) -> Result<Output, Failure> {
        if closed::output_is_closed() {
            return Err(Failure::Output(io::Error::other("it is closed")));
        }
        Ok(Output {
            out: BufWriter::new(io::stdout()),
            json,
            factors: None,
        })
    }

    /// Writes a page of text.
    pub fn page(&mut self, text: &str) -> Result<Status, Failure> {
        self.write(Box::new(iter::once(text.to_owned())))?;
        Ok(Status::Accepted)
    }

    /// Whether the points of one of several comparisons are written.
    pub fn has_points_of_several(&self) -> bool {
        self.json
    }

    /// Writes the only answer of a run. A failure is for standard error, and with JSON an object too.
    pub fn only(
        &mut self,
        command: &'static str,
        files: Files,
        outcome: Result<Outcome, Failure>,
    ) -> Result<Status, Failure> {
        match outcome {
            Ok(outcome) => self.answer(command, files, outcome, false),
            Err(failure) if self.json => {
                fail(&failure);
                self.answer(command, files, Outcome::Failed(failure), false)
            }
            Err(failure) => Err(failure),
        }
    }

    /// Writes one of several answers, also where it is a failure.
    pub fn one_of_several(
        &mut self,
        command: &'static str,
        files: Files,
        outcome: Result<Outcome, Failure>,
    ) -> Result<Status, Failure> {
        let outcome = outcome.unwrap_or_else(Outcome::Failed);
        self.answer(command, files, outcome, true)
    }

    /// Writes an answer, and answers its status.
    fn answer(
        &mut self,
        command: &'static str,
        files: Files,
        outcome: Outcome,
        several: bool,
    ) -> Result<Status, Failure> {
        let status = outcome.status();
        let counts = self.factors.into_iter().chain(outcome.factors());
        self.factors = counts.reduce(|total, factors| total + factors);
        let answer = Answer {
            command,
            files,
            outcome,
        };
        self.write(match self.json {
            true => json::json(&answer),
            false => text::text(&answer, several),
        })?;
        Ok(status)
    }

    /// Ends a run: the last line of text has the factors of all answers, where one has a count. JSON has them in each
    /// object.
    pub fn end(&mut self) -> Result<(), Failure> {
        match self.factors {
            Some(total) if !self.json => self.write(Box::new(iter::once(text::factors(total)))),
            _ => Ok(()),
        }
    }

    /// Writes text, and all that was written before it, to standard output.
    fn write(&mut self, mut text: Pieces) -> Result<(), Failure> {
        let written = text.try_for_each(|piece| self.out.write_all(piece.as_bytes()));
        written
            .and_then(|()| self.out.flush())
            .map_err(Failure::Output)
    }
}

/// Says on standard error what failed, but for a reader that has closed the output, and answers the exit status.
pub fn fail(failure: &Failure) -> Status {
    let closed = matches!(failure, Failure::Output(error) if error.kind() == ErrorKind::BrokenPipe);
    if !closed {
        // Nothing is left to do where standard error cannot be written either.
        let _ = writeln!(io::stderr(), "morgana: {failure}");
    }
    Status::Failed
}
