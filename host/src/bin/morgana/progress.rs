//! How far a long run has come, on a terminal's standard error.

use std::io::{self, IsTerminal, Write};
use std::time::{Duration, Instant};

/// How long a run takes before a line is shown.
const PATIENCE: Duration = Duration::from_secs(1);

/// How long a line stands at least.
const PAUSE: Duration = Duration::from_millis(200);

/// The line that says how far a run has come; it is there only where standard error is a terminal.
#[derive(Debug)]
pub struct Progress {
    terminal: bool,
    next: Instant,
    shown: bool,
    /// The number of the pair of keys and how many there are, where there are several.
    pair: Option<(usize, usize)>,
}

impl Progress {
    /// The progress of a run that begins.
    pub fn begin() -> Progress {
        Progress {
            terminal: io::stderr().is_terminal(),
            next: Instant::now() + PATIENCE,
            shown: false,
            pair: None,
        }
    }

    /// Goes on to one of several pairs.
    pub fn pair(&mut self, number: usize, count: usize) {
        self.pair = Some((number, count));
    }

    /// Says that a point is being looked at, unless it was said of another just before.
    pub fn at(&mut self, point: u32, count: u32) {
        if !self.terminal || Instant::now() < self.next {
            return;
        }
        let pair = match self.pair {
            Some((number, count)) => format!("pair {number} of {count}, "),
            None => String::new(),
        };
        self.say(&format!("\r{pair}point {point} of {count}\x1b[K"));
        (self.shown, self.next) = (true, Instant::now() + PAUSE);
    }

    /// Takes the line away.
    pub fn clear(&mut self) {
        if self.shown {
            self.say("\r\x1b[K");
            self.shown = false;
        }
    }

    /// Writes to standard error; where that cannot be written, nothing is lost.
    fn say(&self, text: &str) {
        let mut out = io::stderr();
        let _ = out.write_all(text.as_bytes()).and_then(|()| out.flush());
    }
}
