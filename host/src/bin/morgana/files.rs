//! The files that the program reads, and those that it writes.

use crate::closed;
use crate::outcome::Failure;
use crate::points;
use crate::whole;
use morgana::{Field, Point, KEY_LIMIT};
use std::ffi::{OsStr, OsString};
use std::fmt::{Display, Formatter};
use std::fs::{self, File};
use std::io::{self, Read};
use std::path::{Path, PathBuf};

/// The most bytes that a point file or a list of pairs may have.
const MOST: u64 = 1 << 31;

/// The mark of UTF-8.
const MARK: &[u8] = b"\xef\xbb\xbf";

/// A file as an argument names it, where `-` is standard input, or one that was found in a folder.
#[derive(Debug, Clone, PartialEq, Eq)]
pub struct Name {
    path: OsString,
    found: bool,
}

impl Name {
    /// A file that was found in a folder: only a regular one is read, since a pipe or a device there may have no end.
    pub fn found(path: PathBuf) -> Name {
        let (path, found) = (path.into(), true);
        Name { path, found }
    }

    /// Whether standard input is meant.
    pub fn is_standard_input(&self) -> bool {
        !self.found && self.path == "-"
    }

    /// The path, where it is a folder's.
    pub fn folder(&self) -> Option<PathBuf> {
        let path = Path::new(&self.path);
        (!self.is_standard_input() && path.is_dir()).then(|| path.to_owned())
    }

    /// The name as text, for JSON; what is no text in it is replaced.
    pub fn text(&self) -> String {
        self.path.to_string_lossy().into_owned()
    }

    /// The file, opened.
    fn open(&self) -> io::Result<File> {
        if self.found && !fs::metadata(&self.path)?.is_file() {
            return Err(io::Error::other("it is no regular file"));
        }
        File::open(&self.path)
    }

    /// The first bytes of the file, so many at most.
    fn start(&self, most: u64) -> Result<Vec<u8>, Failure> {
        let mut bytes = Vec::new();
        let read = match self.is_standard_input() {
            true if closed::input_is_closed() => Err(io::Error::other("it is closed")),
            true => io::stdin().take(most).read_to_end(&mut bytes),
            false => self
                .open()
                .and_then(|file| file.take(most).read_to_end(&mut bytes)),
        };
        match read {
            Ok(_) => Ok(bytes),
            Err(error) => Err(Failure::File(self.clone(), error)),
        }
    }

    /// The text of the whole file, unless it has more than 2^31 bytes. The mark of UTF-8 that some editors put first is no
    /// part of it.
    fn whole(&self) -> Result<Vec<u8>, Failure> {
        let mut bytes = self.start(MOST + 1)?;
        if bytes.len() as u64 > MOST {
            let error = io::Error::other(format!("it has more than {MOST} bytes"));
            return Err(Failure::File(self.clone(), error));
        }
        if bytes.starts_with(MARK) {
            bytes.drain(..MARK.len());
        }
        Ok(bytes)
    }

    /// The bytes of a key, of a longer file the first 65,537: enough to be refused with 1.
    pub fn key(&self) -> Result<Vec<u8>, Failure> {
        self.start(KEY_LIMIT as u64 + 1)
    }

    /// The points of a field that the file holds, one or more.
    pub fn points(&self, field: Field) -> Result<Vec<Point>, Failure> {
        points::parse(&self.whole()?, field).map_err(|fault| self.fault(fault.line, fault.message))
    }

    /// The lines of the file with their numbers, blank ones aside.
    pub fn lines(&self) -> Result<Vec<(usize, Vec<u8>)>, Failure> {
        let text = self.whole()?;
        let lines = text.split(|byte| *byte == b'\n').zip(1..);
        let some = lines.filter(|(line, _)| !line.trim_ascii().is_empty());
        Ok(some.map(|(line, number)| (number, line.to_vec())).collect())
    }

    /// Writes the file, whole or not at all, and over one that is there only where that is asked for.
    pub fn write(&self, bytes: &[u8], force: bool) -> Result<(), Failure> {
        whole::write(Path::new(&self.path), bytes, force)
            .map_err(|error| Failure::Write(self.clone(), error))
    }

    /// Fails where the file would not be written, for what is there already.
    pub fn may_be_written(&self, force: bool) -> Result<(), Failure> {
        whole::may_be_written(Path::new(&self.path), force)
            .map_err(|error| Failure::Write(self.clone(), error))
    }

    /// The failure that a line of the file is.
    pub fn fault(&self, line: usize, message: String) -> Failure {
        Failure::Line(self.clone(), line, message)
    }
}

impl<S: AsRef<OsStr> + ?Sized> From<&S> for Name {
    fn from(name: &S) -> Name {
        let (path, found) = (name.as_ref().to_owned(), false);
        Name { path, found }
    }
}

impl Display for Name {
    fn fmt(&self, out: &mut Formatter) -> std::fmt::Result {
        match self.is_standard_input() {
            true => write!(out, "standard input"),
            false => write!(out, "{:?}", self.path),
        }
    }
}
