//! Pairs of keys to compare: those of two folders by their names, and those of a list.

use crate::files::Name;
use crate::outcome::Failure;
use std::collections::BTreeMap;
use std::ffi::OsStr;
use std::fs;
use std::os::unix::ffi::OsStrExt;
use std::path::{Path, PathBuf};

/// An old key and a new one.
#[derive(Debug)]
pub struct Pair {
    /// The old key's file.
    pub old: Name,
    /// The new key's file.
    pub new: Name,
    /// Why what stands there is not read: it is a folder that cannot be.
    pub unread: Option<Failure>,
}

/// The pairs of files with the same path below two folders; a file that only one of them has makes a pair too, which
/// cannot be read, and so does a folder in them that cannot be read.
pub fn of_folders(old: &Path, new: &Path) -> Result<Vec<Pair>, Failure> {
    let mut paths = BTreeMap::new();
    for folder in [old, new] {
        gather(folder, Path::new(""), &mut paths)?;
    }
    if paths.is_empty() {
        return Err(Failure::NoPair(format!(
            "there is no file in {old:?} or {new:?}"
        )));
    }
    let pair = |(path, unread)| Pair {
        old: Name::found(old.join(&path)),
        new: Name::found(new.join(&path)),
        unread,
    };
    Ok(paths.into_iter().map(pair).collect())
}

/// The paths of files below a folder, each with why it is not read where it is that of a folder.
type Paths = BTreeMap<PathBuf, Option<Failure>>;

/// Gathers the paths of the files below a folder, from that folder on, and those of the folders in it that cannot be read.
fn gather(folder: &Path, below: &Path, paths: &mut Paths) -> Result<(), Failure> {
    let path = folder.join(below);
    let unread = |error| Failure::File(Name::from(&path), error);
    for entry in fs::read_dir(&path).map_err(unread)? {
        let entry = entry.map_err(unread)?;
        let below = below.join(entry.file_name());
        if !entry.file_type().map_err(unread)?.is_dir() {
            paths.entry(below).or_insert(None);
        } else if let Err(failure) = gather(folder, &below, paths) {
            paths.insert(below, Some(failure));
        }
    }
    Ok(())
}

/// The pairs of a list: each line has an old file and a new one, with a tab or other white space between.
pub fn of_list(list: &Name) -> Result<Vec<Pair>, Failure> {
    let mut pairs = Vec::new();
    for (number, line) in list.lines()? {
        let fault = |message: &str| list.fault(number, message.to_owned());
        let (old, new) = two(&line)
            .ok_or_else(|| fault("does not have two file names, with a tab or a space between"))?;
        if old.is_standard_input() || new.is_standard_input() {
            return Err(fault("standard input (-) is no file of a list"));
        }
        let unread = None;
        pairs.push(Pair { old, new, unread });
    }
    if pairs.is_empty() {
        return Err(Failure::NoPair(format!("there is no pair in {list}")));
    }
    Ok(pairs)
}

/// The two names of a line: around its only tab, or else its only two words.
fn two(line: &[u8]) -> Option<(Name, Name)> {
    let line = line.strip_suffix(b"\r").unwrap_or(line);
    let apart: Vec<_> = match line.contains(&b'\t') {
        true => line.split(|byte| *byte == b'\t').collect(),
        false => {
            let words = line.split(u8::is_ascii_whitespace);
            words.filter(|word| !word.is_empty()).collect()
        }
    };
    match apart.as_slice() {
        [old, new] if !old.is_empty() && !new.is_empty() => {
            let name = |bytes: &[u8]| Name::from(OsStr::from_bytes(bytes));
            Some((name(old), name(new)))
        }
        _ => None,
    }
}

#[cfg(test)]
mod tests {
    use super::*;

    #[test]
    fn a_line_has_two_names() {
        let pair = |old: &str, new: &str| Some((Name::from(old), Name::from(new)));
        for (line, wanted) in [
            ("a b", pair("a", "b")),
            ("  a   b  \r", pair("a", "b")),
            ("a key\tb key", pair("a key", "b key")),
            ("a\tb\r", pair("a", "b")),
            ("a", None),
            ("a b c", None),
            ("a\t", None),
            ("\tb", None),
            ("a\tb\tc", None),
        ] {
            assert_eq!(two(line.as_bytes()), wanted, "{line:?}");
        }
    }
}
