//! What the arguments ask for.

use crate::compare::{Keep, Manner, Points};
use crate::decimal::decimal;
use crate::files::Name;
use morgana::{Field, Rates, MOST_RATE};
use std::ffi::{OsStr, OsString};
use std::os::unix::ffi::{OsStrExt, OsStringExt};

/// The most points that compare draws.
const MOST_POINTS: u32 = 1_000_000;

/// A command with its arguments, and the form of its answers.
#[derive(Debug, Clone, PartialEq, Eq)]
pub struct Request {
    /// What is asked.
    pub command: Command,
    /// Whether answers are lines of JSON.
    pub json: bool,
}

/// A command with its arguments.
#[derive(Debug, Clone, PartialEq, Eq)]
pub enum Command {
    /// How the program is used.
    Help,
    /// Which version it is.
    Version,
    /// The counts of one key or more.
    Check { keys: Vec<Name> },
    /// The key's records.
    Show { key: Name },
    /// The key's values at the points of a file, or at a random one.
    Evaluate {
        key: Name,
        point: Option<Name>,
        field: Field,
    },
    /// The key's values in one cell.
    Cell { key: Name, row: u32, column: u32 },
    /// What an evaluation of the key costs at these rates.
    Price { key: Name, rates: Rates },
    /// The key in the other edition, written to a file, also over one that is there where it is forced.
    Move { key: Name, to: Name, force: bool },
    /// Whether two keys, or those of two folders, are the same.
    Compare {
        old: Name,
        new: Name,
        manner: Manner,
    },
    /// Whether the keys of each pair of a list are the same.
    ComparePairs { list: Name, manner: Manner },
}

/// The request that the arguments behind the program's name make, or what is wrong with them.
pub fn parse(mut arguments: impl Iterator<Item = OsString>) -> Result<Request, String> {
    let command = arguments.next().ok_or("a command is missing")?;
    let command = command.to_string_lossy();
    let (names, options): (&str, &[&str]) = match command.as_ref() {
        "--help" | "-h" | "help" => return Ok(Request::page(Command::Help)),
        "--version" | "version" => return Ok(Request::page(Command::Version)),
        "check" => ("KEY...", &["--json"]),
        "show" => ("KEY", &["--json"]),
        "evaluate" => ("KEY", &["--point", "--random", "--quadratic", "--json"]),
        "cell" => ("KEY ROW COLUMN", &["--json"]),
        "price" => ("KEY", &["--cell", "--call", "--factor", "--json"]),
        "move" => ("KEY", &["--to", "--force", "--json"]),
        "compare" => (
            "OLD NEW, or --pairs FILE",
            &[
                "--pairs",
                "--point",
                "--points",
                "--quadratic",
                "--quiet",
                "--no-locate",
                "--shorter",
                "--keep",
                "--force",
                "--json",
            ],
        ),
        _ => return Err(format!("there is no command {command:?}")),
    };
    let Some(given) = Given::gather(arguments, options)? else {
        return Ok(Request::page(Command::Help));
    };
    let json = given.json;
    let command = given.command(&command, names)?;
    Ok(Request { command, json })
}

impl Request {
    /// A request for a page of text.
    fn page(command: Command) -> Request {
        let json = false;
        Request { command, json }
    }
}

/// The options with a value that names no file to write.
const READ: [&str; 6] = [
    "--point", "--points", "--pairs", "--cell", "--call", "--factor",
];

/// The arguments behind a command, apart: names and options.
#[derive(Default)]
struct Given {
    names: Vec<OsString>,
    point: Option<OsString>,
    pairs: Option<OsString>,
    to: Option<OsString>,
    keep: Option<OsString>,
    force: bool,
    random: bool,
    points: Option<u32>,
    cell: Option<u32>,
    call: Option<u32>,
    factor: Option<u32>,
    quadratic: bool,
    quiet: bool,
    no_locate: bool,
    shorter: bool,
    json: bool,
}

impl Given {
    /// The arguments apart, where only the allowed options may stand, or none where they ask for help.
    fn gather(
        mut arguments: impl Iterator<Item = OsString>,
        allowed: &[&str],
    ) -> Result<Option<Given>, String> {
        let mut given = Given::default();
        while let Some(argument) = arguments.next() {
            let (option, value) = split(&argument);
            match option.to_str() {
                Some("--help" | "-h") if value.is_none() => return Ok(None),
                Some("--") if value.is_none() => given.names.extend(arguments.by_ref()),
                Some("-") => given.names.push(argument),
                Some(option) if allowed.contains(&option) => {
                    given.set(option, value, &mut arguments)?
                }
                _ if argument.as_bytes().starts_with(b"-") => return Err(no_option(&option)),
                _ => given.names.push(argument),
            }
        }
        given.agree()?;
        Ok(Some(given))
    }

    /// Takes in an option, which stands once, with the value behind its = or in the argument behind it.
    fn set(
        &mut self,
        option: &str,
        value: Option<OsString>,
        arguments: &mut impl Iterator<Item = OsString>,
    ) -> Result<(), String> {
        let written = ["--to", "--keep"].contains(&option);
        if value.is_some() && !written && !READ.contains(&option) {
            return Err(format!("{option} takes no value"));
        }
        let mut value = || {
            let behind = value.is_none();
            let value = value.clone().or_else(|| arguments.next());
            let value = value.ok_or(format!("{option} needs a value"))?;
            // A file is written: an option behind it is more likely than such a name.
            if written && behind && value.as_encoded_bytes().starts_with(b"--") {
                let name = value.to_string_lossy();
                return Err(format!(
                    "{option} needs a value; a file of that name is {option}={name}"
                ));
            }
            Ok(value)
        };
        let repeated = match option {
            "--point" => self.point.replace(value()?).is_some(),
            "--pairs" => self.pairs.replace(value()?).is_some(),
            "--to" => self.to.replace(value()?).is_some(),
            "--keep" => self.keep.replace(value()?).is_some(),
            "--points" => self.points.replace(points(&value()?)?).is_some(),
            "--cell" => self.cell.replace(rate(option, &value()?)?).is_some(),
            "--call" => self.call.replace(rate(option, &value()?)?).is_some(),
            "--factor" => self.factor.replace(rate(option, &value()?)?).is_some(),
            "--force" => std::mem::replace(&mut self.force, true),
            "--quadratic" => std::mem::replace(&mut self.quadratic, true),
            "--quiet" => std::mem::replace(&mut self.quiet, true),
            "--no-locate" => std::mem::replace(&mut self.no_locate, true),
            "--shorter" => std::mem::replace(&mut self.shorter, true),
            "--json" => std::mem::replace(&mut self.json, true),
            _ => std::mem::replace(&mut self.random, true),
        };
        if repeated {
            return Err(format!("{option} stands twice"));
        }
        Ok(())
    }

    /// Whether the options and names go together.
    fn agree(&self) -> Result<(), String> {
        if self.point.is_some() && self.random {
            return Err("--point and --random exclude each other".to_owned());
        }
        if self.point.is_some() && self.points.is_some() {
            return Err("--point and --points exclude each other".to_owned());
        }
        if self.pairs.is_some() && !self.names.is_empty() {
            return Err("--pairs and OLD NEW exclude each other".to_owned());
        }
        if self.pairs.is_some() && self.keep.is_some() {
            return Err("--pairs and --keep exclude each other".to_owned());
        }
        let read = self.names.iter().chain(&self.point).chain(&self.pairs);
        if read.filter(|name| *name == "-").count() > 1 {
            return Err("standard input (-) can be read once".to_owned());
        }
        Ok(())
    }

    /// The command that the arguments make, which takes these names.
    fn command(self, command: &str, names: &str) -> Result<Command, String> {
        let name = |argument: &OsString| Name::from(argument);
        let wrong = format!("{command} takes {names}: {} given", self.names.len());
        Ok(match (command, self.names.as_slice()) {
            ("check", [_, ..]) => Command::Check {
                keys: self.names.iter().map(name).collect(),
            },
            ("show", [key]) => Command::Show { key: name(key) },
            ("evaluate", [key]) => Command::Evaluate {
                key: name(key),
                point: self.point.as_ref().map(name),
                field: self.field(),
            },
            ("cell", [key, row, column]) => Command::Cell {
                key: name(key),
                row: number("ROW", row)?,
                column: number("COLUMN", column)?,
            },
            ("price", [key]) => Command::Price {
                key: name(key),
                rates: self.rates()?,
            },
            ("move", [key]) => Command::Move {
                key: name(key),
                to: target("--to", self.to.as_ref().ok_or("move needs --to FILE")?)?,
                force: self.force,
            },
            ("compare", [old, new]) if self.pairs.is_none() => Command::Compare {
                old: name(old),
                new: name(new),
                manner: self.manner()?,
            },
            ("compare", []) if self.pairs.is_some() => Command::ComparePairs {
                list: self.pairs.as_ref().map(name).ok_or(wrong)?,
                manner: self.manner()?,
            },
            _ => return Err(wrong),
        })
    }

    /// The field that coordinates are from.
    fn field(&self) -> Field {
        match self.quadratic {
            true => Field::Quadratic,
            false => Field::Prime,
        }
    }

    /// The rates that a key is to be priced at. All three are wanted, so that none is 0 silently.
    fn rates(&self) -> Result<Rates, String> {
        match (self.cell, self.call, self.factor) {
            (Some(cell), Some(call), Some(factor)) => Ok(Rates { cell, call, factor }),
            _ => Err("price needs --cell R, --call R and --factor R".to_owned()),
        }
    }

    /// How keys are to be compared.
    fn manner(&self) -> Result<Manner, String> {
        let keep = self.keep()?;
        Ok(Manner {
            points: match (&self.point, self.points) {
                (Some(file), _) => Points::File(Name::from(file)),
                (None, Some(number)) => Points::Number(number),
                (None, None) => Points::Enough,
            },
            field: self.field(),
            quiet: self.quiet,
            locate: !self.no_locate,
            shorter: self.shorter || keep.is_some(),
            keep,
        })
    }

    /// Where the shorter key is to be copied to, if it is.
    fn keep(&self) -> Result<Option<Keep>, String> {
        let force = self.force;
        match &self.keep {
            Some(file) => target("--keep", file).map(|to| Some(Keep { to, force })),
            None if force => Err("--force needs --keep FILE".to_owned()),
            None => Ok(None),
        }
    }
}

/// The file that an option has a key written to: a file alone, since standard output has the answer.
fn target(option: &str, file: &OsString) -> Result<Name, String> {
    match file == "-" {
        true => Err(format!(
            "{option} takes a file, and standard output (-) has the answer"
        )),
        false => Ok(Name::from(file)),
    }
}

/// What is wrong with an option that there is not.
fn no_option(option: &OsStr) -> String {
    let digits = option.as_bytes()[1..].iter().all(u8::is_ascii_digit);
    let negative = if digits {
        ", and no number is negative"
    } else {
        ""
    };
    format!("there is no option {option:?} here{negative}; a file of that name goes after --")
}

/// An argument as an option and the value behind its =, if it has one.
fn split(argument: &OsStr) -> (OsString, Option<OsString>) {
    let bytes = argument.as_bytes();
    let at = bytes.iter().position(|byte| *byte == b'=');
    match at.filter(|_| bytes.starts_with(b"--")) {
        Some(at) => {
            let part = |bytes: &[u8]| OsString::from_vec(bytes.to_vec());
            (part(&bytes[..at]), Some(part(&bytes[at + 1..])))
        }
        None => (argument.to_owned(), None),
    }
}

/// The number of points that an argument gives.
fn points(argument: &OsStr) -> Result<u32, String> {
    let number = argument.to_str().and_then(decimal);
    number
        .filter(|number| (1..=MOST_POINTS).contains(number))
        .ok_or_else(|| format!("--points takes a number from 1 to {MOST_POINTS}, not {argument:?}"))
}

/// The row or column that an argument gives.
fn number(name: &str, argument: &OsStr) -> Result<u32, String> {
    let number = argument.to_str().and_then(decimal);
    number.ok_or_else(|| format!("{name} is a number from 0 to 4294967295, not {argument:?}"))
}

/// The rate that the argument of an option gives; one over the limit is the library's to refuse.
fn rate(option: &str, argument: &OsStr) -> Result<u32, String> {
    let number = argument.to_str().and_then(decimal);
    number.ok_or_else(|| {
        format!("{option} takes hundredths of a penny, from 0 to {MOST_RATE}, not {argument:?}")
    })
}

#[cfg(test)]
#[path = "arguments_tests.rs"]
mod tests;
