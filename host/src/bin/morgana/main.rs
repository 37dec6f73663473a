//! morgana: checks, shows, evaluates, prices, compares and moves circuit keys in files.
#![deny(unsafe_code)]

mod arguments;
mod closed;
mod commands;
mod compare;
mod decimal;
mod fault;
mod files;
mod help;
mod json;
mod locate;
mod outcome;
mod output;
mod pairs;
mod points;
mod progress;
mod records;
mod shapes;
mod show;
mod text;
mod value;
mod whole;

use arguments::{Command, Request};
use compare::Manner;
use files::Name;
use outcome::{Failure, Files, Outcome, Status};
use output::{fail, Output};
use pairs::Pair;
use progress::Progress;
use std::env;
use std::process::ExitCode;

fn main() -> ExitCode {
    let status = match arguments::parse(env::args_os().skip(1)) {
        Err(message) => fail(&Failure::Usage(message)),
        Ok(request) => run(&request).unwrap_or_else(|failure| fail(&failure)),
    };
    ExitCode::from(status as u8)
}

/// Answers what is asked on standard output, and answers the exit status.
fn run(request: &Request) -> Result<Status, Failure> {
    let mut output = Output::open(request.json)?;
    let status = answer(&request.command, &mut output)?;
    output.end()?;
    Ok(status)
}

/// Answers a command, and answers the exit status.
fn answer(command: &Command, output: &mut Output) -> Result<Status, Failure> {
    let one = |key: &Name| Files::One(key.clone());
    match command {
        Command::Help => output.page(help::HELP),
        Command::Version => output.page(help::VERSION),
        Command::Check { keys } => match keys.as_slice() {
            [key] => output.only("check", one(key), commands::check(key)),
            _ => check_each(keys, output),
        },
        Command::Show { key } => output.only("show", one(key), commands::show(key)),
        Command::Evaluate { key, point, field } => {
            match commands::evaluate(key, point.as_ref(), *field) {
                Ok(outcomes) => evaluate_each(one(key), outcomes, output),
                Err(failure) => output.only("evaluate", one(key), Err(failure)),
            }
        }
        Command::Cell { key, row, column } => {
            output.only("cell", one(key), commands::cell(key, *row, *column))
        }
        Command::Price { key, rates } => {
            output.only("price", one(key), commands::price(key, *rates))
        }
        Command::Move { key, to, force } => {
            let files = Files::Copy(key.clone(), to.clone());
            output.only("move", files, commands::moved(key, to, *force))
        }
        Command::Compare { old, new, manner } => compare(old, new, manner, output),
        Command::ComparePairs { list, manner } => {
            let pairs = pairs::of_list(list);
            compare_each(one(list), pairs, manner, output)
        }
    }
}

/// Checks one key after the other; what fails for one is said of it and the rest go on.
fn check_each(keys: &[Name], output: &mut Output) -> Result<Status, Failure> {
    let mut status = Status::Accepted;
    for key in keys {
        let files = Files::One(key.clone());
        status = status.max(output.one_of_several("check", files, commands::check(key))?);
    }
    Ok(status)
}

/// Answers the values at one point after the other, up to one that is refused.
fn evaluate_each(
    files: Files,
    outcomes: impl Iterator<Item = Outcome>,
    output: &mut Output,
) -> Result<Status, Failure> {
    for outcome in outcomes {
        match output.only("evaluate", files.clone(), Ok(outcome))? {
            Status::Accepted => {}
            status => return Ok(status),
        }
    }
    Ok(Status::Accepted)
}

/// Compares two keys, or those of two folders.
fn compare(
    old: &Name,
    new: &Name,
    manner: &Manner,
    output: &mut Output,
) -> Result<Status, Failure> {
    let files = Files::Two(old.clone(), new.clone());
    let uneven = |folder, file| Failure::NoPair(format!("{folder} is a folder and {file} is none"));
    match (old.folder(), new.folder()) {
        (None, None) => {
            let mut progress = Progress::begin();
            let given = manner.given();
            let outcome =
                given.and_then(|given| compare::compare(old, new, manner, &given, &mut progress));
            progress.clear();
            output.only("compare", files, outcome)
        }
        (Some(_), Some(_)) if manner.keep.is_some() => Err(Failure::Usage(
            "--keep takes one pair of files, and OLD and NEW are folders".to_owned(),
        )),
        (Some(old), Some(new)) => {
            compare_each(files, pairs::of_folders(&old, &new), manner, output)
        }
        (Some(_), None) => output.only("compare", files, Err(uneven(old, new))),
        (None, Some(_)) => output.only("compare", files, Err(uneven(new, old))),
    }
}

/// Compares one pair after the other; what fails for one is said of it and the rest go on. The pairs are those of some
/// folders or of a list.
fn compare_each(
    source: Files,
    pairs: Result<Vec<Pair>, Failure>,
    manner: &Manner,
    output: &mut Output,
) -> Result<Status, Failure> {
    let (pairs, given) = match pairs.and_then(|pairs| Ok((pairs, manner.given()?))) {
        Ok(read) => read,
        Err(failure) => return output.only("compare", source, Err(failure)),
    };
    let quiet = manner.quiet || !output.has_points_of_several();
    let manner = Manner {
        quiet,
        ..manner.clone()
    };
    let mut status = Status::Accepted;
    let mut progress = Progress::begin();
    let count = pairs.len();
    for (Pair { old, new, unread }, number) in pairs.into_iter().zip(1..) {
        progress.pair(number, count);
        let outcome = match unread {
            Some(failure) => Err(failure),
            None => compare::compare(&old, &new, &manner, &given, &mut progress),
        };
        progress.clear();
        status = status.max(output.one_of_several("compare", Files::Two(old, new), outcome)?);
    }
    Ok(status)
}
