//! The keysheet program from start to end, beside a program that does nothing.

use std::env;
use std::io::Write;
use std::process::{Command, Stdio};
use std::time::Instant;

use crate::independent::field::Fp;
use crate::independent::pass;
use crate::independent::pass::factors::Factors;
use crate::keys::Sample;
use crate::measure::median;

/// The number of times that each program is run on each input.
const RUNS: usize = 101;

/// Runs both programs on every sample that fits the input, if the variables name them.
pub fn run(samples: &[Sample]) {
    let (Ok(keysheet), Ok(empty)) = (env::var("KEYSHEET"), env::var("EMPTY")) else {
        return;
    };
    if samples.is_empty() {
        return;
    }
    println!("program   key        input bytes | keysheet ms  empty ms  difference ms");
    for sample in samples {
        let input = input(sample);
        hold_answer(&keysheet, sample, &input);
        let [mut of_keysheet, mut of_empty] = [Vec::new(), Vec::new()];
        for _ in 0..RUNS {
            of_keysheet.push(time(&keysheet, &input));
            of_empty.push(time(&empty, &input));
        }
        let (of_keysheet, of_empty) = (median(of_keysheet), median(of_empty));
        println!(
            "keysheet  {:<10} {:>11} | {of_keysheet:>11.3} {of_empty:>9.3} {:>14.3}",
            sample.name,
            input.len(),
            of_keysheet - of_empty
        );
    }
}

/// The input that keysheet reads: the two counts, the coordinates and the key.
fn input(sample: &Sample) -> Vec<u8> {
    let mut input = vec![sample.rows.len() as u8, sample.columns.len() as u8];
    for coordinate in sample.rows.iter().chain(&sample.columns) {
        input.extend(coordinate.to_le_bytes());
    }
    input.extend(&sample.key);
    input
}

/// Asserts that keysheet prints the key's length first and the independent pass's values last.
fn hold_answer(program: &str, sample: &Sample, input: &[u8]) {
    let mut child = Command::new(program)
        .stdin(Stdio::piped())
        .stdout(Stdio::piped())
        .spawn()
        .expect("the program starts");
    let mut pipe = child.stdin.take().expect("the program has an input");
    pipe.write_all(input).expect("the program reads its input");
    drop(pipe);
    let output = child.wait_with_output().expect("the program ends");
    let text = String::from_utf8(output.stdout).expect("the program prints text");
    let first = format!("key {} bytes arrays ", sample.key.len());
    assert!(text.starts_with(&first), "keysheet printed {text}");
    let mut sheet = sample.sheet();
    let answer =
        pass::evaluate::<Factors<Fp>>(&sample.key, &sample.rows, &sample.columns, &mut sheet);
    let [a, b, c] = answer.expect("the point fits the key");
    let last = format!(" {a} {b} {c}\n");
    assert!(text.ends_with(&last), "keysheet printed {text}");
}

/// The milliseconds from the start of a program on an input to its end.
fn time(program: &str, input: &[u8]) -> f64 {
    let start = Instant::now();
    let mut child = Command::new(program)
        .stdin(Stdio::piped())
        .stdout(Stdio::null())
        .spawn()
        .expect("the program starts");
    let mut pipe = child.stdin.take().expect("the program has an input");
    // A program that reads nothing may end before all is written.
    let _ = pipe.write_all(input);
    drop(pipe);
    child.wait().expect("the program ends");
    start.elapsed().as_secs_f64() * 1_000.0
}
