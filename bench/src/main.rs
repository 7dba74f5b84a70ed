//! Examines a trace by the proved examiner's library, or by the reference, and tells what came of it; makes the traces
//! for that; times both; and compares their answers to made-up cases.

mod comparing;
mod examining;
mod histories;

use std::fs;
use std::io::{self, Write};
use std::process::ExitCode;
use std::time::Instant;

use comparing::differences;
use examining::{by_proved, by_reference, Examined};
use histories::{trace, Shape};

const USAGE: &str = "\
usage: bench make OPERATIONS KIND deep|shallow > TRACE   makes a trace (kind 0 queue, 1 stack, 2 queue by counting)
       bench proved|reference TRACE                      examines it once, and prints what came of it
       bench time TRACE TIMES                            examines it so many times by both, and prints the least times
       bench compare SEED SEEDS CASES                    compares both on so many cases of each of so many seeds";

/// Makes a trace and writes it to standard output.
fn make(operations: &str, kind: &str, shape: &str) -> Option<()> {
    let shape = Shape::of_word(shape)?;
    let bytes = trace(operations.parse().ok()?, kind.parse().ok()?, shape);
    io::stdout().write_all(&bytes).ok()
}

/// Examines the trace of a file once.
fn examine(by: fn(&[u8]) -> Examined, file: &str) -> Option<()> {
    let bytes = fs::read(file).ok()?;
    println!("{}", by(&bytes));
    Some(())
}

/// The least number of nanoseconds that examining the bytes took.
fn least(by: fn(&[u8]) -> Examined, bytes: &[u8], times: usize) -> u128 {
    let once = |_| {
        let start = Instant::now();
        std::hint::black_box(by(bytes));
        start.elapsed().as_nanos()
    };
    (0..times).map(once).min().unwrap_or(0)
}

/// Times both examiners on the trace of a file.
fn time(file: &str, times: &str) -> Option<()> {
    let bytes = fs::read(file).ok()?;
    let times = times.parse().ok()?;
    println!("{} {}", least(by_proved, &bytes, times), least(by_reference, &bytes, times));
    Some(())
}

/// Compares both examiners on made-up cases: whether every answer is the same.
fn compare(first: &str, seeds: &str, cases: &str) -> Option<bool> {
    let (first, seeds, cases): (u64, u64, usize) = (first.parse().ok()?, seeds.parse().ok()?, cases.parse().ok()?);
    let differ: usize = (first..first.checked_add(seeds)?).map(|seed| differences(seed, cases)).sum();
    println!("{seeds} seeds from {first}, {cases} cases each: {differ} differ");
    Some(differ == 0)
}

fn main() -> ExitCode {
    let words: Vec<String> = std::env::args().skip(1).collect();
    let words: Vec<&str> = words.iter().map(String::as_str).collect();
    let done = match words[..] {
        ["make", operations, kind, shape] => make(operations, kind, shape).map(|()| true),
        ["proved", file] => examine(by_proved, file).map(|()| true),
        ["reference", file] => examine(by_reference, file).map(|()| true),
        ["time", file, times] => time(file, times).map(|()| true),
        ["compare", first, seeds, cases] => compare(first, seeds, cases),
        _ => None,
    };
    match done {
        Some(true) => ExitCode::SUCCESS,
        Some(false) => ExitCode::FAILURE,
        None => {
            eprintln!("{USAGE}");
            ExitCode::FAILURE
        }
    }
}
