//! `generate SEED COUNT [LETTERS]` writes so many cases to standard output. The same arguments give
//! the same bytes. LETTERS says which letters to draw from, each as often as it stands there.

use std::io::{self, BufWriter, Write};
use std::process::ExitCode;

use reference::generate::Generator;

fn main() -> ExitCode {
    let outcome = match arguments() {
        Some((seed, count, letters)) => write_cases(seed, count, &letters),
        None => Err(io::Error::other("usage: generate SEED COUNT [LETTERS]")),
    };
    match outcome {
        Ok(()) => ExitCode::SUCCESS,
        Err(error) => {
            // Where standard error fails too, there is nobody left to tell.
            let _ = writeln!(io::stderr(), "generate: {error}");
            ExitCode::FAILURE
        }
    }
}

/// The seed, the count and the letters, where the arguments are such.
fn arguments() -> Option<(u64, usize, String)> {
    let mut arguments = std::env::args_os().skip(1).map(|argument| argument.into_string().ok());
    let seed = arguments.next()??.parse().ok()?;
    let count = arguments.next()??.parse().ok()?;
    let letters = arguments.next().unwrap_or(Some(String::new()))?;
    arguments.next().is_none().then_some((seed, count, letters))
}

/// Writes the cases of a seed.
fn write_cases(seed: u64, count: usize, letters: &str) -> io::Result<()> {
    let mut out = BufWriter::new(io::stdout().lock());
    for case in Generator::new(seed, letters.as_bytes()).take(count) {
        out.write_all(&case.bytes())?;
    }
    out.flush()
}
