//! `reference` answers the cases on standard input, one line for each; `reference examine` prints
//! of the trace on standard input what `examine` prints.

use std::ffi::OsStr;
use std::io::{self, BufWriter, Read, Write};
use std::process::ExitCode;

use reference::cases::{answer, Cases};
use reference::report::{examine, MOST_INPUT};

fn main() -> ExitCode {
    let mut arguments = std::env::args_os().skip(1);
    let outcome = match (arguments.next(), arguments.next()) {
        (None, _) => answer_cases(),
        (Some(word), None) if word == OsStr::new("examine") => examine_input(),
        _ => Err(io::Error::other("usage: reference [examine]")),
    };
    outcome.unwrap_or_else(|error| {
        // Where standard error fails too, there is nobody left to tell.
        let _ = writeln!(io::stderr(), "reference: {error}");
        ExitCode::FAILURE
    })
}

/// Answers every case of standard input.
fn answer_cases() -> io::Result<ExitCode> {
    let mut file = Vec::new();
    io::stdin().lock().read_to_end(&mut file)?;
    let mut out = BufWriter::new(io::stdout().lock());
    for case in Cases::of(&file) {
        writeln!(out, "{}", answer(&case))?;
    }
    out.flush()?;
    Ok(ExitCode::SUCCESS)
}

/// Examines the trace on standard input. The exit status says whether a certificate is granted.
fn examine_input() -> io::Result<ExitCode> {
    let mut trace = Vec::new();
    io::stdin().lock().take(MOST_INPUT as u64).read_to_end(&mut trace)?;
    let report = examine(&trace);
    let mut out = io::stdout().lock();
    out.write_all(report.text.as_bytes())?;
    out.flush()?;
    Ok(if report.certified { ExitCode::SUCCESS } else { ExitCode::FAILURE })
}
