//! The samples: of each `NAME.trace` the program prints what `NAME.says` has, with its exit status.
//!
//! They are looked for in `$SAMPLES`, and without it in `../samples`.

use std::error::Error;
use std::fs;
use std::path::{Path, PathBuf};

use reference::report::examine;

/// Where the samples lie.
fn samples() -> PathBuf {
    match std::env::var_os("SAMPLES") {
        Some(folder) => PathBuf::from(folder),
        None => Path::new(env!("CARGO_MANIFEST_DIR")).join("../samples"),
    }
}

/// What is said of a trace: the text, and the exit status as the `.says` files have it.
fn said(trace: &[u8]) -> String {
    let report = examine(trace);
    format!("{}status {}\n", report.text, u8::from(!report.certified))
}

#[test]
fn every_sample_is_answered_as_its_says_file_has_it() -> Result<(), Box<dyn Error>> {
    let folder = samples();
    let mut count = 0;
    for entry in fs::read_dir(&folder).map_err(|error| format!("{}: {error}", folder.display()))? {
        let path = entry?.path();
        if path.extension().is_some_and(|ending| ending == "trace") {
            let says = fs::read_to_string(path.with_extension("says"))?;
            assert_eq!(said(&fs::read(&path)?), says, "{}", path.display());
            count += 1;
        }
    }
    assert!(count >= 17, "only {count} samples in {}", folder.display());
    Ok(())
}
