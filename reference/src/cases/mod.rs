//! Cases and their answers (docs/COMPARISON.md).

mod docket;
mod file;
mod holder;
mod items;
mod traces;

pub use file::{Case, Cases};

/// The answer to a case of another letter, or whose body is too short for its fields.
pub const NO_CASE: &str = "no case";

/// The one line that answers a case, without its line feed.
pub fn answer(case: &Case) -> String {
    let body = case.body;
    let answer = match case.letter {
        b'T' => Some(traces::examined(body)),
        b'R' => traces::read_twice(body),
        b'W' => traces::written(body),
        b'D' => docket::called(body),
        b'H' => holder::called(body),
        b'I' => items::named(body),
        _ => None,
    };
    answer.unwrap_or_else(|| NO_CASE.to_string())
}
