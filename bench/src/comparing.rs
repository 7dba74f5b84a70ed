//! Made-up cases, answered by the proved library and by the reference in one program.

use crate::examining::{by_proved, by_reference};
use reference::cases::{answer, Case};
use reference::generate::{Generator, Made};

/// No answer is longer.
const ROOM: usize = 1 << 20;

extern "C" {
    // Each slice is a pointer and how many bytes it has. The answer is how long the text is, 0 where it
    // does not fit or memory was wanting.
    fn examiner_answer(letter: u8, body: *const u8, length: usize, text: *mut u8, room: usize) -> usize;
}

/// The answer of the proved library to a case.
fn by_library(made: &Made, room: &mut [u8]) -> Option<String> {
    // SAFETY: each pointer comes with the length of the slice that it is of, which lives through the call.
    let length = unsafe {
        examiner_answer(made.letter, made.body.as_ptr(), made.body.len(), room.as_mut_ptr(), room.len())
    };
    let text = room.get(..length).filter(|text| !text.is_empty())?;
    Some(String::from_utf8_lossy(text).into_owned())
}

/// Whether both come to the same of the case's body taken as a trace. Where they do not, it is told on standard error.
fn examined_alike(seed: u64, number: usize, made: &Made) -> bool {
    let (proved, expected) = (by_proved(&made.body), by_reference(&made.body));
    if proved != expected {
        eprintln!("seed {seed}, case {number}: the reference makes of the body\n{expected}\nand the proved library\n{proved}");
    }
    proved == expected
}

/// How many cases of the seed are answered differently, or have a body that is examined differently. Each is told on
/// standard error.
pub fn differences(seed: u64, cases: usize) -> usize {
    let mut room = vec![0; ROOM];
    let made = Generator::new(seed, &[]).take(cases).enumerate();
    let differ = made.filter(|(number, made)| {
        let expected = answer(&Case { letter: made.letter, body: &made.body });
        let said = by_library(made, &mut room).unwrap_or_default();
        if said != expected {
            eprintln!("seed {seed}, case {number}: the reference answers\n{expected}\nand the proved library\n{said}");
        }
        let alike = examined_alike(seed, *number, made);
        said != expected || !alike
    });
    differ.count()
}
