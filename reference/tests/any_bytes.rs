//! No bytes make the examiner panic: cases of chance alone, and cases with a few bytes changed.

use reference::cases::{answer, Case, Cases};
use reference::generate::{Generator, Made, LETTERS};

/// Numbers to change bytes by: those of the bodies of cases that are no cases.
fn noise(seed: u64) -> impl Iterator<Item = u8> {
    Generator::new(seed, b"?").flat_map(|made| made.body)
}

/// Every case is answered by one line.
fn answer_every_way(body: &[u8]) {
    for &letter in LETTERS.iter().chain(b"?") {
        assert!(!answer(&Case { letter, body }).contains('\n'));
    }
}

#[test]
fn bodies_of_chance_are_answered() {
    for made in Generator::new(5, b"?").take(5_000) {
        answer_every_way(&made.body);
    }
}

#[test]
fn changed_cases_are_answered() {
    let mut noise = noise(6);
    let mut next = || usize::from(noise.next().unwrap_or(0));
    for mut made in Generator::new(6, b"").take(4_000) {
        for _ in 0..1 + next() % 4 {
            let length = made.body.len().max(1);
            let at = (next() << 8 | next()) % if next() % 2 == 0 { length } else { length.min(40) };
            if let Some(byte) = made.body.get_mut(at) {
                *byte = next() as u8;
            }
        }
        assert!(!answer(&Case { letter: made.letter, body: &made.body }).contains('\n'));
        if made.body.len() < 500 {
            answer_every_way(&made.body);
        }
    }
}

#[test]
fn a_file_may_end_anywhere() {
    let bytes: Vec<u8> = Generator::new(8, b"HI").take(12).flat_map(|made: Made| made.bytes()).collect();
    let whole = Cases::of(&bytes).count();
    assert_eq!(whole, 12);
    for end in 0..bytes.len() {
        assert!(Cases::of(&bytes[..end]).count() < whole);
    }
}
