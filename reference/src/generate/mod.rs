//! Cases that look like chance: the same seed gives the same cases.

mod damage;
mod docket;
mod history;
mod holder;
mod items;
mod orders;
mod random;
mod sizes;
mod traces;

use random::Random;

/// The letters that are drawn from where no others are asked for, each as often as it stands here.
pub const LETTERS: &[u8] = b"TTTTTTTRRRRWWWWDDDDDHHHII";

/// A case that was made up.
#[derive(Debug, Clone, PartialEq, Eq)]
pub struct Made {
    pub letter: u8,
    pub body: Vec<u8>,
}

impl Made {
    /// The case as it stands in a file of cases.
    pub fn bytes(&self) -> Vec<u8> {
        let mut bytes = vec![self.letter];
        // No body has more than some 100,000 bytes.
        bytes.extend((self.body.len() as u32).to_be_bytes());
        bytes.extend(&self.body);
        bytes
    }
}

/// The cases of a seed, without end.
#[derive(Debug, Clone)]
pub struct Generator {
    seeds: Random,
    letters: Vec<u8>,
}

impl Generator {
    /// Cases of these letters, or of the usual ones where none are given.
    pub fn new(seed: u64, letters: &[u8]) -> Generator {
        let letters = if letters.is_empty() { LETTERS } else { letters };
        Generator { seeds: Random::new(seed), letters: letters.to_vec() }
    }
}

impl Iterator for Generator {
    type Item = Made;

    /// The next case. It comes from a seed of its own.
    fn next(&mut self) -> Option<Made> {
        let mut random = Random::new(self.seeds.word());
        let mut letter = random.pick(&self.letters);
        let mut body = body(&mut random, letter);
        if random.chance(2) {
            body.truncate(random.below(body.len().min(40) + 1));
        }
        if random.chance(1) {
            letter = random.byte();
        }
        Some(Made { letter, body })
    }
}

/// A body for a case of the letter; of chance alone, where there is no such case.
fn body(random: &mut Random, letter: u8) -> Vec<u8> {
    match letter {
        b'T' => traces::to_examine(random),
        b'R' => traces::to_read_twice(random),
        b'W' => traces::to_write(random),
        b'D' => docket::calls(random),
        b'H' => holder::calls(random),
        b'I' => items::number(random),
        _ => {
            let length = random.below(60);
            random.bytes(length)
        }
    }
}
