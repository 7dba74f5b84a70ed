//! Cases `H`: calls on a holder.

use super::random::Random;

/// The calls of one case as they are put down.
struct Calls {
    bytes: Vec<u8>,
}

impl Calls {
    fn clear(&mut self) {
        self.bytes.push(0);
    }

    fn count(&mut self) {
        self.bytes.push(1);
    }

    /// A call with a number: 2 rank, 3 at, 4 add, 5 take.
    fn with(&mut self, call: u8, number: usize) {
        self.bytes.push(call);
        self.bytes.extend((number as u16).to_be_bytes());
    }

    fn add(&mut self, code: usize) {
        self.with(4, code);
    }

    fn take(&mut self, code: usize) {
        self.with(5, code);
    }

    /// Some reading call, for codes and places below the limit.
    fn look(&mut self, random: &mut Random, limit: usize) {
        match random.below(5) {
            0 => self.count(),
            1 | 2 => self.with(2, random.below(limit)),
            _ => self.with(3, random.below(limit)),
        }
    }
}

/// Any calls, with few codes, so that most are held now and then.
fn among_few(random: &mut Random, calls: &mut Calls) {
    let limit = random.pick(&[2, 4, 8, 20]);
    for _ in 0..random.below(80) {
        match random.below(20) {
            0 => calls.clear(),
            1..=8 => calls.add(random.below(limit)),
            9..=13 => calls.take(random.below(limit)),
            _ => calls.look(random, limit + 1),
        }
    }
}

/// Calls with codes and places at the edges.
fn at_the_edges(random: &mut Random, calls: &mut Calls) {
    for _ in 0..random.below(60) {
        let code = random.pick(&[0, 1, 511, 512, 1022, 1023, 1024, 1025, 32768, 65535]);
        match random.below(10) {
            0..=4 => calls.add(code),
            5 => calls.take(code),
            6 => calls.count(),
            7 => calls.with(3, random.below(6)),
            draw => calls.with(draw as u8 - 6, code),
        }
    }
}

/// So many adds, each code taken again once more than the width are held.
fn sliding(random: &mut Random, calls: &mut Calls, adds: usize) {
    let width = random.pick(&[1, 3, 40, 1023, 1024]);
    let stride = random.pick(&[1, 1, 3, 511, 1023]);
    let code = |turn: usize| turn * stride % 1024;
    for turn in 0..adds {
        if turn >= width {
            calls.take(code(turn - width));
        }
        calls.add(code(turn));
        if random.chance(3) {
            calls.look(random, 1024);
        }
    }
}

/// The adds used up, the refusals that follow, and sometimes a clear.
fn used_up(random: &mut Random, calls: &mut Calls) {
    let adds = 1022 + random.below(5);
    sliding(random, calls, adds);
    for _ in 0..4 + random.below(12) {
        let code = random.below(1024);
        calls.take(code);
        calls.add(code);
        calls.add(random.below(1026));
        calls.look(random, 1026);
    }
    if random.chance(60) {
        calls.clear();
        among_few(random, calls);
    }
}

/// Some adds, then takes out of the middle, with looks between.
fn filled_and_drained(random: &mut Random, calls: &mut Calls) {
    let mut codes: Vec<usize> = (0..random.pick(&[10, 60, 200, 400])).collect();
    random.shuffle(&mut codes);
    for &code in &codes {
        calls.add(code);
    }
    random.shuffle(&mut codes);
    for &code in &codes {
        calls.with(2, code);
        if random.chance(70) {
            calls.take(code);
        }
        if random.chance(30) {
            calls.look(random, codes.len());
        }
    }
}

/// The body of a case `H`.
pub fn calls(random: &mut Random) -> Vec<u8> {
    let strange = random.byte();
    let kind = random.pick(&[0, 0, 1, 1, 2, 2, 2, strange]);
    let mut calls = Calls { bytes: vec![kind] };
    match random.below(20) {
        0..=7 => among_few(random, &mut calls),
        8..=12 => at_the_edges(random, &mut calls),
        13..=15 => filled_and_drained(random, &mut calls),
        16 | 17 => used_up(random, &mut calls),
        _ => {
            let adds = random.below(200);
            sliding(random, &mut calls, adds);
        }
    }
    match random.below(12) {
        0 => calls.bytes.extend([2, 0]),
        1 => calls.bytes.extend([6 + random.below(250) as u8, 1, 1]),
        _ => {}
    }
    calls.bytes
}
