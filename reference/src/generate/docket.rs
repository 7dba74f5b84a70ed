//! Cases `D`: calls on a docket.

use super::damage::damage;
use super::orders::bound;
use super::random::Random;
use super::sizes::beside;
use super::traces::Story;

/// The calls of one case as they are put down.
struct Calls<'a> {
    story: &'a Story,
    /// How many steps of the story's order would be placed, if none was refused.
    steps: usize,
    bytes: Vec<u8>,
}

impl Calls<'_> {
    fn short(&mut self, number: usize) {
        self.bytes.extend((number as u16).to_be_bytes());
    }

    fn place(&mut self, number: usize) {
        self.bytes.push(0);
        self.short(number);
    }

    fn place_next(&mut self) {
        if let Some(&number) = self.story.order.get(self.steps) {
            self.place(usize::from(number));
            self.steps += 1;
        }
    }

    fn run(&mut self, order: &[u16]) {
        self.bytes.push(1);
        self.short(order.len());
        self.bytes.extend(order.iter().flat_map(|number| number.to_be_bytes()));
    }

    fn run_next(&mut self, count: usize) {
        let story = self.story;
        let left = story.order.get(self.steps..).unwrap_or_default();
        let next = &left[..count.min(left.len())];
        self.run(next);
        self.steps += next.len();
    }

    fn lift(&mut self) {
        self.bytes.push(2);
        self.steps = self.steps.saturating_sub(1);
    }

    fn certify(&mut self, random: &mut Random) {
        let count = self.story.count();
        let exact = random.chance(40);
        self.bytes.push(3);
        for _ in 0..3 {
            let length = if exact { count } else { beside(random, count) };
            let length = if random.below(400) == 0 { 65535 } else { length };
            self.short(length);
        }
    }

    /// A number that may be that of no operation, or of one that is not due.
    fn any_number(&self, random: &mut Random) -> usize {
        let count = self.story.count();
        match random.below(6) {
            0 => count + random.below(3),
            1 => random.pick(&[1023, 1024, 1025, 65535]),
            2 => self.story.order.get(self.steps + 1).map_or(0, |&number| usize::from(number)),
            _ => random.below(count + 1),
        }
    }

    /// A number that is likely placed already.
    fn earlier_number(&self, random: &mut Random) -> usize {
        let step = random.below(self.steps.max(1));
        self.story.order.get(step).map_or(0, |&number| usize::from(number))
    }

    /// One call of any kind, more often one that is due.
    fn any_call(&mut self, random: &mut Random, due: usize) {
        if random.chance(due) {
            return self.place_next();
        }
        match random.below(12) {
            0..=2 => self.place(self.any_number(random)),
            3 => self.place(self.earlier_number(random)),
            4..=6 => self.lift(),
            7 => self.certify(random),
            8 => {
                let count = random.below(6);
                self.run_next(count);
            }
            9 => {
                let order: Vec<u16> = (0..random.below(4)).map(|_| self.any_number(random) as u16).collect();
                self.run(&order);
            }
            _ => self.place_next(),
        }
    }
}

/// A complete run, and certificates with buffers of several lengths.
fn whole(random: &mut Random, calls: &mut Calls) {
    let count = calls.story.count();
    if random.chance(20) {
        let first = random.below(count + 1);
        calls.run_next(first);
        calls.certify(random);
    }
    calls.run_next(count);
    for _ in 0..1 + random.below(4) {
        calls.certify(random);
    }
    for _ in 0..random.below(3) {
        calls.lift();
        calls.certify(random);
    }
}

/// The order step by step, with other calls between.
fn stepwise(random: &mut Random, calls: &mut Calls) {
    let due = random.pick(&[95, 80, 50]);
    for _ in 0..2 * calls.story.count() + 4 {
        if calls.steps >= calls.story.count() {
            break;
        }
        calls.any_call(random, due);
    }
    calls.certify(random);
}

/// A run, everything lifted and more, and a run again.
fn up_and_down(random: &mut Random, calls: &mut Calls) {
    let count = calls.story.count();
    for _ in 0..random.below(3) {
        calls.lift();
    }
    for _ in 0..1 + random.below(2) {
        calls.run_next(count);
        let kept = if random.chance(50) { 0 } else { random.below(count + 1) };
        for _ in kept..count + random.below(3) {
            calls.lift();
        }
    }
    calls.run_next(count);
    calls.certify(random);
}

/// One step placed and lifted more often than a holder has adds.
fn again_and_again(random: &mut Random, calls: &mut Calls) {
    for _ in 0..1030 {
        calls.place_next();
        calls.lift();
    }
    calls.run_next(calls.story.count());
    calls.certify(random);
}

/// The body of a case `D`.
pub fn calls(random: &mut Random) -> Vec<u8> {
    let story = Story::draw(random, 16);
    let mut trace = story.trace(0);
    if random.chance(8) {
        damage(random, &mut trace);
    }
    let strange = random.byte();
    let kind = if random.chance(90) { story.kind.number() } else { random.pick(&[0, 1, 3, 255, strange]) };
    let k = bound(random, story.needed);
    let mut calls = Calls { story: &story, steps: 0, bytes: Vec::new() };
    match random.below(40) {
        0..=12 => whole(random, &mut calls),
        13..=27 => stepwise(random, &mut calls),
        28..=32 => up_and_down(random, &mut calls),
        33 => again_and_again(random, &mut calls),
        _ => (0..random.below(40)).for_each(|_| calls.any_call(random, 20)),
    }
    let mut bytes = calls.bytes;
    match random.below(12) {
        0 => bytes.truncate(bytes.len().saturating_sub(1 + random.below(3))),
        1 => bytes.extend([4 + random.below(252) as u8, 2, 2]),
        2 => bytes.extend([1, 255, 255, 0, 0]),
        _ => {}
    }
    let mut body = vec![kind];
    body.extend(k.to_be_bytes());
    body.extend((trace.len() as u32).to_be_bytes());
    body.extend(trace);
    body.extend(bytes);
    body
}
