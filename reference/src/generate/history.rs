//! Histories that a strict object could nearly have had, with the order in which it had them.

use super::items::Naming;
use super::random::Random;
use crate::giving::GivingList;
use crate::item::ItemType;
use crate::kind::Kind;
use crate::operation::{Method, Operation};

/// Operations, and the turn in which they took effect. That order is true for some k, but where
/// the history takes an item that nothing adds.
#[derive(Debug, Clone)]
pub struct History {
    pub kind: Kind,
    pub item_type: ItemType,
    pub operations: Vec<Operation>,
    pub order: Vec<u16>,
}

/// How a history goes.
#[derive(Debug, Clone, Copy)]
struct Manner {
    /// How many of a hundred calls add, in the first and in the second half.
    adds: [usize; 2],
    found_empty: usize,
    taken_of_none: usize,
    /// How far out of turn a take may be, and how much may be held at a found-empty.
    disorder: usize,
    /// How many of a hundred takes are out of turn.
    out_of_turn: usize,
}

impl Manner {
    /// Some manner.
    fn draw(random: &mut Random) -> Manner {
        let halves = [[55, 45], [50, 50], [100, 0], [90, 10], [70, 60], [30, 30], [100, 100]];
        Manner {
            adds: halves[random.below(halves.len())],
            found_empty: random.pick(&[0, 5, 20]),
            taken_of_none: if random.chance(8) { 2 } else { 0 },
            disorder: random.pick(&[0, 1, 2, 5, 20, 1024]),
            out_of_turn: random.pick(&[10, 50, 100]),
        }
    }
}

/// A strict object, driven through a history as it goes on.
struct Play {
    manner: Manner,
    naming: Naming,
    held: GivingList,
    items: u16,
}

impl Play {
    /// An item that did not come up before, by its index.
    fn fresh(&mut self) -> u16 {
        self.items += 1;
        self.items - 1
    }

    /// What the next operation does, with so many adds of a hundred.
    fn next(&mut self, random: &mut Random, adds: usize) -> Method {
        let Manner { found_empty, taken_of_none, disorder, out_of_turn, .. } = self.manner;
        let held = self.held.count();
        if held <= disorder && random.chance(found_empty) {
            return Method::FoundEmpty;
        }
        if random.chance(taken_of_none) {
            let index = self.fresh();
            return Method::Take(self.naming.item(usize::from(index)));
        }
        if held == 0 || random.chance(adds) {
            let index = self.fresh();
            self.held.add(index);
            return Method::Add(self.naming.item(usize::from(index)));
        }
        let furthest = if random.chance(out_of_turn) { held.min(disorder + 1) } else { 1 };
        let place = random.below(furthest);
        let index = self.held.codes()[place];
        self.held.remove(place);
        Method::Take(self.naming.item(usize::from(index)))
    }
}

/// The times of a history's operations: each contains an instant, and the instants never fall.
#[derive(Debug, Clone, Copy)]
struct Clock {
    now: u64,
    tick: u64,
    width: u64,
}

impl Clock {
    /// Some clock; so many ticks may bring it to the end of time.
    fn draw(random: &mut Random, ticks: usize) -> Clock {
        let tick = random.pick(&[0, 1, 3, 1000, 1000, 1 << 54]);
        let widths = random.pick(&[0, 0, 1, 3, 30, 300]);
        let span = (ticks as u64).saturating_mul(tick / 2);
        let near_the_top = u64::MAX.saturating_sub(span);
        let anywhere = random.word();
        Clock { now: random.pick(&[0, 0, 1000, anywhere, near_the_top, u64::MAX]), tick, width: widths * tick.max(1) }
    }

    /// The start and end of the next operation.
    fn window(&mut self, random: &mut Random) -> (u64, u64) {
        self.now = self.now.saturating_add(random.below_word(self.tick.saturating_add(1)));
        let before = random.below_word(self.width.saturating_add(1));
        let after = random.below_word(self.width.saturating_add(1));
        (self.now.saturating_sub(before), self.now.saturating_add(after))
    }
}

/// The steps of a history, in the turn of the operations' numbers.
fn numbering(random: &mut Random, steps: &[Operation]) -> Vec<usize> {
    let mut turn: Vec<usize> = (0..steps.len()).collect();
    match random.below(5) {
        0 => turn.sort_by_key(|&step| steps[step].start),
        1 => turn.sort_by_key(|&step| steps[step].end),
        2 => random.shuffle(&mut turn),
        3 => turn.reverse(),
        _ => {}
    }
    turn
}

/// A history of so many operations, at most 1,024, with items of the type.
pub fn history(random: &mut Random, count: usize, item_type: ItemType) -> History {
    let kind = [Kind::Queue, Kind::Stack, Kind::CountingQueue][random.below(3)];
    let manner = Manner::draw(random);
    let naming = Naming::draw(random, item_type);
    let mut play = Play { manner, naming, held: GivingList::new(kind), items: 0 };
    let mut clock = Clock::draw(random, count);
    let mut steps = Vec::new();
    for step in 0..count {
        let adds = manner.adds[usize::from(step >= count / 2)];
        let method = play.next(random, adds);
        let (start, end) = clock.window(random);
        steps.push(Operation { method, thread: random.short() >> random.below(16), start, end });
    }
    let turn = numbering(random, &steps);
    let mut order = vec![0; count];
    for (number, &step) in turn.iter().enumerate() {
        order[step] = number as u16;
    }
    let operations = turn.iter().map(|&step| steps[step]).collect();
    History { kind, item_type, operations, order }
}
