//! Traces, and the cases `T`, `R` and `W` that are made of them.

use super::damage::damage;
use super::history::{history, History};
use super::orders::{bound, disturb, needed, sheet_of};
use super::random::Random;
use super::sizes::{beside, operations};
use crate::item::ItemType;
use crate::kind::Kind;
use crate::trace::{trace_bytes, write, Writing};

/// A history, with an order that is nearly true and the bound that it needs.
#[derive(Debug, Clone)]
pub struct Story {
    pub history: History,
    pub kind: Kind,
    pub order: Vec<u16>,
    pub needed: u16,
}

impl Story {
    /// Some story; so many of a thousand are full.
    pub fn draw(random: &mut Random, full: usize) -> Story {
        let item_type = any_type(random);
        Story::of_type(random, full, item_type)
    }

    /// Some story with items of the type. Now and then it is told of another kind than that it was
    /// played on.
    fn of_type(random: &mut Random, full: usize, item_type: ItemType) -> Story {
        let count = operations(random, full);
        let history = history(random, count, item_type);
        let mut order = history.order.clone();
        disturb(random, &mut order);
        let any = Kind::of_case(random.below(3) as u8);
        let kind = if random.chance(85) { history.kind } else { any };
        let needed = needed(&sheet_of(&history), kind, &order);
        Story { history, kind, order, needed }
    }

    /// How many operations there are.
    pub fn count(&self) -> usize {
        self.history.operations.len()
    }

    /// The trace of the story with the bound k.
    pub fn trace(&self, k: u16) -> Vec<u8> {
        let mut trace = vec![0; trace_bytes(self.count())];
        let item_type = self.history.item_type;
        let writing = Writing { item_type, kind: self.kind.number(), k, order: &self.order };
        // The kind, the order and the memory are such that nothing is refused.
        let _ = write(&sheet_of(&self.history), writing, &mut trace);
        trace
    }
}

/// One item type or the other.
fn any_type(random: &mut Random) -> ItemType {
    [ItemType::Ticket, ItemType::Stamp][random.below(2)]
}

/// A trace of some story, of which so many of a hundred are damaged.
fn trace(random: &mut Random, full: usize, damaged: usize, item_type: ItemType) -> Vec<u8> {
    let story = Story::of_type(random, full, item_type);
    let k = bound(random, story.needed);
    let mut trace = story.trace(k);
    if random.chance(damaged) {
        damage(random, &mut trace);
    }
    trace
}

/// The body of a case `T`.
pub fn to_examine(random: &mut Random) -> Vec<u8> {
    let item_type = any_type(random);
    trace(random, 18, 30, item_type)
}

/// The second trace of a case `R`: rarely of the other item type, and sometimes the first one,
/// damaged or not.
fn second_trace(random: &mut Random, first: &[u8], item_type: ItemType) -> Vec<u8> {
    match random.below(20) {
        0 | 1 => first.to_vec(),
        2 | 3 => {
            let mut second = first.to_vec();
            damage(random, &mut second);
            second
        }
        4 | 5 => {
            let item_type = any_type(random);
            trace(random, 7, 0, item_type)
        }
        _ => trace(random, 7, 50, item_type),
    }
}

/// How many records the memory of a case `R` has, for traces of about so many operations.
fn memory_records(random: &mut Random, first: usize, second: usize) -> u16 {
    let records = match random.below(8) {
        0 | 1 => 1024,
        2 => random.pick(&[0, 1, 2, 1023, 1025, 65535]),
        3 | 4 => random.below(first.max(second) + 1),
        5 => first,
        6 => second.saturating_sub(1),
        _ => usize::from(random.short() >> random.below(16)),
    };
    records as u16
}

/// The body of a case `R`.
pub fn to_read_twice(random: &mut Random) -> Vec<u8> {
    let item_type = any_type(random);
    let first = trace(random, 7, 35, item_type);
    let second = second_trace(random, &first, item_type);
    let bytes_each = trace_bytes(1) - trace_bytes(0);
    let mut body = memory_records(random, first.len() / bytes_each, second.len() / bytes_each).to_be_bytes().to_vec();
    body.extend((first.len() as u32).to_be_bytes());
    body.extend(first);
    body.extend(second);
    body
}

/// The body of a case `W`.
pub fn to_write(random: &mut Random) -> Vec<u8> {
    let story = Story::draw(random, 7);
    let k = bound(random, story.needed);
    let mut trace = story.trace(k);
    if random.chance(15) {
        damage(random, &mut trace);
    }
    let count = story.count();
    let mut order = story.order;
    random.shuffle(&mut order);
    if random.chance(30) {
        order.resize(beside(random, count), 0);
    }
    let strange = random.byte();
    let kind = if random.chance(12) { random.pick(&[3, 4, 15, 16, 255, strange]) } else { strange % 3 };
    let memory = beside(random, trace_bytes(count));
    let mut body = vec![kind];
    body.extend(random.short().to_be_bytes());
    body.extend((memory as u16).to_be_bytes());
    body.extend((order.len() as u16).to_be_bytes());
    body.extend(order.iter().flat_map(|step| step.to_be_bytes()));
    body.extend(trace);
    body
}
