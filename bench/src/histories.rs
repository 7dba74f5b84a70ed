//! Traces of sequential histories whose orders every rule accepts, with k as large as can be.

/// How long the giving list gets, and how far from its front the takes are.
#[derive(Clone, Copy, PartialEq, Eq)]
pub enum Shape {
    /// All adds first; then each take names the item that the strict object would give last.
    Deep,
    /// Each add is followed by its take.
    Shallow,
}

impl Shape {
    pub fn of_word(word: &str) -> Option<Shape> {
        match word {
            "deep" => Some(Shape::Deep),
            "shallow" => Some(Shape::Shallow),
            _ => None,
        }
    }
}

/// The kind of a stack in a trace.
const STACK: u8 = 1;

/// One operation: its method in a trace, and its ticket.
type Called = (u64, u32);

/// So many operations, half of them adds, one after another.
fn history(operations: u16, kind: u8, shape: Shape) -> Vec<Called> {
    let items = u32::from(operations / 2);
    let add = |item| (0, item);
    let take = |item| (1, item);
    match shape {
        Shape::Shallow => (0..items).flat_map(|item| [add(item), take(item)]).collect(),
        Shape::Deep if kind == STACK => (0..items).map(add).chain((0..items).map(take)).collect(),
        Shape::Deep => (0..items).map(add).chain((0..items).rev().map(take)).collect(),
    }
}

/// The 24 bytes of an operation that lasts from twice its number to one more.
fn record(number: usize, (method, ticket): Called) -> Vec<u8> {
    let word = (method << 46) | u64::from(ticket);
    let start = 2 * number as u64;
    let fields = [&word.to_be_bytes()[2..], &[0, 0], &start.to_be_bytes(), &(start + 1).to_be_bytes()];
    fields.concat()
}

/// The trace of such a history, its order that of the numbers.
pub fn trace(operations: u16, kind: u8, shape: Shape) -> Vec<u8> {
    let called = history(operations, kind, shape);
    let count = called.len() as u16;
    let mut bytes = vec![0x10 | kind, 0];
    bytes.extend(count.to_be_bytes());
    bytes.extend([0xff, 0xff, 0, 0]);
    bytes.extend(called.into_iter().enumerate().flat_map(|(number, called)| record(number, called)));
    bytes.extend((0..count).flat_map(u16::to_be_bytes));
    bytes
}
