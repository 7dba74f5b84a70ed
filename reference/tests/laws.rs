//! The docket against the definitions of docs/ORDERS.md, on every order of small histories.

use reference::docket::{Buffers, Docket};
use reference::generate::Generator;
use reference::item::ItemType;
use reference::kind::Kind;
use reference::operation::{Method, Operation};
use reference::sheet::Sheet;
use reference::trace::read;

/// The most operations of a history of which every order is tried.
const MOST: usize = 5;

/// All orders of the numbers below the count.
fn orders(count: u16) -> Vec<Vec<u16>> {
    let Some(last) = count.checked_sub(1) else {
        return vec![Vec::new()];
    };
    let mut all = Vec::new();
    for order in orders(last) {
        for place in 0..=order.len() {
            let mut longer = order.clone();
            longer.insert(place, last);
            all.push(longer);
        }
    }
    all
}

/// The length of the shortest stretch of the list without which the strict object gives the step's
/// answer: the operations held, in the turn in which they would be given, and what the step does.
fn shortest_stretch(held: &[Operation], method: Method) -> Option<usize> {
    let gives = |list: &[Operation]| match method {
        Method::Add(_) => true,
        Method::Take(item) => list.first().is_some_and(|first| first.method == Method::Add(item)),
        Method::FoundEmpty => list.is_empty(),
    };
    (0..=held.len()).find(|&length| {
        let mut stretches = (0..=held.len() - length).map(|at| [&held[..at], &held[at + length..]].concat());
        stretches.any(|list| gives(&list))
    })
}

/// The rank errors of an order by the definition, where each step has one.
fn rank_errors(operations: &[Operation], kind: Kind, order: &[u16]) -> Option<Vec<usize>> {
    let mut held: Vec<Operation> = Vec::new();
    let mut errors = Vec::new();
    for &number in order {
        let operation = operations[usize::from(number)];
        errors.push(shortest_stretch(&held, operation.method)?);
        match operation.method {
            Method::Add(_) if kind == Kind::Stack => held.insert(0, operation),
            Method::Add(_) => held.push(operation),
            Method::Take(item) => held.retain(|other| other.method != Method::Add(item)),
            Method::FoundEmpty => {}
        }
    }
    Some(errors)
}

/// Whether the order admits instants: the earliest ones are within the operations' times.
fn admits_instants(operations: &[Operation], order: &[u16]) -> bool {
    let mut earliest = 0;
    order.iter().map(|&number| operations[usize::from(number)]).all(|operation| {
        earliest = operation.start.max(earliest);
        earliest <= operation.end
    })
}

/// Compares the docket with the definitions on one order, and says whether the order is true.
fn compare(sheet: &Sheet, kind: Kind, k: u16, order: &[u16]) -> bool {
    let operations = sheet.operations();
    let errors = rank_errors(operations, kind, order).filter(|_| admits_instants(operations, order));
    let errors = errors.filter(|errors| errors.iter().all(|&error| error <= usize::from(k)));
    let mut docket = Docket::open(sheet, kind, k);
    let mut buffers = Buffers::new(MOST, MOST, MOST);
    let (placed, refusal) = docket.run(order);
    assert_eq!(errors.is_some(), refusal.is_none(), "{operations:?} {kind:?} {k} {order:?}");
    let certificate = docket.certify(&mut buffers);
    assert_eq!(errors.is_some(), certificate.is_ok());
    if let (Some(errors), Ok(certificate)) = (&errors, certificate) {
        let late: usize = buffers.lateness[..placed].iter().copied().map(usize::from).sum();
        assert_eq!(certificate.total, errors.iter().sum());
        assert_eq!(certificate.total, late);
        assert_eq!(certificate.largest, errors.iter().copied().max().unwrap_or(0));
        assert!(errors.iter().zip(&buffers.ranks).all(|(&error, &rank)| error == usize::from(rank)));
    }
    lift_and_place_again(docket, order);
    errors.is_some()
}

/// Takes all steps back and places them again, and compares what the docket says then and before.
fn lift_and_place_again(mut docket: Docket, order: &[u16]) {
    let said = |docket: &Docket| {
        let mut buffers = Buffers::new(MOST, MOST, MOST);
        let certificate = docket.certify(&mut buffers);
        (certificate, buffers.ranks, buffers.lateness, docket.held().to_vec())
    };
    let before = said(&docket);
    while docket.lift().is_ok() {}
    assert!(docket.held().is_empty());
    docket.run(order);
    assert_eq!(before, said(&docket));
}

#[test]
fn certificates_are_granted_exactly_for_true_orders() {
    let (mut tried, mut granted) = (0, 0);
    for case in Generator::new(3, b"T").take(1500) {
        let mut sheet = Sheet::over(MOST);
        if read(&case.body, ItemType::of_trace(&case.body), &mut sheet).is_err() {
            continue;
        }
        for kind in [Kind::Queue, Kind::Stack, Kind::CountingQueue] {
            for order in orders(sheet.operations().len() as u16) {
                for k in 0..3 {
                    granted += usize::from(compare(&sheet, kind, k, &order));
                    tried += 1;
                }
            }
        }
    }
    println!("{tried} orders tried, {granted} of them true");
    assert!(granted > 1000 && tried > 10 * granted / 9);
}
