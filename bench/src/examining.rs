//! One examination, from the bytes of a trace to the certificate in three buffers, by each of the two examiners.

use std::fmt;

use reference::docket::{Buffers, Docket};
use reference::item::ItemType;
use reference::refusal::Refusal;
use reference::sheet::{Sheet, MOST_OPERATIONS};
use reference::trace::read;

/// What came of an examination in plain numbers, laid out as the proved library writes it.
#[repr(C)]
#[derive(Default)]
struct PlainOutcome {
    status: u8,
    layer: u8,
    number: u8,
    place: u16,
    detail: u16,
    total: u32,
    largest: u16,
    first: u16,
}

extern "C" {
    // Each buffer is a pointer and how many entries it has.
    fn examiner_certify(
        bytes: *const u8,
        length: usize,
        ranks: *mut u16,
        most_ranks: usize,
        instants: *mut u64,
        most_instants: usize,
        latenesses: *mut u16,
        most_latenesses: usize,
        outcome: *mut PlainOutcome,
    );
}

/// The certificate, or the refusal's layer, number, place and detail, and what the buffers then hold.
#[derive(PartialEq)]
pub struct Examined {
    answer: Result<[usize; 3], [usize; 4]>,
    ranks: Vec<u16>,
    instants: Vec<u64>,
    latenesses: Vec<u16>,
}

impl fmt::Display for Examined {
    fn fmt(&self, f: &mut fmt::Formatter) -> fmt::Result {
        write!(f, "{:?} {:?} {:?} {:?}", self.answer, self.ranks, self.instants, self.latenesses)
    }
}

/// What the proved examiner makes of the bytes.
#[no_mangle]
#[inline(never)]
pub fn by_proved(bytes: &[u8]) -> Examined {
    let mut outcome = PlainOutcome::default();
    let (mut ranks, mut instants, mut latenesses) =
        (vec![0; MOST_OPERATIONS], vec![0; MOST_OPERATIONS], vec![0; MOST_OPERATIONS]);
    // SAFETY: each pointer comes with the length of the slice that it is of, which lives through the call.
    unsafe {
        examiner_certify(
            bytes.as_ptr(),
            bytes.len(),
            ranks.as_mut_ptr(),
            ranks.len(),
            instants.as_mut_ptr(),
            instants.len(),
            latenesses.as_mut_ptr(),
            latenesses.len(),
            &mut outcome,
        );
    }
    let answer = if outcome.status == 0 {
        Ok([outcome.total as usize, outcome.largest.into(), outcome.first.into()])
    } else {
        Err([outcome.layer.into(), outcome.number.into(), outcome.place.into(), outcome.detail.into()])
    };
    Examined { answer, ranks, instants, latenesses }
}

/// A refusal in the numbers of docs/LIBRARY.md.
fn in_numbers(refusal: Refusal) -> [usize; 4] {
    let layers = ["frame", "record", "item", "sheet", "docket", "holder"];
    let layer = layers.iter().position(|layer| *layer == refusal.fault.layer());
    [layer.map_or(0, |at| at + 1), refusal.fault.number().into(), refusal.place, refusal.detail]
}

/// The reference's certificate in the buffers, or its refusal.
fn certify(bytes: &[u8], buffers: &mut Buffers) -> Result<[usize; 3], Refusal> {
    let mut sheet = Sheet::over(MOST_OPERATIONS);
    let reading = read(bytes, ItemType::of_trace(bytes), &mut sheet)?;
    let mut docket = Docket::open(&sheet, reading.kind, reading.k);
    if let (_, Some(refusal)) = docket.run(&reading.order) {
        return Err(refusal);
    }
    let certificate = docket.certify(buffers)?;
    Ok([certificate.total, certificate.largest, certificate.step])
}

/// What the reference makes of the bytes.
#[no_mangle]
#[inline(never)]
pub fn by_reference(bytes: &[u8]) -> Examined {
    let mut buffers = Buffers {
        ranks: vec![0; MOST_OPERATIONS],
        instants: vec![0; MOST_OPERATIONS],
        lateness: vec![0; MOST_OPERATIONS],
    };
    let answer = certify(bytes, &mut buffers).map_err(in_numbers);
    Examined { answer, ranks: buffers.ranks, instants: buffers.instants, latenesses: buffers.lateness }
}
