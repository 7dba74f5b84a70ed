//! Damage of every kind to the bytes of a trace.

use super::random::Random;
use super::sizes::place;
use crate::bytes::number;
use crate::record::RECORD_BYTES;
use crate::trace::HEADER_BYTES;

/// Damages a trace in one way, or rarely in two.
pub fn damage(random: &mut Random, trace: &mut Vec<u8>) {
    for _ in 0..1 + random.below(10) / 9 {
        if random.chance(65) && trace.len() >= HEADER_BYTES + RECORD_BYTES {
            damage_record(random, trace);
        } else {
            damage_frame(random, trace);
        }
    }
}

/// How many whole records there can be in so many bytes.
fn records_in(trace: &[u8]) -> usize {
    trace.len().saturating_sub(HEADER_BYTES) / (RECORD_BYTES + 2)
}

/// Damages the header or the length.
fn damage_frame(random: &mut Random, trace: &mut Vec<u8>) {
    match random.below(15) {
        0 => trace.truncate(random.below(HEADER_BYTES)),
        1 => trace.truncate(random.below(trace.len().max(1))),
        2 => trace.truncate(trace.len().saturating_sub(1 + random.below(30))),
        3 => {
            let more = 1 + random.below(30);
            trace.extend(random.bytes(more));
        }
        4 => set_bits(trace, 0, 0xf0, random.byte()),
        5 => set_bits(trace, 0, 0x0f, random.byte()),
        6 => set_bits(trace, 1, 0xf0, random.byte()),
        7 => set_bits(trace, 1, 0xf0, random.pick(&[0x00, 0x10, 0x20])),
        8 => flip_bit(trace, random.pick(&[12, 13, 14, 15])),
        9 => flip_bit(trace, 48 + random.below(16)),
        10 | 11 => set_count(trace, random.pick(&[1025, 1026, 2048, 4096, 65535])),
        12 => {
            let other = records_in(trace) as u16 ^ 1;
            set_count(trace, other);
        }
        13 => set_count(trace, random.short() >> random.below(8)),
        _ => {
            let length = random.below(120);
            *trace = random.bytes(length);
        }
    }
}

/// Damages a record, one as good as another. The trace has the bytes of a record.
fn damage_record(random: &mut Random, trace: &mut [u8]) {
    let records = records_in(trace).max(1);
    let which = place(random, records);
    let at = HEADER_BYTES + RECORD_BYTES * which;
    // Any record but this one, where there is another.
    let other = (which + 1 + random.below(records - 1)) % records;
    let other = HEADER_BYTES + RECORD_BYTES * other;
    match random.below(17) {
        0 | 1 => set_bits(trace, at, 0xc0, 0xc0),
        2 | 3 => flip_bit(trace, 8 * at + 2 + random.below(6)),
        4 => set_item_outside_type(random, trace, at),
        5 | 6 => set_item_on_found_empty(random, trace, at),
        7 | 8 => end_before_start(random, trace, at),
        9..=11 => repeat_item(trace, at, other, 0x00),
        12..=14 => repeat_item(trace, at, other, 0x40),
        15 => flip_bit(trace, 8 * at + random.below(8 * RECORD_BYTES)),
        _ => set_bits(trace, at + random.below(RECORD_BYTES), 0xff, random.byte()),
    }
}

/// Gives some bits of a byte other values.
fn set_bits(trace: &mut [u8], at: usize, bits: u8, value: u8) {
    if let Some(byte) = trace.get_mut(at) {
        *byte = *byte & !bits | value & bits;
    }
}

/// Turns one bit over, counted from the most significant one of the first byte.
fn flip_bit(trace: &mut [u8], bit: usize) {
    if let Some(byte) = trace.get_mut(bit / 8) {
        *byte ^= 0x80 >> (bit % 8);
    }
}

/// Gives the header another count.
fn set_count(trace: &mut [u8], count: u16) {
    let [high, low] = count.to_be_bytes();
    set_bits(trace, 2, 0xff, high);
    set_bits(trace, 3, 0xff, low);
}

/// Makes the record an add or a take whose item field is that of no item, or nearly so.
fn set_item_outside_type(random: &mut Random, trace: &mut [u8], at: usize) {
    set_bits(trace, at, 0xc0, random.pick(&[0x00, 0x40]));
    let top = random.pick(&[0x01, 0x02, 0x20, 0x3f, 0x80, 0xbf, 0xc0, 0xff, 0x7f]);
    set_bits(trace, at + 1, 0xff, top);
}

/// Makes the record a found-empty with a bit, or a lane, or everything in its item field.
fn set_item_on_found_empty(random: &mut Random, trace: &mut [u8], at: usize) {
    set_bits(trace, at, 0xc0, 0x80);
    set_bits(trace, at + 1, 0xff, random.pick(&[0, 0, 0x40, 0x80, 0xff]));
    flip_bit(trace, 8 * at + 8 + random.below(40));
}

/// Lets the record end before its start, by little or by much.
fn end_before_start(random: &mut Random, trace: &mut [u8], at: usize) {
    let Some(times) = trace.get_mut(at + 8..at + 24) else {
        return;
    };
    let less = if random.chance(60) { 1 } else { random.word() >> random.below(64) };
    let start = number(&times[..8]).max(1);
    let end = start.saturating_sub(less.max(1));
    times[..8].copy_from_slice(&start.to_be_bytes());
    times[8..].copy_from_slice(&end.to_be_bytes());
}

/// Makes both records adds, or takes, of one item.
fn repeat_item(trace: &mut [u8], at: usize, other: usize, method: u8) {
    let Some(item) = trace.get(other + 1..other + 6).map(<[u8]>::to_vec) else {
        return;
    };
    set_bits(trace, at, 0xc0, method);
    set_bits(trace, other, 0xc0, method);
    if let Some(field) = trace.get_mut(at + 1..at + 6) {
        field.copy_from_slice(&item);
    }
}
