//! "−32 address overlap or outside, and a gap, judged at the end record".

use super::draft::{Draft, MOST};
use super::Sort;
use crate::drive::rng::Rng;
use crate::hex::record::{self, DATA, UPPER};
use crate::hex::HALF;
use crate::layout::SIZE;

pub static SORTS: [Sort; 15] = [
    Sort("bytes given twice, of one value", &[-32], twice),
    Sort(
        "bytes given twice, of two values",
        &[-32],
        twice_of_two_values,
    ),
    Sort("a record a byte longer", &[-32], byte_longer),
    Sort("data below", &[-32], below),
    Sort("data above", &[-32], above),
    Sort("data across the end", &[-32], across_the_end),
    Sort("data across 0xFFFF", &[-32], across_ffff),
    Sort("data at the top of all addresses", &[-32], at_the_top),
    Sort("data under another upper half", &[-32], other_half),
    Sort("data before any address record", &[-32], before_any),
    Sort("no address record", &[-32], no_address_record),
    Sort("a record left out", &[-32], record_left_out),
    Sort("a record a byte shorter", &[-32], byte_shorter),
    Sort("no data at all", &[-32], no_data),
    Sort("the end record before some data", &[-32], early_end),
];

/// A part of the data of a record, with its address.
fn part(draft: &Draft, at: usize, rng: &mut Rng) -> (u16, Vec<u8>) {
    let line = &draft.lines[at];
    let length = line.data().len();
    let from = rng.below(length);
    let to = from + 1 + rng.below(length - from);
    match rng.chance(50) {
        true => (line.address(), line.data().to_vec()),
        false => (line.address() + from as u16, line.data()[from..to].to_vec()),
    }
}

fn twice(draft: &mut Draft, rng: &mut Rng) -> Option<()> {
    let at = draft.a_data_line(rng);
    let (address, data) = part(draft, at, rng);
    let again = rng.within(at as u32 + 1, draft.end().min(at + 9) as u32) as usize;
    draft.insert(again, record::bytes(DATA, address, &data), rng);
    Some(())
}

fn twice_of_two_values(draft: &mut Draft, rng: &mut Rng) -> Option<()> {
    let at = draft.a_data_line(rng);
    let (address, mut data) = part(draft, at, rng);
    let altered = rng.below(data.len());
    data[altered] ^= rng.within(1, 255) as u8;
    let again = match rng.chance(50) {
        true => at,
        false => at + 1,
    };
    draft.insert(again, record::bytes(DATA, address, &data), rng);
    Some(())
}

/// Its last byte is the first of another record, or outside.
fn byte_longer(draft: &mut Draft, rng: &mut Rng) -> Option<()> {
    let at = draft.a_data_line(rng);
    if draft.lines[at].data().len() == MOST {
        return None;
    }
    let byte = rng.word() as u8;
    draft.change(at, rng, |bytes| {
        bytes[0] += 1;
        bytes.push(byte);
    });
    Some(())
}

/// Data of this length under this upper half, before some line; then the state's own half again.
fn put(draft: &mut Draft, rng: &mut Rng, half: u16, address: u16, length: usize) -> Option<()> {
    let at = draft.a_line(rng);
    let data: Vec<u8> = (0..length).map(|_| rng.word() as u8).collect();
    let back = draft.address_record(HALF, rng);
    draft.lines.insert(at, back);
    draft.insert(at, record::bytes(DATA, address, &data), rng);
    let other = draft.address_record(half, rng);
    draft.lines.insert(at, other);
    Some(())
}

fn below(draft: &mut Draft, rng: &mut Rng) -> Option<()> {
    let length = rng.within(1, 32);
    let address = rng.pick(&[0xFFFF, 0x1_0000 - length, 0, 0x4000]);
    put(draft, rng, HALF - 1, address as u16, length as usize)
}

fn above(draft: &mut Draft, rng: &mut Rng) -> Option<()> {
    let address = rng.pick(&[SIZE as u32, SIZE as u32 + 1, 0x8000, 0xFF00]);
    let length = rng.within(1, MOST as u32) as usize;
    put(draft, rng, HALF, address as u16, length)
}

fn across_the_end(draft: &mut Draft, rng: &mut Rng) -> Option<()> {
    let length = rng.within(2, MOST as u32) as usize;
    let inside = 1 + rng.below(length - 1);
    put(draft, rng, HALF, (SIZE - inside) as u16, length)
}

/// Whichever way such a record is read, a byte of it is outside.
fn across_ffff(draft: &mut Draft, rng: &mut Rng) -> Option<()> {
    let length = rng.within(2, MOST as u32) as usize;
    let before = 1 + rng.below(length - 1);
    let half = rng.pick(&[HALF, HALF - 1, 0, 0x1234]);
    put(draft, rng, half, (0x1_0000 - before) as u16, length)
}

fn at_the_top(draft: &mut Draft, rng: &mut Rng) -> Option<()> {
    let length = rng.within(1, MOST as u32) as usize;
    let address = rng.within(0xFF00, 0xFFFF) as u16;
    put(draft, rng, 0xFFFF, address, length)
}

fn other_half(draft: &mut Draft, rng: &mut Rng) -> Option<()> {
    let at = draft.a_data_line(rng);
    let half = match rng.below(7) {
        0 => HALF - 1,
        1 => HALF + 1,
        2 => 0,
        3 => 0x0020,
        4 => HALF | 0x8000,
        5 => 0xFFFF,
        _ => rng.word() as u16,
    };
    if half == HALF {
        return None;
    }
    let other = draft.address_record(half, rng);
    draft.lines.insert(at, other);
    Some(())
}

fn before_any(draft: &mut Draft, rng: &mut Rng) -> Option<()> {
    let at = draft.a_data_line(rng);
    let line = draft.lines.remove(at);
    draft.lines.insert(0, line);
    Some(())
}

fn no_address_record(draft: &mut Draft, _: &mut Rng) -> Option<()> {
    draft.lines.retain(|line| line.kind() != UPPER);
    Some(())
}

pub fn record_left_out(draft: &mut Draft, rng: &mut Rng) -> Option<()> {
    let at = draft.a_data_line(rng);
    draft.lines.remove(at);
    Some(())
}

fn byte_shorter(draft: &mut Draft, rng: &mut Rng) -> Option<()> {
    let at = draft.a_data_line(rng);
    let line = &draft.lines[at];
    let (address, data) = match line.data() {
        [] | [_] => return None,
        [_, rest @ ..] if rng.chance(50) => (line.address() + 1, rest.to_vec()),
        [rest @ .., _] => (line.address(), rest.to_vec()),
    };
    draft.put(at, record::bytes(DATA, address, &data), rng);
    Some(())
}

fn no_data(draft: &mut Draft, _: &mut Rng) -> Option<()> {
    draft.lines.retain(|line| line.kind() != DATA);
    Some(())
}

fn early_end(draft: &mut Draft, rng: &mut Rng) -> Option<()> {
    let at = draft.a_data_line(rng);
    let end = draft.end();
    let line = draft.lines[end].clone();
    draft.lines.insert(at, line);
    Some(())
}
