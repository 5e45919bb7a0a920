//! "−30 .. length or type other than 00, 01, 04": a line of digits that is no record. The sums are
//! right.

use super::draft::Draft;
use super::Sort;
use crate::drive::rng::Rng;
use crate::hex::record::{self, DATA, END, UPPER};

pub static SORTS: [Sort; 15] = [
    Sort("an odd number of digits", &[-30], odd_digits),
    Sort("fewer than five bytes", &[-30], few_bytes),
    Sort("length byte off", &[-30], length_off),
    Sort("a byte more than the length", &[-30], byte_more),
    Sort("a byte fewer than the length", &[-30], byte_fewer),
    Sort("type 02", &[-30], |d, r| of_type(d, r, 0x02, 2)),
    Sort("type 03", &[-30], |d, r| of_type(d, r, 0x03, 4)),
    Sort("type 05", &[-30], |d, r| of_type(d, r, 0x05, 4)),
    Sort("type 06", &[-30], |d, r| of_type(d, r, 0x06, 1)),
    Sort("type ff", &[-30], |d, r| of_type(d, r, 0xFF, 0)),
    Sort("any other type", &[-30], any_other_type),
    Sort("another type's length", &[-30], other_types_length),
    Sort("data of length 0", &[-30], no_data),
    Sort("end record with data", &[-30], end_with_data),
    Sort(
        "address record of another length",
        &[-30],
        address_of_another_length,
    ),
];

fn odd_digits(draft: &mut Draft, rng: &mut Rng) -> Option<()> {
    let at = draft.a_line(rng);
    let line = &mut draft.lines[at];
    let place = rng.within(1, line.body() as u32 - 1) as usize;
    match rng.chance(50) {
        true => {
            line.text.remove(place);
        }
        false => line.text.insert(place, rng.pick(b"0123456789ABCDEFabcdef")),
    }
    Some(())
}

/// No byte at all, or up to three with their sum.
fn few_bytes(draft: &mut Draft, rng: &mut Rng) -> Option<()> {
    let at = draft.a_line(rng);
    let bytes = match rng.below(5) {
        0 => vec![],
        n => record::summed((1..n).map(|_| rng.pick(&[0, 1, 4, 0xFF])).collect()),
    };
    draft.put(at, bytes, rng);
    Some(())
}

fn length_off(draft: &mut Draft, rng: &mut Rng) -> Option<()> {
    let at = draft.a_line(rng);
    let off = rng.pick(&[1, 0xFF, 5, 0xFB, 0x10, 0x80]);
    draft.change(at, rng, |bytes| bytes[0] = bytes[0].wrapping_add(off));
    Some(())
}

fn byte_more(draft: &mut Draft, rng: &mut Rng) -> Option<()> {
    let at = draft.a_line(rng);
    let byte = rng.word() as u8;
    draft.change(at, rng, |bytes| bytes.push(byte));
    Some(())
}

fn byte_fewer(draft: &mut Draft, rng: &mut Rng) -> Option<()> {
    let at = draft.a_line(rng);
    draft.change(at, rng, |bytes| {
        bytes.pop();
    });
    Some(())
}

/// A line made one of this type, or a record of this type and length put before it.
fn of_type(draft: &mut Draft, rng: &mut Rng, kind: u8, length: usize) -> Option<()> {
    let at = draft.a_line(rng);
    match rng.chance(50) {
        true => draft.change(at, rng, |bytes| bytes[3] = kind),
        false => {
            let data: Vec<u8> = (0..length).map(|_| rng.word() as u8).collect();
            draft.insert(at, record::bytes(kind, 0, &data), rng);
        }
    }
    Some(())
}

fn any_other_type(draft: &mut Draft, rng: &mut Rng) -> Option<()> {
    match rng.word() as u8 {
        DATA | END | UPPER => None,
        kind => of_type(draft, rng, kind, 16),
    }
}

/// A type that is taken, in a line whose length it does not have.
fn other_types_length(draft: &mut Draft, rng: &mut Rng) -> Option<()> {
    let at = draft.a_line(rng);
    let kind = match draft.lines[at].data().len() {
        0 => rng.pick(&[DATA, UPPER]),
        2 => END,
        _ => rng.pick(&[END, UPPER]),
    };
    draft.change(at, rng, |bytes| bytes[3] = kind);
    Some(())
}

fn no_data(draft: &mut Draft, rng: &mut Rng) -> Option<()> {
    let at = draft.a_data_line(rng);
    let none = record::bytes(DATA, draft.lines[at].address(), &[]);
    match rng.chance(50) {
        true => draft.put(at, none, rng),
        false => draft.insert(at, none, rng),
    }
    Some(())
}

fn end_with_data(draft: &mut Draft, rng: &mut Rng) -> Option<()> {
    let data: Vec<u8> = (0..rng.within(1, 4)).map(|_| rng.word() as u8).collect();
    let end = draft.end();
    draft.put(end, record::bytes(END, 0, &data), rng);
    Some(())
}

fn address_of_another_length(draft: &mut Draft, rng: &mut Rng) -> Option<()> {
    let at = draft.a_line_of(UPPER, rng);
    let data = rng.pick(&[&[][..], &[0x20], &[0, 0x20, 0], &[0x20, 0, 0, 0]]);
    draft.put(at, record::bytes(UPPER, 0, data), rng);
    Some(())
}
