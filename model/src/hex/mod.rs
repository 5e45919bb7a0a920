//! A state as Intel HEX, the text that the museums' loader takes, and back (request 102 of document
//! 02, whose phrases stand here in quotation marks).

mod given;
pub mod record;

use crate::check::check;
use crate::layout::{BASE, SIZE};
use crate::refusal::{HEX_END, HEX_ROOM, STATE};
use given::{Given, Step};

/// "output under 48,076 bytes" is refused, and so many are written.
pub const WRITTEN: usize = 48_076;

/// "data records of 16 bytes".
pub const DATA_BYTES: usize = 16;

/// The upper half of the address of the "first byte at 0x20000000".
pub const HALF: u16 = (BASE >> 16) as u16;

/// "Writing: −19, then −34 output under 48,076 bytes; bytes past these stay."
pub fn write(state: &[u8], out: &mut [u8]) -> i32 {
    if !check(state) {
        return STATE;
    }
    if out.len() < WRITTEN {
        return HEX_ROOM;
    }
    let text = written(state);
    out[..text.len()].copy_from_slice(&text);
    0
}

/// The one text of a state: the address record, the data "in rising order", the end record;
/// "upper-case digits, line feed ends".
pub fn written(state: &[u8]) -> Vec<u8> {
    let mut text = Vec::with_capacity(WRITTEN);
    let mut put = |bytes: Vec<u8>| {
        text.push(b':');
        for byte in bytes {
            text.extend(record::digits(byte));
        }
        text.push(b'\n');
    };
    put(record::upper(HALF));
    for (k, bytes) in state.chunks(DATA_BYTES).enumerate() {
        put(record::bytes(record::DATA, (DATA_BYTES * k) as u16, bytes));
    }
    put(record::bytes(record::END, 0, &[]));
    text
}

/// Reads a text into a state: 0, or a refusal that leaves every byte, "−19 first for a destination
/// of another length, last for the state read".
pub fn read(text: &[u8], state: &mut [u8]) -> i32 {
    if state.len() != SIZE {
        return STATE;
    }
    match judged(text).1 {
        Err(refusal) => refusal,
        Ok(bytes) if !check(&bytes) => STATE,
        Ok(bytes) => {
            state.copy_from_slice(&bytes);
            0
        }
    }
}

/// How many lines are taken before the first faulty one: all of them, where none is. Where reading
/// refuses with −30 to −33, the line at fault is the one after them.
pub fn lines_taken(text: &[u8]) -> usize {
    judged(text).0
}

/// The lines taken, and the bytes that they give or the refusal of the next one: "the first faulty
/// line decides".
fn judged(text: &[u8]) -> (usize, Result<Vec<u8>, i32>) {
    let mut given = Given::nothing();
    let mut taken = 0;
    let mut rest = text;
    while let Some((line, behind)) = first_line(rest) {
        match record::read(line).and_then(|record| given.take(record)) {
            Err(refusal) => return (taken, Err(refusal)),
            Ok(Step::More) => {}
            // "text after it": whatever it is, it is not looked at.
            Ok(Step::Whole(_)) if !behind.is_empty() => return (taken + 1, Err(HEX_END)),
            Ok(Step::Whole(bytes)) => return (taken + 1, Ok(bytes)),
        }
        taken += 1;
        rest = behind;
    }
    // "no end record"
    (taken, Err(HEX_END))
}

/// The first line, its line feed included if it has one, and what is behind it.
fn first_line(text: &[u8]) -> Option<(&[u8], &[u8])> {
    match text.iter().position(|&byte| byte == b'\n') {
        Some(at) => Some(text.split_at(at + 1)),
        None if text.is_empty() => None,
        None => Some((text, &[])),
    }
}
