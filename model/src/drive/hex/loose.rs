//! Changes aimed at no rule: what a slip of the hand does to a text.

use super::addresses::record_left_out;
use super::draft::{Draft, Line};
use super::ends::{characters_behind, no_end};
use super::Sort;
use crate::drive::rng::Rng;
use crate::hex::record::DATA;
use crate::layout::{note_of, CLOCK, SIZE, SLOTS, SPARE};

pub static SORTS: [Sort; 8] = [
    Sort("data altered, the sum right", &[0, -19], data_altered),
    Sort("a spare byte altered, the sum right", &[-19], spare_altered),
    Sort("a note altered, the sum right", &[-19], note_altered),
    Sort(
        "a spare byte altered, text behind",
        &[-33],
        altered_and_text,
    ),
    Sort("a byte of the text altered", &[-30, -31], byte_altered),
    Sort("a line left out", &[-32, -33], line_left_out),
    Sort("a line twice", &[0, -32, -33], line_twice),
    Sort("chance bytes", &[-30], chance_bytes),
];

/// Another state: well formed where the clock is altered, else mostly not.
fn data_altered(draft: &mut Draft, rng: &mut Rng) -> Option<()> {
    if rng.chance(30) {
        return byte_of_the_state(draft, CLOCK + rng.below(4), rng);
    }
    let at = draft.a_data_line(rng);
    let place = rng.below(draft.lines[at].data().len());
    alter(draft, at, place, rng)
}

fn spare_altered(draft: &mut Draft, rng: &mut Rng) -> Option<()> {
    byte_of_the_state(draft, SPARE + rng.below(SIZE - SPARE), rng)
}

/// Its two bytes that are 0 at all times.
fn note_altered(draft: &mut Draft, rng: &mut Rng) -> Option<()> {
    let byte = note_of(rng.below(SLOTS)) + 2 + rng.below(2);
    byte_of_the_state(draft, byte, rng)
}

/// Alters a byte of the state in the line that gives it.
fn byte_of_the_state(draft: &mut Draft, byte: usize, rng: &mut Rng) -> Option<()> {
    let place = |line: &Line| byte.checked_sub(line.address().into());
    let gives =
        |line: &Line| line.kind() == DATA && place(line).map_or(false, |at| at < line.data().len());
    let at = draft.lines.iter().position(gives)?;
    let place = place(&draft.lines[at])?;
    alter(draft, at, place, rng)
}

fn alter(draft: &mut Draft, at: usize, place: usize, rng: &mut Rng) -> Option<()> {
    let bits = rng.within(1, 255) as u8;
    draft.change(at, rng, |bytes| bytes[4 + place] ^= bits);
    Some(())
}

/// "−19 .. last for the state read".
fn altered_and_text(draft: &mut Draft, rng: &mut Rng) -> Option<()> {
    spare_altered(draft, rng)?;
    characters_behind(draft, rng)
}

/// But for a line feed put in and a letter in the other case.
fn byte_altered(draft: &mut Draft, rng: &mut Rng) -> Option<()> {
    let at = draft.a_line(rng);
    let text = &mut draft.lines[at].text;
    let place = rng.below(text.len());
    let byte = match rng.chance(50) {
        true => rng.word() as u8,
        false => rng.pick(b"0123456789ABCDEF"),
    };
    if byte == b'\n' || byte.eq_ignore_ascii_case(&text[place]) {
        return None;
    }
    text[place] = byte;
    Some(())
}

fn line_left_out(draft: &mut Draft, rng: &mut Rng) -> Option<()> {
    match rng.chance(30) {
        true => no_end(draft, rng),
        false => record_left_out(draft, rng),
    }
}

fn line_twice(draft: &mut Draft, rng: &mut Rng) -> Option<()> {
    let at = match rng.chance(30) {
        true => 0,
        false => draft.a_line(rng),
    };
    let line = draft.lines[at].clone();
    draft.lines.insert(at, line);
    Some(())
}

fn chance_bytes(draft: &mut Draft, rng: &mut Rng) -> Option<()> {
    draft.lines.truncate(1);
    let length = rng.within(1, 300);
    draft.lines[0].text = (0..length).map(|_| rng.word() as u8).collect();
    Some(())
}
