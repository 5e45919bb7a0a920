//! Several faults at once: "the first faulty line decides, within a line in that order".

use super::characters::character_in;
use super::draft::Draft;
use super::ends::{characters_behind, no_end};
use super::sums::sum_off_in;
use super::Sort;
use crate::drive::rng::Rng;
use crate::hex::record::{self, DATA};
use crate::layout::SIZE;

pub static SORTS: [Sort; 13] = [
    Sort("a character and the sum", &[-30], character_and_sum),
    Sort("the type and the sum", &[-30], type_and_sum),
    Sort("the length and the sum", &[-30], length_and_sum),
    Sort("a character and the address", &[-30], character_and_address),
    Sort("the length and the address", &[-30], length_and_address),
    Sort("the sum and the address", &[-31], sum_and_address),
    Sort("character, sum and address", &[-30], all_three),
    Sort("two faulty lines", &[-30, -31, -32], two_lines),
    Sort("a gap and text behind the end", &[-32], gap_and_text),
    Sort("a gap and the sum of the end", &[-31], gap_and_sum),
    Sort(
        "a gap and a character in the end",
        &[-30],
        gap_and_character,
    ),
    Sort(
        "a gap and no line feed at the end",
        &[-30],
        gap_and_line_end,
    ),
    Sort("a gap and no end record", &[-33], gap_and_no_end),
];

fn some(rng: &mut Rng) -> u8 {
    rng.within(1, 255) as u8
}

fn character_and_sum(draft: &mut Draft, rng: &mut Rng) -> Option<()> {
    let (at, off) = (draft.a_line(rng), some(rng));
    sum_off_in(draft, at, rng, off)?;
    character_in(draft, at, rng, b'.')
}

/// A byte altered while the sum stays.
fn altered(draft: &mut Draft, at: usize, rng: &mut Rng, place: usize, to: u8) -> Option<()> {
    let mut bytes = draft.lines[at].bytes.clone();
    bytes[place] = to;
    draft.put(at, bytes, rng);
    Some(())
}

fn type_and_sum(draft: &mut Draft, rng: &mut Rng) -> Option<()> {
    let (at, kind) = (draft.a_line(rng), rng.pick(&[2, 3, 5, 6, 0xFF]));
    altered(draft, at, rng, 3, kind)
}

fn length_and_sum(draft: &mut Draft, rng: &mut Rng) -> Option<()> {
    let at = draft.a_line(rng);
    let length = draft.lines[at].bytes[0].wrapping_add(some(rng));
    altered(draft, at, rng, 0, length)
}

/// A line of data outside; answers where it stands.
fn outside(draft: &mut Draft, rng: &mut Rng) -> usize {
    let at = draft.a_line(rng);
    let address = (SIZE + rng.below(0x4000)) as u16;
    draft.insert(at, record::bytes(DATA, address, &[0; 3]), rng);
    at
}

fn character_and_address(draft: &mut Draft, rng: &mut Rng) -> Option<()> {
    let at = outside(draft, rng);
    character_in(draft, at, rng, b' ')
}

fn length_and_address(draft: &mut Draft, rng: &mut Rng) -> Option<()> {
    let at = outside(draft, rng);
    draft.change(at, rng, |bytes| bytes[0] += 1);
    Some(())
}

fn sum_and_address(draft: &mut Draft, rng: &mut Rng) -> Option<()> {
    let (at, off) = (outside(draft, rng), some(rng));
    sum_off_in(draft, at, rng, off)
}

fn all_three(draft: &mut Draft, rng: &mut Rng) -> Option<()> {
    let at = outside(draft, rng);
    let off = some(rng);
    sum_off_in(draft, at, rng, off)?;
    character_in(draft, at, rng, b'x')
}

/// Each with a fault of its own, some lines apart.
fn two_lines(draft: &mut Draft, rng: &mut Rng) -> Option<()> {
    let at = draft.a_line(rng);
    let other = at + 1 + rng.below(5);
    if other > draft.end() {
        return None;
    }
    // The second first: the first may put in a line.
    for line in [other, at] {
        match rng.below(4) {
            0 => character_in(draft, line, rng, b'/')?,
            1 => draft.change(line, rng, |bytes| bytes[3] = 2),
            2 => sum_off_in(draft, line, rng, 1)?,
            _ => draft.insert(line, record::bytes(DATA, 0xFFFF, &[0]), rng),
        }
    }
    Some(())
}

/// One of the last data records left out.
fn late_gap(draft: &mut Draft, rng: &mut Rng) -> Option<()> {
    let at = draft.end().checked_sub(1 + rng.below(6))?;
    let line = draft.lines.remove(at);
    (line.kind() == DATA).then(|| ())
}

fn gap_and_text(draft: &mut Draft, rng: &mut Rng) -> Option<()> {
    late_gap(draft, rng)?;
    characters_behind(draft, rng)
}

fn gap_and_sum(draft: &mut Draft, rng: &mut Rng) -> Option<()> {
    late_gap(draft, rng)?;
    let (end, off) = (draft.end(), some(rng));
    sum_off_in(draft, end, rng, off)
}

fn gap_and_character(draft: &mut Draft, rng: &mut Rng) -> Option<()> {
    late_gap(draft, rng)?;
    let end = draft.end();
    character_in(draft, end, rng, b'G')
}

fn gap_and_line_end(draft: &mut Draft, rng: &mut Rng) -> Option<()> {
    late_gap(draft, rng)?;
    let end = draft.end();
    draft.lines[end].text.pop().map(|_| ())
}

fn gap_and_no_end(draft: &mut Draft, rng: &mut Rng) -> Option<()> {
    late_gap(draft, rng)?;
    no_end(draft, rng)
}
