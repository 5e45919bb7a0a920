//! "−31 record sum": every digit is one and every length right, but the bytes do not add up to 0.

use super::draft::Draft;
use super::Sort;
use crate::drive::rng::Rng;
use crate::hex::record::UPPER;

pub static SORTS: [Sort; 6] = [
    Sort("sum off", &[-31], |d, r| sum_off_by(d, r, 1, 255)),
    Sort("sum off by one", &[-31], |d, r| sum_off_by(d, r, 1, 1)),
    Sort("sum of the end record off", &[-31], of_the_end),
    Sort("sum of an address record off", &[-31], of_an_address),
    Sort("sum that is not negated", &[-31], not_negated),
    Sort("a digit altered", &[-30, -31], digit_altered),
];

fn sum_off_by(draft: &mut Draft, rng: &mut Rng, least: u32, most: u32) -> Option<()> {
    let at = draft.a_line(rng);
    let off = rng.within(least, most) as u8;
    sum_off_in(draft, at, rng, off)
}

/// The sum of line `at` off by so much.
pub fn sum_off_in(draft: &mut Draft, at: usize, rng: &mut Rng, off: u8) -> Option<()> {
    let mut bytes = draft.lines[at].bytes.clone();
    let sum = bytes.pop()?;
    bytes.push(sum.wrapping_add(off));
    draft.put(at, bytes, rng);
    Some(())
}

fn of_the_end(draft: &mut Draft, rng: &mut Rng) -> Option<()> {
    let (end, off) = (draft.end(), rng.within(1, 255) as u8);
    sum_off_in(draft, end, rng, off)
}

fn of_an_address(draft: &mut Draft, rng: &mut Rng) -> Option<()> {
    let (at, off) = (draft.a_line_of(UPPER, rng), rng.within(1, 255) as u8);
    sum_off_in(draft, at, rng, off)
}

/// The sum itself, or its complement, in the place of what makes it 0.
fn not_negated(draft: &mut Draft, rng: &mut Rng) -> Option<()> {
    let at = draft.a_line(rng);
    let right = *draft.lines[at].bytes.last()?;
    let wrong = match rng.chance(50) {
        true => right.wrapping_neg(),
        false => right.wrapping_sub(1),
    };
    if wrong == right {
        return None;
    }
    sum_off_in(draft, at, rng, wrong.wrapping_sub(right))
}

/// One digit into another: in the length and the type it is −30.
fn digit_altered(draft: &mut Draft, rng: &mut Rng) -> Option<()> {
    let at = draft.a_line(rng);
    let line = &mut draft.lines[at];
    let place = rng.within(1, line.body() as u32 - 1) as usize;
    let digit = rng.pick(b"0123456789ABCDEF");
    if digit.eq_ignore_ascii_case(&line.text[place]) {
        return None;
    }
    line.text[place] = digit;
    Some(())
}
