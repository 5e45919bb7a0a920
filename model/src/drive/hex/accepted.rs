//! Changes after which the text still gives the same state: "accepting either letter case, any data
//! length from 1 to 255 and CR LF", any order, and any number of address records.

use super::draft::{Draft, MOST};
use super::Sort;
use crate::drive::rng::Rng;
use crate::hex::record::{self, DATA, UPPER};
use crate::hex::HALF;

pub static SORTS: [Sort; 11] = [
    Sort("nothing changed", &[0], nothing),
    Sort("letter case of a line", &[0], letter_case),
    Sort("the other line end", &[0], line_end),
    Sort("a record cut in two", &[0], cut_in_two),
    Sort("two records joined", &[0], joined),
    Sort("two lines swapped", &[0], swapped),
    Sort("the address record again", &[0], address_again),
    Sort("another upper half, and back", &[0], half_and_back),
    Sort("another upper half behind the data", &[0], half_behind),
    Sort("address field of the end record", &[0], field_of_the_end),
    Sort(
        "address field of an address record",
        &[0],
        field_of_an_address,
    ),
];

fn nothing(_: &mut Draft, _: &mut Rng) -> Option<()> {
    Some(())
}

fn letter_case(draft: &mut Draft, rng: &mut Rng) -> Option<()> {
    let at = draft.a_line(rng);
    let text = &mut draft.lines[at].text;
    let before = text.clone();
    for byte in text.iter_mut().filter(|byte| byte.is_ascii_alphabetic()) {
        if rng.chance(60) {
            *byte ^= b'a' ^ b'A';
        }
    }
    (*text != before).then(|| ())
}

fn line_end(draft: &mut Draft, rng: &mut Rng) -> Option<()> {
    let at = draft.a_line(rng);
    let line = &mut draft.lines[at];
    let end: &[u8] = match line.text.ends_with(b"\r\n") {
        true => b"\n",
        false => b"\r\n",
    };
    line.text.truncate(line.body());
    line.text.extend(end);
    Some(())
}

fn cut_in_two(draft: &mut Draft, rng: &mut Rng) -> Option<()> {
    let at = draft.a_data_line(rng);
    let line = draft.lines[at].clone();
    if line.data().len() < 2 {
        return None;
    }
    let (first, second) = line.data().split_at(1 + rng.below(line.data().len() - 1));
    let address = line.address();
    let behind = address + first.len() as u16;
    draft.put(at, record::bytes(DATA, address, first), rng);
    draft.insert(at + 1, record::bytes(DATA, behind, second), rng);
    Some(())
}

fn joined(draft: &mut Draft, rng: &mut Rng) -> Option<()> {
    let fits = |at: &usize| {
        let (line, next) = (&draft.lines[*at], &draft.lines[*at + 1]);
        let length = line.data().len();
        line.kind() == DATA
            && next.kind() == DATA
            && line.address() + length as u16 == next.address()
            && length + next.data().len() <= MOST
    };
    let all: Vec<usize> = (0..draft.end()).filter(fits).collect();
    if all.is_empty() {
        return None;
    }
    let at = rng.pick(&all);
    let next = draft.lines.remove(at + 1);
    let line = &draft.lines[at];
    let data = [line.data(), next.data()].concat();
    draft.put(at, record::bytes(DATA, line.address(), &data), rng);
    Some(())
}

fn swapped(draft: &mut Draft, rng: &mut Rng) -> Option<()> {
    let at = draft.a_data_line(rng);
    let other = (at + 1 + rng.below(6)).min(draft.end());
    if draft.lines[other].kind() != DATA {
        return None;
    }
    draft.lines.swap(at, other);
    Some(())
}

fn address_again(draft: &mut Draft, rng: &mut Rng) -> Option<()> {
    let at = draft.a_line(rng);
    let again = draft.address_record(HALF, rng);
    draft.lines.insert(at, again);
    Some(())
}

fn half_and_back(draft: &mut Draft, rng: &mut Rng) -> Option<()> {
    address_again(draft, rng)?;
    let at = draft.a_line_of(UPPER, rng);
    let other = draft.address_record(rng.word() as u16, rng);
    draft.lines.insert(at, other);
    Some(())
}

fn half_behind(draft: &mut Draft, rng: &mut Rng) -> Option<()> {
    let other = draft.address_record(rng.word() as u16, rng);
    let end = draft.end();
    draft.lines.insert(end, other);
    Some(())
}

fn field_of_the_end(draft: &mut Draft, rng: &mut Rng) -> Option<()> {
    let end = draft.end();
    address_field(draft, end, rng)
}

fn field_of_an_address(draft: &mut Draft, rng: &mut Rng) -> Option<()> {
    let at = draft.a_line_of(UPPER, rng);
    address_field(draft, at, rng)
}

fn address_field(draft: &mut Draft, at: usize, rng: &mut Rng) -> Option<()> {
    let field = rng.within(1, 0xFFFF) as u16;
    draft.change(at, rng, |bytes| {
        bytes[1..3].copy_from_slice(&field.to_be_bytes());
    });
    Some(())
}
