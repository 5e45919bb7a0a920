//! "−33 no end record or text after it", whatever text that is.

use super::draft::Draft;
use super::Sort;
use crate::drive::rng::Rng;
use crate::hex::record::{self, END, UPPER};

pub static SORTS: [Sort; 9] = [
    Sort("no end record", &[-33], no_end),
    Sort("an empty text", &[-33], empty),
    Sort("a data record behind the end", &[-33], data_behind),
    Sort("an address record behind the end", &[-33], address_behind),
    Sort("an end record behind the end", &[-33], end_behind),
    Sort("a faulty record behind the end", &[-33], faulty_behind),
    Sort("a line feed behind the end", &[-33], line_feed_behind),
    Sort("characters behind the end", &[-33], characters_behind),
    Sort("the text cut anywhere", &[-30, -33], cut),
];

pub fn no_end(draft: &mut Draft, _: &mut Rng) -> Option<()> {
    draft.lines.pop().map(|_| ())
}

fn empty(draft: &mut Draft, _: &mut Rng) -> Option<()> {
    draft.lines.clear();
    Some(())
}

fn data_behind(draft: &mut Draft, rng: &mut Rng) -> Option<()> {
    let at = draft.a_data_line(rng);
    let line = draft.lines[at].clone();
    draft.lines.push(line);
    Some(())
}

fn address_behind(draft: &mut Draft, rng: &mut Rng) -> Option<()> {
    let at = draft.a_line_of(UPPER, rng);
    let line = draft.lines[at].clone();
    draft.lines.push(line);
    Some(())
}

fn end_behind(draft: &mut Draft, rng: &mut Rng) -> Option<()> {
    draft.push(rng, record::bytes(END, 0, &[]));
    Some(())
}

fn faulty_behind(draft: &mut Draft, rng: &mut Rng) -> Option<()> {
    let faulty = rng.pick(&[&[0, 0, 0, 1, 0][..], &[0, 0, 0, 2, 0xFE], &[0], &[]]);
    draft.push(rng, faulty.to_vec());
    Some(())
}

fn line_feed_behind(draft: &mut Draft, rng: &mut Rng) -> Option<()> {
    let feeds = rng.pick(&[&b"\n"[..], b"\r\n", b"\n\n"]);
    behind(draft, feeds)
}

pub fn characters_behind(draft: &mut Draft, rng: &mut Rng) -> Option<()> {
    let characters = rng.pick(&[&b" "[..], b"\0", b"\r", b"\x1A", b":", b"#end", b"\xFF"]);
    behind(draft, characters)
}

fn behind(draft: &mut Draft, text: &[u8]) -> Option<()> {
    let end = draft.end();
    draft.lines[end].text.extend(text);
    Some(())
}

/// Behind a line, or inside one.
fn cut(draft: &mut Draft, rng: &mut Rng) -> Option<()> {
    let at = draft.a_line(rng);
    draft.lines.truncate(at + 1);
    let text = &mut draft.lines[at].text;
    let kept = match rng.chance(20) {
        true => 0,
        false => rng.below(text.len()),
    };
    text.truncate(kept);
    Some(())
}
