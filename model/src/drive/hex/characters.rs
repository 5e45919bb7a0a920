//! "−30 character, line end": one line is no colon, digits and line end.

use super::draft::Draft;
use super::Sort;
use crate::drive::rng::Rng;

pub static SORTS: [Sort; 15] = [
    Sort("a space", &[-30], |d, r| character(d, r, b' ')),
    Sort("a tab", &[-30], |d, r| character(d, r, b'\t')),
    Sort("a NUL", &[-30], |d, r| character(d, r, 0)),
    Sort("a letter G", &[-30], |d, r| character(d, r, b'G')),
    Sort("a character beside the digits", &[-30], beside_the_digits),
    Sort("a byte above 127", &[-30], above_127),
    Sort("a byte order mark", &[-30], byte_order_mark),
    Sort("a lone carriage return", &[-30], lone_carriage_return),
    Sort("two carriage returns", &[-30], two_carriage_returns),
    Sort("no colon", &[-30], no_colon),
    Sort("two colons", &[-30], two_colons),
    Sort("a blank line", &[-30], blank_line),
    Sort("a line feed inside a line", &[-30], line_feed_inside),
    Sort(
        "no line feed between two lines",
        &[-30],
        no_line_feed_between,
    ),
    Sort("no line feed at the end", &[-30], no_line_feed_at_the_end),
];

/// Puts a character into a line: before the colon or in its place, among the digits, behind them.
pub fn character(draft: &mut Draft, rng: &mut Rng, character: u8) -> Option<()> {
    let at = draft.a_line(rng);
    character_in(draft, at, rng, character)
}

/// The same in line `at`.
pub fn character_in(draft: &mut Draft, at: usize, rng: &mut Rng, character: u8) -> Option<()> {
    let line = &mut draft.lines[at];
    let body = line.body();
    let place = match rng.below(6) {
        0 => 0,
        1 => body,
        _ => rng.below(body),
    };
    match place < body && rng.chance(50) {
        true => line.text[place] = character,
        false => line.text.insert(place, character),
    }
    Some(())
}

/// The neighbors of `0`, `9`, `A`, `F`, `a` and `f`, but for the colon.
fn beside_the_digits(draft: &mut Draft, rng: &mut Rng) -> Option<()> {
    let beside = rng.pick(b"/;@G`g");
    character(draft, rng, beside)
}

fn above_127(draft: &mut Draft, rng: &mut Rng) -> Option<()> {
    let above = rng.within(0x80, 0xFF) as u8;
    character(draft, rng, above)
}

fn byte_order_mark(draft: &mut Draft, rng: &mut Rng) -> Option<()> {
    let at = match rng.chance(80) {
        true => 0,
        false => draft.a_line(rng),
    };
    draft.lines[at].text.splice(..0, *b"\xEF\xBB\xBF");
    Some(())
}

/// Not directly before the line feed, where it belongs to the line's end.
fn lone_carriage_return(draft: &mut Draft, rng: &mut Rng) -> Option<()> {
    let at = draft.a_line(rng);
    let line = &mut draft.lines[at];
    let place = rng.below(line.body());
    match rng.chance(50) {
        true => line.text[place] = b'\r',
        false => line.text.insert(place, b'\r'),
    }
    Some(())
}

fn two_carriage_returns(draft: &mut Draft, rng: &mut Rng) -> Option<()> {
    let at = draft.a_line(rng);
    let line = &mut draft.lines[at];
    line.text.truncate(line.body());
    line.text.extend(b"\r\r\n");
    Some(())
}

fn no_colon(draft: &mut Draft, rng: &mut Rng) -> Option<()> {
    let at = draft.a_line(rng);
    draft.lines[at].text.remove(0);
    Some(())
}

fn two_colons(draft: &mut Draft, rng: &mut Rng) -> Option<()> {
    let at = draft.a_line(rng);
    let line = &mut draft.lines[at];
    let place = rng.below(line.body() + 1);
    line.text.insert(place, b':');
    Some(())
}

fn blank_line(draft: &mut Draft, rng: &mut Rng) -> Option<()> {
    let at = draft.a_line(rng);
    let blank = rng.pick(&[&b"\n"[..], b"\r\n", b"\n\n", b" \n", b"\t\r\n"]);
    draft.lines[at].text.splice(..0, blank.iter().copied());
    Some(())
}

fn line_feed_inside(draft: &mut Draft, rng: &mut Rng) -> Option<()> {
    let at = draft.a_line(rng);
    let line = &mut draft.lines[at];
    let place = rng.below(line.body());
    line.text.insert(place, b'\n');
    Some(())
}

fn no_line_feed_between(draft: &mut Draft, rng: &mut Rng) -> Option<()> {
    let at = draft.a_line(rng);
    if at == draft.end() {
        return None;
    }
    let line = &mut draft.lines[at];
    let kept = match rng.chance(50) {
        true => line.body(),
        false => line.text.len() - 1,
    };
    line.text.truncate(kept);
    Some(())
}

/// The end of the text ends no line, a perfect end record's neither.
fn no_line_feed_at_the_end(draft: &mut Draft, rng: &mut Rng) -> Option<()> {
    let end = draft.end();
    let line = &mut draft.lines[end];
    line.text.truncate(line.body());
    if rng.chance(40) {
        line.text.push(b'\r');
    }
    Some(())
}
