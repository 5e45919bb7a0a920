//! Console lines that cannot be read, of each sort in turn, so that every message of docs/USING.md
//! is met. Most hold a whole good call, so that a console which reads them has something to do.

use super::bad_words::{no_number_for, too_large_word, WRAPPING};
use super::rng::Rng;
use super::spelling::{line, line_of, number};
use crate::console::LONGEST;

#[derive(Default)]
pub struct BadLines(usize);

impl BadLines {
    /// The next bad line, without its newline.
    pub fn next(&mut self, rng: &mut Rng) -> Vec<u8> {
        let sort = SORTS[self.0 % SORTS.len()];
        self.0 += 1;
        sort(rng)
    }
}

const SORTS: [fn(&mut Rng) -> Vec<u8>; 22] = [
    one_byte_too_long,
    after_boot,
    after_show,
    tick_alone,
    other_beginning,
    wrong_count,
    no_number,
    too_large,
    as_long_as_can_be,
    far_too_long,
    tick_of_several,
    tick_of_no_number,
    tick_of_too_large,
    one_of_each,
    wrong_count_and_words,
    two_calls_in_one,
    comment_after_a_call,
    comment_too_long,
    carriage_returns,
    chance_bytes,
    save_of_no_file,
    load_of_no_file,
];

/// A send to the boot endpoint by the boot process: if a console ran it, the count would tell.
fn good_call(rng: &mut Rng) -> Vec<Vec<u8>> {
    [18, 0x0012_0000, 5, 0, 0].map(|n| number(rng, n)).to_vec()
}

fn words(of: &[&[u8]]) -> Vec<Vec<u8>> {
    of.iter().map(|word| word.to_vec()).collect()
}

fn one_byte_too_long(rng: &mut Rng) -> Vec<u8> {
    let call = good_call(rng);
    line_of(rng, &call, LONGEST + 1)
}

/// Of the greatest length, so that it is what the line says that is wrong.
fn as_long_as_can_be(rng: &mut Rng) -> Vec<u8> {
    let wrong = words(&[rng.pick(&[&b"boot"[..], b"show", b"tick 1", b"stop"]), b"5"]);
    line_of(rng, &wrong, LONGEST)
}

/// Past the sizes that buffers have; a second call stands where some would cut it.
fn far_too_long(rng: &mut Rng) -> Vec<u8> {
    let cut = rng.pick(&[1024, 1025, 2048, 4096, 4096, 8192]);
    let (first, second) = (good_call(rng), good_call(rng));
    let mut whole = line_of(rng, &first, cut);
    whole.extend(line(rng, &second));
    if rng.chance(5) {
        whole.resize(66_000, b' ');
    }
    whole
}

fn comment_too_long(rng: &mut Rng) -> Vec<u8> {
    let length = LONGEST + 1 + rng.below(3);
    line_of(rng, &words(&[b"#", b"too", b"long"]), length)
}

fn after_boot(rng: &mut Rng) -> Vec<u8> {
    let after = rng.pick(&[&b"boot"[..], b"0", b"#", b"now please", b"\r\r"]);
    line(rng, &words(&[b"boot", after]))
}

fn after_show(rng: &mut Rng) -> Vec<u8> {
    let after = rng.pick(&[&b"show"[..], b"18", b"#", b"the state", b"\0"]);
    line(rng, &words(&[b"show", after]))
}

fn save_of_no_file(rng: &mut Rng) -> Vec<u8> {
    let words = no_file(rng, b"save");
    line(rng, &words)
}

fn load_of_no_file(rng: &mut Rng) -> Vec<u8> {
    let words = no_file(rng, b"load");
    line(rng, &words)
}

/// No name after the word, or several: a name has no blanks.
const NO_FILE: [&[&[u8]]; 6] = [
    &[],
    &[b"my", b"state.hex"],
    &[b"sound-0.hex", b"#"],
    &[b"sound-0.hex", b"sound-1.hex", b"sound-2.hex"],
    &[b"\"my", b"state.hex\""],
    &[b"a\\", b"b"],
];

fn no_file(rng: &mut Rng, word: &[u8]) -> Vec<Vec<u8>> {
    words(&[&[word][..], rng.pick(&NO_FILE)].concat())
}

fn tick_alone(rng: &mut Rng) -> Vec<u8> {
    line(rng, &words(&[b"tick"]))
}

fn tick_of_several(rng: &mut Rng) -> Vec<u8> {
    let after = rng.pick(&[&b"8 8"[..], b"8 # ticks", b"a b", b"1 2 3", b"0 4294967296"]);
    line(rng, &words(&[b"tick", after]))
}

fn tick_of_no_number(rng: &mut Rng) -> Vec<u8> {
    let ticks = no_number_for(rng, 1);
    line(rng, &[b"tick".to_vec(), ticks])
}

/// Only what wraps to few ticks, so that a console that makes them still comes to an end.
fn tick_of_too_large(rng: &mut Rng) -> Vec<u8> {
    let ticks = rng.pick(&WRAPPING);
    line(rng, &words(&[b"tick", ticks]))
}

fn other_beginning(rng: &mut Rng) -> Vec<u8> {
    let mut whole = good_call(rng);
    let first = rng.pick(&[
        &b"BOOT"[..],
        b"Tick",
        b"boots",
        b"tick8",
        b"sho",
        b"Save",
        b"LOAD",
        b"saved",
        b"load#",
        b"lo",
        b"call",
        b"-18",
        b"+18",
        b"x12",
        b"\xEF\xBB\xBF18",
        b"\x0C",
        b"\0",
        b"\xFF",
        b"boot#",
        b"!",
    ]);
    match rng.chance(50) {
        true => whole[0] = first.to_vec(),
        false => whole = words(&[first]),
    }
    line(rng, &whole)
}

/// Fewer than five words or more, now and then as many as a line can hold.
fn wrong_count(rng: &mut Rng) -> Vec<u8> {
    let mut whole = good_call(rng);
    if rng.chance(10) {
        let most = LONGEST / 2;
        let short = vec![b"0".to_vec(); rng.pick(&[6, 10, 99, 100, 256, most])];
        return short.join(&b' ');
    }
    match rng.pick(&[1, 2, 3, 4, 6, 7, 10]) {
        fewer @ 1..=4 => whole.truncate(fewer),
        more => whole.resize(more, b"0".to_vec()),
    }
    line(rng, &whole)
}

/// The count is named, not the words.
fn wrong_count_and_words(rng: &mut Rng) -> Vec<u8> {
    let mut whole = good_call(rng);
    let k = rng.below(4);
    whole[k] = no_number_for(rng, k);
    match rng.chance(50) {
        true => whole.truncate(4),
        false => whole.push(too_large_word(rng)),
    }
    line(rng, &whole)
}

fn two_calls_in_one(rng: &mut Rng) -> Vec<u8> {
    let whole = [good_call(rng), good_call(rng)].concat();
    line(rng, &whole)
}

/// A `#` that is not first begins no comment.
fn comment_after_a_call(rng: &mut Rng) -> Vec<u8> {
    let mut whole = good_call(rng);
    whole.extend(words(&[b"#", b"send"]));
    line(rng, &whole)
}

fn no_number(rng: &mut Rng) -> Vec<u8> {
    let mut whole = good_call(rng);
    let k = rng.below(5);
    whole[k] = no_number_for(rng, k);
    line(rng, &whole)
}

fn too_large(rng: &mut Rng) -> Vec<u8> {
    let mut whole = good_call(rng);
    whole[rng.below(5)] = too_large_word(rng);
    line(rng, &whole)
}

/// No number and one too large, in either order: the left one is named.
fn one_of_each(rng: &mut Rng) -> Vec<u8> {
    let mut whole = good_call(rng);
    let k = rng.below(5);
    let other = (k + 1 + rng.below(4)) % 5;
    whole[k] = no_number_for(rng, k);
    whole[other] = too_large_word(rng);
    line(rng, &whole)
}

/// Carriage returns that are not the one before the line's end are parts of words.
fn carriage_returns(rng: &mut Rng) -> Vec<u8> {
    let call = good_call(rng);
    match rng.below(4) {
        0 => [&call.join(&b' ')[..], b"\r\r"].concat(),
        1 => [&call.join(&b' ')[..], b"\r "].concat(),
        2 => call.join(&b'\r'),
        _ => words(&[b"boot\r\r"]).concat(),
    }
}

/// Any bytes, but none that ends the line, after one that begins no line.
fn chance_bytes(rng: &mut Rng) -> Vec<u8> {
    let mut bytes = vec![rng.pick(b"!\x80\xFF\x01~")];
    for _ in 0..rng.below(200) {
        bytes.push(match rng.word() as u8 {
            b'\n' => 0,
            byte => byte,
        });
    }
    bytes
}
