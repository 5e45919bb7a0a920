//! The many spellings of one console line: numbers in either base, any spacing, a carriage return.

use super::rng::Rng;

/// A number in decimal or hexadecimal, its letters in either case, sometimes with zeros before it.
pub fn number(rng: &mut Rng, value: u32) -> Vec<u8> {
    let zeros = match rng.chance(12) {
        true => rng.below(14),
        false => 0,
    };
    let (before, digits) = match rng.chance(40) {
        true => ("", value.to_string()),
        false => ("0x", format!("{value:x}")),
    };
    let mut digits = digits.into_bytes();
    match rng.below(3) {
        0 => {}
        1 => digits.make_ascii_uppercase(),
        _ => digits.iter_mut().for_each(|digit| {
            if rng.chance(50) {
                digit.make_ascii_uppercase();
            }
        }),
    }
    [before.as_bytes(), &vec![b'0'; zeros], &digits].concat()
}

/// So many spaces and tabs.
fn blanks(rng: &mut Rng, n: usize) -> Vec<u8> {
    (0..n).map(|_| rng.pick(b"  \t")).collect()
}

/// The words one after the other, mostly apart by one space, without anything around them.
fn joined(rng: &mut Rng, words: &[Vec<u8>]) -> Vec<u8> {
    let mut line = vec![];
    for (i, word) in words.iter().enumerate() {
        if i > 0 {
            match rng.below(8) {
                0 | 1 => {
                    let several = rng.within(1, 5) as usize;
                    line.extend(blanks(rng, several));
                }
                _ => line.push(b' '),
            }
        }
        line.extend(word);
    }
    line
}

/// A line of these words, its newline apart: blanks may stand around them, and a carriage return
/// at the end.
pub fn line(rng: &mut Rng, words: &[Vec<u8>]) -> Vec<u8> {
    let (before, after) = match rng.chance(20) {
        true => (rng.below(4), rng.below(4)),
        false => (0, 0),
    };
    let mut line = blanks(rng, before);
    line.extend(joined(rng, words));
    line.extend(blanks(rng, after));
    if rng.chance(8) {
        line.push(b'\r');
    }
    line
}

/// The same words in a line of just so many bytes, with blanks on both sides; the carriage return
/// counts.
pub fn line_of(rng: &mut Rng, words: &[Vec<u8>], bytes: usize) -> Vec<u8> {
    let middle = joined(rng, words);
    let end: &[u8] = if rng.chance(30) { b"\r" } else { b"" };
    let missing = bytes.saturating_sub(middle.len() + end.len());
    let before = match rng.chance(50) {
        true => 0,
        false => rng.below(missing + 1),
    };
    let mut line = blanks(rng, before);
    line.extend(middle);
    line.extend(blanks(rng, missing - before));
    line.extend(end);
    line
}
