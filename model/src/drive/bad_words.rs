//! Words that stand where a console line needs a number: misspelled ones, and numbers above a word.

use super::rng::Rng;

/// Words that are no numbers, though they begin with a digit.
const NO_NUMBERS: [&[u8]; 21] = [
    b"0x",
    b"0X1F",
    b"12a",
    b"1_000",
    b"0x1G",
    b"0xx1",
    b"00x1",
    b"0x0x1",
    b"0x-1",
    b"0x+1",
    b"5+",
    b"5,",
    b"1.0",
    b"1e3",
    b"0b1",
    b"1Fh",
    b"99999999999z",
    b"0x100000000g",
    b"7\0",
    b"7\xFF",
    b"7\x0B",
];

/// More of them; the line must not begin with one.
const NO_DIGIT_FIRST: [&[u8]; 12] = [
    b"+5",
    b"-1",
    b"x1F",
    b"boot",
    b"_1",
    b"#",
    b"#5",
    b"\xC2\xA0",
    b"\xFF\xFE",
    b"\0",
    b"\r5",
    b"\xD9\xA3",
];

/// Just above a word, and what is small again if 32, 64 or 128 bits wrap.
pub const WRAPPING: [&[u8]; 10] = [
    b"4294967296",
    b"0x100000000",
    b"4294967314",
    b"0x100000012",
    b"18446744073709551616",
    b"18446744073709551634",
    b"0x10000000000000012",
    b"340282366920938463463374607431768211456",
    b"0x100000000000000000000000000000000",
    b"0000000000000000004294967296",
];

/// Too large however the bits wrap.
const LARGE: [&[u8]; 3] = [
    b"99999999999999999999",
    b"0x0000000000fFfFfFfFf",
    b"6000000000",
];

pub fn too_large_word(rng: &mut Rng) -> Vec<u8> {
    match rng.chance(80) {
        true => rng.pick(&WRAPPING).to_vec(),
        false => rng.pick(&LARGE).to_vec(),
    }
}

/// A word that is no number, for word k of a call, from 0.
pub fn no_number_for(rng: &mut Rng, k: usize) -> Vec<u8> {
    match k > 0 && rng.chance(40) {
        true => rng.pick(&NO_DIGIT_FIRST).to_vec(),
        false => rng.pick(&NO_NUMBERS).to_vec(),
    }
}
