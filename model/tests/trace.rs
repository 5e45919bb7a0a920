//! The recorded format: the hash in two words, and one line for each step.

use model::drive::trace::{hash, Trace};
use model::SIZE;

/// 5381, times 33 plus a byte each, mod 2^64.
#[test]
fn the_hash_in_two_words() {
    assert_eq!(hash(b""), (0, 5381));
    assert_eq!(hash(b"a"), (0, 5381 * 33 + 97));
    let whole = b"capability kernel"
        .iter()
        .fold(5381u128, |h, &byte| (h * 33 + byte as u128) % (1 << 64));
    let halves = ((whole >> 32) as u32, whole as u32);
    assert_eq!(hash(b"capability kernel"), halves);
    assert!(halves.0 > 0);
    // Every byte counts, and its place.
    assert_ne!(hash(&[0, 1]), hash(&[1, 0]));
    assert_ne!(hash(&[0; SIZE]), hash(&[0; SIZE - 1]));
}

#[test]
fn one_line_a_step() {
    let mut s = Box::new([0; SIZE]);
    let mut trace = Trace::new();
    trace.boot(model::boot(&mut s[..]));
    trace.tick(model::tick(&mut s[..]));
    trace.poke(17_408, u32::MAX);
    let words = [0x0015_0003, u32::MAX, 0, 1];
    trace.call(18, words, -17);
    trace.hash(&s);
    let (high, low) = hash(&s[..]);
    let expected =
        format!("b 0\nt 0\np 17408 4294967295\nc 18 1376259 4294967295 0 1 -17\nh {high} {low}\n");
    assert_eq!(trace.lines(), expected);
    assert!(trace.text().ends_with(&expected));
    let comment = trace.text().len() - expected.len();
    assert!(trace.text()[..comment]
        .lines()
        .all(|line| line.starts_with('#')));
}
