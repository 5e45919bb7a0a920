//! The record of a session as text, which a replay program can read line by line.

use crate::layout::State;
use std::fmt::Write;

/// The format, as a comment at the file's top.
pub const FORMAT: &str = "\
# Recorded calls on the capability kernel. One line is one step, its fields apart by one space,
# all numbers decimal and at most 4294967295. The steps are run in order on one buffer of 17,472
# bytes.
#   b ANSWER                          boot
#   t ANSWER                          tick
#   p OFFSET WORD                     write a 32-bit word, little-endian, into the buffer
#   c CALLER W0 W1 W2 W3 ANSWER       call
#   h HIGH LOW                        the upper and lower 32 bits of the whole buffer's hash:
#                                     it is 5381, then hash*33 + byte mod 2^64 for each byte
# ANSWER is the signed answer to be expected. A line that begins with # is a comment.
";

#[derive(Default)]
pub struct Trace(String);

impl Trace {
    pub fn new() -> Trace {
        Trace::default()
    }

    pub fn boot(&mut self, answer: i32) {
        self.line(format_args!("b {answer}"));
    }

    pub fn tick(&mut self, answer: i32) {
        self.line(format_args!("t {answer}"));
    }

    pub fn poke(&mut self, at: usize, word: u32) {
        self.line(format_args!("p {at} {word}"));
    }

    pub fn call(&mut self, caller: u32, [w0, w1, w2, w3]: [u32; 4], answer: i32) {
        self.line(format_args!("c {caller} {w0} {w1} {w2} {w3} {answer}"));
    }

    pub fn hash(&mut self, s: &State) {
        let (high, low) = hash(s);
        self.line(format_args!("h {high} {low}"));
    }

    fn line(&mut self, line: std::fmt::Arguments) {
        // Writing into a String cannot fail.
        let _ = writeln!(self.0, "{line}");
    }

    pub fn lines(&self) -> &str {
        &self.0
    }

    pub fn text(&self) -> String {
        format!("{FORMAT}{}", self.0)
    }
}

/// The upper and lower half of a hash of 64 bits, so that a replay program needs no number above a
/// word. Multiply and add is all that it takes in any language.
pub fn hash(bytes: &[u8]) -> (u32, u32) {
    let hash = bytes.iter().fold(5381u64, |hash, &byte| {
        hash.wrapping_mul(33).wrapping_add(byte as u64)
    });
    ((hash >> 32) as u32, hash as u32)
}
