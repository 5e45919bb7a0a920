//! A text in the making: the lines of a state's text, each a record and its spelling.

use super::spelling::Style;
use crate::drive::rng::Rng;
use crate::hex::record::{self, DATA, END, UPPER};
use crate::hex::{DATA_BYTES, HALF};
use crate::layout::{State, SIZE};

/// "any data length from 1 to 255".
pub const MOST: usize = 255;

/// The bytes of a record and the line that spells them.
#[derive(Clone)]
pub struct Line {
    pub bytes: Vec<u8>,
    pub text: Vec<u8>,
}

impl Line {
    pub fn kind(&self) -> u8 {
        self.bytes[3]
    }

    pub fn address(&self) -> u16 {
        u16::from_be_bytes([self.bytes[1], self.bytes[2]])
    }

    pub fn data(&self) -> &[u8] {
        &self.bytes[4..self.bytes.len() - 1]
    }

    /// How many bytes of the line stand before its end.
    pub fn body(&self) -> usize {
        self.text.len()
            - self.text.ends_with(b"\n") as usize
            - self.text.ends_with(b"\r\n") as usize
    }
}

pub struct Draft {
    style: Style,
    pub lines: Vec<Line>,
}

impl Draft {
    /// The text as the writer makes it.
    pub fn as_written(s: &State, rng: &mut Rng) -> Draft {
        let mut draft = Draft::empty(Style::AS_WRITTEN);
        draft.push(rng, record::upper(HALF));
        draft.push_data(s, DATA_BYTES, DATA_BYTES, rng);
        draft.push(rng, record::bytes(END, 0, &[]));
        draft
    }

    /// Any text of the state that is accepted. Most have few long records, so that many can be read
    /// in little time.
    pub fn at_random(s: &State, rng: &mut Rng) -> Draft {
        let mut draft = Draft::empty(Style::at_random(rng));
        match rng.below(200) {
            0 => draft.push_data(s, 1, 1, rng),
            1..=4 => draft.push_data(s, 1, 16, rng),
            5..=19 => draft.push_data(s, DATA_BYTES, DATA_BYTES, rng),
            20..=25 => draft.push_data(s, 32, 32, rng),
            26..=59 => draft.push_data(s, 1, MOST, rng),
            60..=99 => draft.push_data(s, 100, MOST, rng),
            _ => draft.push_data(s, MOST, MOST, rng),
        }
        if rng.chance(40) {
            draft.shuffle(rng);
        }
        let first = draft.address_record(HALF, rng);
        draft.lines.insert(0, first);
        if rng.chance(40) {
            for _ in 0..rng.within(1, 4) {
                draft.further_address_record(rng);
            }
        }
        let end = record::bytes(END, unread_address(rng), &[]);
        draft.push(rng, end);
        draft
    }

    /// One byte a record and CR LF: the longest text of a state with this many address records.
    pub fn longest(s: &State, address_records: usize, rng: &mut Rng) -> Draft {
        let mut draft = Draft::empty(Style::CARRIAGE_RETURNS);
        for _ in 0..address_records {
            draft.push(rng, record::upper(HALF));
        }
        draft.push_data(s, 1, 1, rng);
        draft.push(rng, record::bytes(END, 0, &[]));
        draft
    }

    fn empty(style: Style) -> Draft {
        Draft {
            style,
            lines: vec![],
        }
    }

    /// The data records of a state in rising order, each of `least..=most` bytes but the last.
    fn push_data(&mut self, s: &State, least: usize, most: usize, rng: &mut Rng) {
        let mut at = 0;
        while at < SIZE {
            let end = (at + least + rng.below(most - least + 1)).min(SIZE);
            self.push(rng, record::bytes(DATA, at as u16, &s[at..end]));
            at = end;
        }
    }

    fn shuffle(&mut self, rng: &mut Rng) {
        for i in (1..self.lines.len()).rev() {
            self.lines.swap(i, rng.below(i + 1));
        }
    }

    /// For the state's own upper half; or for another, and back before any data.
    fn further_address_record(&mut self, rng: &mut Rng) {
        let at = rng.below(self.lines.len()) + 1;
        let back = self.address_record(HALF, rng);
        self.lines.insert(at, back);
        if rng.chance(30) {
            let other = self.address_record(rng.word() as u16, rng);
            self.lines.insert(at, other);
        }
    }

    /// An address record for this upper half, spelled.
    pub fn address_record(&self, half: u16, rng: &mut Rng) -> Line {
        let field = unread_address(rng);
        self.line(record::bytes(UPPER, field, &half.to_be_bytes()), rng)
    }

    /// The bytes of a record, spelled.
    pub fn line(&self, bytes: Vec<u8>, rng: &mut Rng) -> Line {
        Line {
            text: self.style.line(&bytes, rng),
            bytes,
        }
    }

    pub fn push(&mut self, rng: &mut Rng, bytes: Vec<u8>) {
        let line = self.line(bytes, rng);
        self.lines.push(line);
    }

    pub fn insert(&mut self, at: usize, bytes: Vec<u8>, rng: &mut Rng) {
        let line = self.line(bytes, rng);
        self.lines.insert(at, line);
    }

    /// Line `at` of other bytes.
    pub fn put(&mut self, at: usize, bytes: Vec<u8>, rng: &mut Rng) {
        self.lines[at] = self.line(bytes, rng);
    }

    /// Line `at` with its bytes changed and its sum made right.
    pub fn change(&mut self, at: usize, rng: &mut Rng, change: impl FnOnce(&mut Vec<u8>)) {
        let mut bytes = self.lines[at].bytes.clone();
        bytes.pop();
        change(&mut bytes);
        self.put(at, record::summed(bytes), rng);
    }

    /// Any line, mostly one of the first.
    pub fn a_line(&self, rng: &mut Rng) -> usize {
        match rng.below(10) {
            0 => self.end(),
            1 | 2 => rng.below(self.lines.len()),
            _ => rng.below(self.lines.len().min(8)),
        }
    }

    /// A line of this type, mostly one of the first.
    pub fn a_line_of(&self, kind: u8, rng: &mut Rng) -> usize {
        let all: Vec<usize> = (0..self.lines.len())
            .filter(|&i| self.lines[i].kind() == kind)
            .collect();
        match rng.chance(80) {
            true => all[rng.below(all.len().min(8))],
            false => rng.pick(&all),
        }
    }

    pub fn a_data_line(&self, rng: &mut Rng) -> usize {
        self.a_line_of(DATA, rng)
    }

    /// The end record's line.
    pub fn end(&self) -> usize {
        self.lines.len() - 1
    }

    pub fn text(&self) -> Vec<u8> {
        self.lines
            .iter()
            .flat_map(|line| line.text.clone())
            .collect()
    }
}

/// The address field of types 01 and 04, which is not read: mostly 0.
fn unread_address(rng: &mut Rng) -> u16 {
    match rng.chance(15) {
        true => rng.word() as u16,
        false => 0,
    }
}
