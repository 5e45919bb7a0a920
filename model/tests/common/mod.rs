//! A state and short ways to act on it, for every test file.
#![allow(dead_code)] // each test file uses its own part

use model::layout::{put, word, CLOCK};
use model::{Entry, State, SIZE};

/// The boot process's slot.
pub const CALLER: u32 = 18;

pub struct Bench(pub Box<State>);

pub fn booted() -> Bench {
    let mut s = Box::new([0xAA; SIZE]);
    assert_eq!(model::boot(&mut s[..]), 0);
    Bench(s)
}

impl Bench {
    pub fn call(&mut self, w0: u32, w1: u32, w2: u32, w3: u32) -> i32 {
        self.call_by(CALLER, w0, w1, w2, w3)
    }

    /// Every call leaves a well-formed state, and a refusal leaves the same one.
    pub fn call_by(&mut self, caller: u32, w0: u32, w1: u32, w2: u32, w3: u32) -> i32 {
        let before = self.0.clone();
        let answer = model::call(&mut self.0[..], caller, w0, w1, w2, w3);
        assert!(answer >= 0 || self.0 == before);
        assert_eq!(model::verdict(&self.0[..]), Ok(()));
        answer
    }

    pub fn ticks(&mut self, n: usize) {
        for _ in 0..n {
            assert_eq!(model::tick(&mut self.0[..]), 0);
        }
    }

    pub fn clock(&self) -> u32 {
        word(&self.0[..], CLOCK)
    }

    pub fn set(&mut self, at: usize, value: u32) {
        put(&mut self.0[..], at, value);
    }

    pub fn word(&self, at: usize) -> u32 {
        word(&self.0[..], at)
    }

    pub fn entry(&self, place: usize) -> Entry {
        Entry::read(&self.0, place)
    }
}

/// N:C for a call number and C.
pub fn nc(number: u32, c: u32) -> u32 {
    number << 16 | c
}

/// D1:D0.
pub fn halves(d1: u32, d0: u32) -> u32 {
    d1 << 16 | d0
}
