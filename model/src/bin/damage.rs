//! damage [buffers] [seed]: damaged sound states and chance buffers, to which the checks of model
//! and kernel must say the same and in which no byte may change. Prints what was damaged and which
//! clause of "well formed" it met; exit 1 on a difference.

mod shared;

use model::drive::command;
use model::drive::damages::{self, Damage, Level};
use model::drive::rng::Rng;
use model::drive::sound;
use model::{Fault, State, SIZE};
use shared::kernel::{announce, KERNEL};
use std::collections::BTreeMap;
use std::process::exit;

/// Every so many buffers the sound states are made anew.
const REFRESH: u64 = 500;
const SOUND: usize = 24;

fn main() {
    announce();
    let buffers = command::number(1, 100_000);
    let seed = command::number(2, 1);
    println!("buffers {buffers}, seed {seed}");
    let mut rng = Rng::new(seed);
    let mut tally = Tally::default();
    let mut sound = vec![];
    for i in 0..buffers {
        if i % REFRESH == 0 {
            sound = sound::states(&mut rng, SOUND);
        }
        let s = &sound[rng.below(sound.len())];
        let (name, level, buffer) = match rng.below(100) {
            0..=2 => ("length: wrong", None, wrong_length(&mut rng, &s[..])),
            3 => ("buffer: chance bytes", None, chance_bytes(&mut rng)),
            4 => ("sound: not damaged", None, s.to_vec()),
            5..=14 => twice_damaged(&mut rng, s),
            _ => damaged(&mut rng, s),
        };
        tally.judge(name, level, &buffer);
    }
    tally.print();
}

type Made = (&'static str, Option<Level>, Vec<u8>);

fn damaged(rng: &mut Rng, s: &State) -> Made {
    let mut state = Box::new(*s);
    let Damage(name, level, _) = damages::at_random(&mut state, rng);
    (name, Some(*level), state.to_vec())
}

/// A second damage without aim upon the first.
fn twice_damaged(rng: &mut Rng, s: &State) -> Made {
    let mut state = Box::new(*s);
    damages::at_random(&mut state, rng);
    let Damage(_, _, second) = &damages::LOOSE[rng.below(damages::LOOSE.len())];
    let _ = second(&mut state, rng);
    ("two damages", None, state.to_vec())
}

fn wrong_length(rng: &mut Rng, s: &[u8]) -> Vec<u8> {
    let length = match rng.below(4) {
        0 => SIZE - 1,
        1 => SIZE + 1,
        2 => rng.below(SIZE),
        _ => SIZE + 1 + rng.below(SIZE),
    };
    let mut buffer = s.to_vec();
    buffer.resize(length, 0);
    buffer
}

/// All zero, all one byte, or each byte by chance.
fn chance_bytes(rng: &mut Rng) -> Vec<u8> {
    let mut buffer = vec![0; SIZE];
    match rng.below(3) {
        0 => {}
        1 => buffer.fill(rng.word() as u8),
        _ => buffer.fill_with(|| rng.word() as u8),
    }
    buffer
}

/// Yes and no by damage, by level and by clause.
#[derive(Default)]
struct Tally {
    by_name: BTreeMap<&'static str, (u64, u64)>,
    by_level: BTreeMap<&'static str, (u64, u64)>,
    by_fault: BTreeMap<Fault, u64>,
    all: (u64, u64),
}

impl Tally {
    fn judge(&mut self, name: &'static str, level: Option<Level>, buffer: &[u8]) {
        let verdict = model::verdict(buffer);
        let copy = buffer.to_vec();
        let kernel = (KERNEL.check)(&copy);
        if kernel != verdict.is_ok() || copy != buffer {
            println!("DIFFERENCE ({name}): the model says {verdict:?}, the kernel {kernel}");
            if copy != buffer {
                println!("the kernel's check changed the buffer");
            }
            match std::fs::write("mismatch.bin", buffer) {
                Ok(()) => println!("the buffer: mismatch.bin"),
                Err(error) => println!("mismatch.bin: {error}"),
            }
            exit(1);
        }
        let level = match level {
            Some(Level::Bit) => "one bit",
            Some(Level::Byte) => "one byte",
            Some(Level::Word) => "one word",
            Some(Level::Many) => "several words",
            None => "other",
        };
        count(self.by_name.entry(name).or_default(), kernel);
        count(self.by_level.entry(level).or_default(), kernel);
        count(&mut self.all, kernel);
        if let Err(fault) = verdict {
            *self.by_fault.entry(fault).or_default() += 1;
        }
    }

    fn print(&self) {
        println!("both checks agree on all, and no byte changed");
        println!("{:<40}{:>9}{:>9}", "", "yes", "no");
        for (name, (yes, no)) in self.by_name.iter().chain(&self.by_level) {
            println!("{name:<40}{yes:>9}{no:>9}");
        }
        println!("{:<40}{:>9}{:>9}", "all", self.all.0, self.all.1);
        println!("the clause met first:");
        for fault in Fault::all() {
            let met = self.by_fault.get(&fault).copied().unwrap_or(0);
            let never = if met == 0 { "   NEVER" } else { "" };
            println!("{:<40}{met:>9}{never}", format!("{fault:?}"));
        }
    }
}

fn count((yes, no): &mut (u64, u64), answer: bool) {
    *if answer { yes } else { no } += 1;
}
