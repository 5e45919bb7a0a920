//! hex_cases [cases] [seed] [file]: records texts for reading with the model's answers, of every
//! sort, for a program that reads them by the kernel.

use model::drive::command;
use model::drive::hex::recorded::{cases, FORMAT};
use model::drive::rng::Rng;
use std::collections::BTreeMap;
use std::process::exit;

fn main() {
    let count = command::number(1, 300) as usize;
    let seed = command::number(2, 1);
    let path = std::env::args().nth(3).unwrap_or("hex_cases.txt".into());
    let mut rng = Rng::new(seed);
    let mut text = format!("{FORMAT}# hex_cases {count} {seed}\n");
    let mut answers: BTreeMap<i32, usize> = BTreeMap::new();
    for (sort, group) in cases(count, &mut rng) {
        text += &format!("# {}\n", sort.0);
        for case in group {
            text += &format!("{}\n", case.line);
            *answers.entry(case.answer).or_default() += 1;
        }
    }
    if let Err(error) = std::fs::write(&path, &text) {
        eprintln!("{path}: {error}");
        exit(1);
    }
    let made: usize = answers.values().sum();
    println!("{path}: {made} cases, {} bytes", text.len());
    for (answer, met) in answers.iter().rev() {
        println!("{answer:>4} {met:>6}");
    }
    if made != count {
        println!("not all of the {count} cases could be made");
        exit(1);
    }
}
