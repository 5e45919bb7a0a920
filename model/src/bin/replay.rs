//! replay FILE: runs a file of `vectors` (or a `mismatch.txt`) on the kernel and compares every
//! answer and hash; exit 1 at the first line that differs.

mod shared;

use model::drive::generator::poke;
use model::drive::trace::hash;
use model::{State, SIZE};
use shared::kernel::{announce, KERNEL};
use std::process::exit;

fn main() {
    announce();
    let path = std::env::args().nth(1).unwrap_or("vectors.txt".into());
    let text = std::fs::read_to_string(&path).unwrap_or_else(|error| {
        eprintln!("{path}: {error}");
        exit(2)
    });
    let mut s: Box<State> = Box::new([0; SIZE]);
    let mut steps = 0;
    for (i, line) in text.lines().enumerate() {
        if line.starts_with('#') {
            continue;
        }
        match run(&mut s, line) {
            Some(Ok(())) => steps += 1,
            Some(Err(given)) => {
                println!(
                    "DIFFERENCE: line {}: {line}: the kernel gives {given}",
                    i + 1
                );
                exit(1)
            }
            None => {
                println!("line {} cannot be read: {line}", i + 1);
                exit(2)
            }
        }
    }
    println!("{path}: {steps} steps, all as recorded");
}

/// Runs one line; what the kernel gave instead is an error, a line out of form is None.
fn run(s: &mut State, line: &str) -> Option<Result<(), String>> {
    let mut fields = line.split(' ');
    let step = fields.next()?;
    let numbers: Vec<i64> = fields.map(|f| f.parse().ok()).collect::<Option<_>>()?;
    let given = match (step, &numbers[..]) {
        ("b", [_]) => (KERNEL.boot)(&mut s[..]),
        ("t", [_]) => (KERNEL.tick)(&mut s[..]),
        ("c", [caller, w0, w1, w2, w3, _]) => {
            let words = [w0, w1, w2, w3].map(|&w| w as u32);
            (KERNEL.call)(&mut s[..], *caller as u32, words)
        }
        ("p", [at, word]) => {
            poke(s, *at as usize, *word as u32);
            return Some(Ok(()));
        }
        ("h", [high, low]) => {
            let (h, l) = hash(s);
            return Some(same(
                (*high, *low) == (h.into(), l.into()),
                format!("{h} {l}"),
            ));
        }
        _ => return None,
    };
    Some(same(*numbers.last()? == given.into(), given.to_string()))
}

fn same(as_recorded: bool, given: String) -> Result<(), String> {
    if as_recorded {
        Ok(())
    } else {
        Err(given)
    }
}
