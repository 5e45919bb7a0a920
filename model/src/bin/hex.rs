//! hex [texts] [seed]: states written as Intel HEX and texts read back, most of them faulty, by
//! model and kernel, compared in the answer, the whole buffer lent and the lines taken. Prints how
//! often each sort met each answer; exit 1 on a difference.

mod shared;

use model::drive::api::{Api, MODEL};
use model::drive::command;
use model::drive::damages;
use model::drive::hex::{sorts, Draft, Sort, Tally};
use model::drive::rng::Rng;
use model::drive::sound;
use model::hex::{lines_taken, WRITTEN};
use model::{State, SIZE};
use shared::kernel::{announce, KERNEL};
use std::process::exit;

/// Every so many texts the sound states are made anew.
const REFRESH: u64 = 1000;
const SOUND: usize = 12;

const UNSOUND: &str = "a state damaged, the text right";
const OTHER_LENGTH: &str = "destination of another length";
const WRITE: &str = "write";
const WRITE_LONGER: &str = "write: output longer";
const WRITE_SHORT: &str = "write: output too short";
const WRITE_UNSOUND: &str = "write: state damaged";
const WRITE_UNSOUND_SHORT: &str = "write: state damaged, output too short";
const WRITE_OTHER_LENGTH: &str = "write: state of another length";

fn main() {
    announce();
    let texts = command::number(1, 20_000);
    let seed = command::number(2, 1);
    println!("texts {texts}, seed {seed}");
    let mut rng = Rng::new(seed);
    let mut tally = rows();
    let mut states = vec![];
    for (i, sort) in (0..texts).zip(sorts().cycle()) {
        if i % REFRESH == 0 {
            states = sound::states(&mut rng, SOUND);
            states.iter().for_each(|s| write(s, &mut tally, &mut rng));
        }
        let s = &states[rng.below(SOUND)];
        match rng.below(100) {
            0..=3 => unsound(s, &mut tally, &mut rng),
            4 | 5 => other_length(s, &mut tally, &mut rng),
            _ => changed(sort, s, &mut tally, &mut rng),
        }
    }
    println!("all answers, buffers and lines taken are equal");
    tally.print();
}

fn rows() -> Tally {
    let mut tally = Tally::default();
    sorts().for_each(|Sort(name, answers, _)| tally.row(name, answers));
    tally.row(UNSOUND, &[0, -19]);
    tally.row(OTHER_LENGTH, &[-19]);
    tally.row(WRITE, &[0]);
    tally.row(WRITE_LONGER, &[0]);
    tally.row(WRITE_SHORT, &[-34]);
    tally.row(WRITE_UNSOUND, &[0, -19]);
    tally.row(WRITE_UNSOUND_SHORT, &[-19, -34]);
    tally.row(WRITE_OTHER_LENGTH, &[-19]);
    tally
}

/// A text of the state in any style, changed as the sort says.
fn changed(sort: &Sort, s: &State, tally: &mut Tally, rng: &mut Rng) {
    let mut draft = Draft::at_random(s, rng);
    while (sort.2)(&mut draft, rng).is_none() {
        draft = Draft::at_random(s, rng);
    }
    let mut text = draft.text();
    if rng.chance(60) {
        cut_behind_the_fault(&mut text);
    }
    let answer = read(sort.0, &text, SIZE, rng);
    tally.note(sort.0, answer);
}

/// Nothing behind the first faulty line is looked at.
fn cut_behind_the_fault(text: &mut Vec<u8>) {
    let taken = lines_taken(text);
    let lines = text.split_inclusive(|&byte| byte == b'\n');
    let length = lines.take(taken + 1).map(<[u8]>::len).sum();
    text.truncate(length);
}

/// The right text of a state that is mostly not well formed.
fn unsound(s: &State, tally: &mut Tally, rng: &mut Rng) {
    let mut damaged = Box::new(*s);
    damages::at_random(&mut damaged, rng);
    let text = Draft::at_random(&damaged, rng).text();
    tally.note(UNSOUND, read(UNSOUND, &text, SIZE, rng));
}

fn other_length(s: &State, tally: &mut Tally, rng: &mut Rng) {
    let length = some_other_length(rng);
    let text = match rng.below(3) {
        0 => vec![],
        1 => vec![b'\n'],
        _ => Draft::at_random(s, rng).text(),
    };
    let answer = read(OTHER_LENGTH, &text, length, rng);
    tally.note(OTHER_LENGTH, answer);
}

fn some_other_length(rng: &mut Rng) -> usize {
    match rng.below(4) {
        0 => SIZE - 1,
        1 => SIZE + 1,
        2 => rng.below(SIZE),
        _ => SIZE + 1 + rng.below(SIZE),
    }
}

/// Reads on both sides into equal buffers of chance bytes, and answers the answer.
fn read(name: &str, text: &[u8], length: usize, rng: &mut Rng) -> i32 {
    let before = chance_bytes(length, rng);
    let run = |api: &Api| {
        let (copy, mut s) = (text.to_vec(), before.clone());
        let answer = (api.read_hex)(&copy, &mut s);
        let lines = (api.hex_lines)(&copy);
        (answer, lines, s, copy == text)
    };
    let (model, kernel) = (run(&MODEL), run(&KERNEL));
    if model != kernel {
        let (answers, lines) = ((model.0, kernel.0), (model.1, kernel.1));
        differs(name, text, answers, &model.2, &kernel.2, Some(lines))
    }
    model.0
}

/// A state written into outputs of every length, damaged too.
fn write(s: &State, tally: &mut Tally, rng: &mut Rng) {
    let mut damaged = Box::new(*s);
    damages::at_random(&mut damaged, rng);
    let other = &chance_bytes(some_other_length(rng), rng);
    let more = WRITTEN + 1 + rng.below(5000);
    let few = rng.pick(&[0, 1, 16, WRITTEN - 12, WRITTEN - 1]);
    let fewer = rng.below(WRITTEN);
    for (name, s, length) in [
        (WRITE, &s[..], WRITTEN),
        (WRITE_LONGER, &s[..], more),
        (WRITE_SHORT, &s[..], few),
        (WRITE_SHORT, &s[..], fewer),
        (WRITE_UNSOUND, &damaged[..], WRITTEN),
        (WRITE_UNSOUND_SHORT, &damaged[..], fewer),
        (WRITE_OTHER_LENGTH, &other[..], more),
        (WRITE_OTHER_LENGTH, &other[..], fewer),
    ] {
        let before = chance_bytes(length, rng);
        let run = |api: &Api| {
            let (copy, mut out) = (s.to_vec(), before.clone());
            let answer = (api.write_hex)(&copy, &mut out);
            (answer, out, copy == s)
        };
        let (model, kernel) = (run(&MODEL), run(&KERNEL));
        if model != kernel {
            let answers = (model.0, kernel.0);
            differs(name, s, answers, &model.1, &kernel.1, None)
        }
        tally.note(name, model.0);
    }
}

fn chance_bytes(length: usize, rng: &mut Rng) -> Vec<u8> {
    let byte = rng.word() as u8;
    let mut bytes = vec![byte; length];
    bytes
        .iter_mut()
        .step_by(97)
        .for_each(|b| *b = rng.word() as u8);
    bytes
}

/// What was lent to be read goes into a file.
fn differs(
    name: &str,
    lent: &[u8],
    (model, kernel): (i32, i32),
    model_buffer: &[u8],
    kernel_buffer: &[u8],
    lines: Option<(usize, usize)>,
) -> ! {
    println!("DIFFERENCE ({name}): the model answers {model}, the kernel {kernel}");
    if let Some((model, kernel)) = lines {
        println!("lines taken: model {model}, kernel {kernel}");
    }
    match (0..model_buffer.len()).find(|&i| model_buffer[i] != kernel_buffer[i]) {
        Some(i) => println!(
            "the first byte that differs is {i}: model {}, kernel {}",
            model_buffer[i], kernel_buffer[i]
        ),
        None if model == kernel => println!("the buffers written to are equal"),
        None => {}
    }
    match std::fs::write("mismatch.hex", lent) {
        Ok(()) => println!("what was to be read: mismatch.hex"),
        Err(error) => println!("mismatch.hex: {error}"),
    }
    exit(1)
}
