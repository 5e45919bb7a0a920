//! compare [calls] [seed]: runs the same generated calls on model and kernel and compares each
//! answer and the whole buffer after it. Prints the table of pairs met; exit 1 on a difference or
//! a possible pair never met.

mod shared;

use model::drive::api::{Api, MODEL};
use model::drive::command;
use model::drive::coverage::Coverage;
use model::drive::generator::{poke, Generator, Step};
use model::drive::rng::Rng;
use model::drive::trace::Trace;
use model::{State, SIZE};
use shared::kernel::{announce, KERNEL};
use std::process::exit;

/// The steps of a session, which begins at boot.
const SESSION: std::ops::RangeInclusive<u32> = 80..=800;

fn main() {
    announce();
    let calls = command::number(1, 1_000_000);
    let seed = command::number(2, 1);
    println!("calls {calls}, seed {seed}");
    let mut met = Coverage::new();
    let mut made = Made::default();
    let mut rng = Rng::new(seed);
    lengths(&mut rng);
    while made.calls < calls {
        made.sessions += 1;
        let mut pair = Pair::booted(rng.long());
        for _ in 0..rng.within(*SESSION.start(), *SESSION.end()) {
            pair.step(&mut met, &mut made);
        }
        pair.settle(&mut met, &mut made);
    }
    println!(
        "{} sessions, {} calls, {} ticks, {} words set directly: all answers and buffers equal",
        made.sessions, made.calls, made.ticks, made.pokes
    );
    if !met.print() {
        exit(1);
    }
}

#[derive(Default)]
struct Made {
    sessions: u64,
    calls: u64,
    ticks: u64,
    pokes: u64,
}

/// The model's state and the kernel's, which are equal at all times.
struct Pair {
    model: Box<State>,
    kernel: Box<State>,
    generator: Generator,
    trace: Trace,
}

impl Pair {
    /// Both boot on the same chance bytes.
    fn booted(seed: u64) -> Pair {
        let mut rng = Rng::new(seed ^ 0xB007);
        let mut model = Box::new([0; SIZE]);
        model.fill_with(|| rng.word() as u8);
        let mut pair = Pair {
            kernel: model.clone(),
            model,
            generator: Generator::new(seed),
            trace: Trace::new(),
        };
        let answers = pair.both(|api, s| (api.boot)(&mut s[..]));
        pair.trace.boot(answers.0);
        pair.judge("boot", answers);
        pair
    }

    fn both(&mut self, act: impl Fn(&Api, &mut State) -> i32) -> (i32, i32) {
        (act(&MODEL, &mut self.model), act(&KERNEL, &mut self.kernel))
    }

    fn step(&mut self, met: &mut Coverage, made: &mut Made) {
        let step = self.generator.next(&self.model);
        match step {
            Step::Call { caller, words } => {
                let answers = self.both(|api, s| (api.call)(&mut s[..], caller, words));
                made.calls += 1;
                self.trace.call(caller, words, answers.0);
                let [w0, w1, w2, w3] = words;
                let what = format!("call {caller} {w0:#x} {w1:#x} {w2:#x} {w3:#x}");
                self.judge(&what, answers);
                met.note(words[0] >> 16 & 63, answers.0);
                self.sound_after(answers.0);
            }
            Step::Tick => {
                let answers = self.both(|api, s| (api.tick)(&mut s[..]));
                made.ticks += 1;
                self.trace.tick(answers.0);
                self.judge("tick", answers);
            }
            Step::Poke { at, word } => {
                poke(&mut self.model, at, word);
                poke(&mut self.kernel, at, word);
                made.pokes += 1;
                self.trace.poke(at, word);
            }
        }
    }

    /// Goes on until nothing is planned.
    fn settle(&mut self, met: &mut Coverage, made: &mut Made) {
        while !self.generator.at_rest() {
            self.step(met, made);
        }
    }

    /// "a tick or any call on such a state leaves one".
    fn sound_after(&self, answer: i32) {
        if answer < 0 {
            return;
        }
        if let Err(fault) = model::verdict(&self.model[..]) {
            self.fail(&format!(
                "a call left a state that is not well formed: {fault:?}"
            ));
        }
    }

    fn judge(&self, what: &str, (model, kernel): (i32, i32)) {
        if model != kernel {
            self.fail(&format!(
                "{what}: the model answers {model}, the kernel {kernel}"
            ));
        }
        if self.model[..] != self.kernel[..] {
            let at: Vec<String> = (0..SIZE)
                .filter(|&i| self.model[i] != self.kernel[i])
                .take(16)
                .map(|i| format!("{i}: {} / {}", self.model[i], self.kernel[i]))
                .collect();
            self.fail(&format!(
                "{what}: answer {model}, but bytes differ (offset: model / kernel): {}",
                at.join(", ")
            ));
        }
    }

    fn fail(&self, why: &str) -> ! {
        let path = "mismatch.txt";
        println!("DIFFERENCE: {why}");
        match std::fs::write(path, self.trace.text()) {
            Ok(()) => println!("the session up to here: {path}"),
            Err(error) => println!("{path}: {error}"),
        }
        exit(1)
    }
}

/// Buffers of other lengths: boot, tick, check and call refuse and change nothing.
fn lengths(rng: &mut Rng) {
    for length in [0, 1, 4, 64, 16_384, SIZE - 1, SIZE + 1, 2 * SIZE] {
        let mut sound = vec![0; 2 * SIZE];
        model::boot(&mut sound[..SIZE]);
        sound.truncate(length);
        let mut s = sound.clone();
        let words = [0x0014_0003, rng.word(), rng.word(), rng.word()];
        let refused = !(KERNEL.check)(&s)
            && (KERNEL.boot)(&mut s) == -19
            && (KERNEL.tick)(&mut s) == -19
            && (KERNEL.call)(&mut s, 18, words) == -19;
        if !refused || s != sound {
            println!("DIFFERENCE: a buffer of {length} bytes is not refused, or it is changed");
            exit(1);
        }
    }
}
