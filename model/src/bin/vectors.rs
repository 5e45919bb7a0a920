//! vectors [calls] [seed] [file]: records sessions of generated calls by the model, chosen so that
//! every possible pair of call and answer is met, for a program that replays them on the kernel.

use model::drive::command;
use model::drive::coverage::Coverage;
use model::drive::generator::{poke, Generator, Step};
use model::drive::rng::Rng;
use model::drive::trace::{Trace, FORMAT};
use model::{State, SIZE};
use std::process::exit;

const SESSION_STEPS: usize = 300;
/// Sessions looked at before giving up on a pair.
const LOOKED_AT: usize = 100_000;

fn main() {
    let calls = command::number(1, 20_000) as usize;
    let seed = command::number(2, 1);
    let path = std::env::args().nth(3).unwrap_or("vectors.txt".into());
    let mut rng = Rng::new(seed);
    let mut met = Coverage::new();
    let mut text = format!("{FORMAT}# vectors {calls} {seed}\n");
    let mut made = 0;
    // First the sessions that meet a pair not met before, then any.
    for _ in 0..LOOKED_AT {
        let complete = met.gaps().0.is_empty();
        if complete && made >= calls {
            break;
        }
        let session = Session::run(rng.long());
        let news = session.pairs.iter().any(|&(n, a)| met.met(n, a) == 0);
        if news || complete {
            session.pairs.iter().for_each(|&(n, a)| {
                met.note(n, a);
            });
            made += session.pairs.len();
            text.push_str(session.trace.lines());
        }
    }
    if let Err(error) = std::fs::write(&path, &text) {
        eprintln!("{path}: {error}");
        exit(1);
    }
    println!("{path}: {made} calls, {} bytes", text.len());
    if !met.print() {
        exit(1);
    }
}

struct Session {
    trace: Trace,
    pairs: Vec<(u32, i32)>,
}

impl Session {
    /// One session from boot; a hash of the buffer follows now and then, and at the end.
    fn run(seed: u64) -> Session {
        let mut s: Box<State> = Box::new([0; SIZE]);
        let mut session = Session {
            trace: Trace::new(),
            pairs: vec![],
        };
        session.trace.boot(model::boot(&mut s[..]));
        let mut generator = Generator::new(seed);
        let mut steps = 0;
        while steps < SESSION_STEPS || !generator.at_rest() {
            steps += 1;
            let step = generator.next(&s);
            session.step(&mut s, step);
            if steps % 25 == 0 {
                session.trace.hash(&s);
            }
        }
        session.trace.hash(&s);
        session
    }

    fn step(&mut self, s: &mut State, step: Step) {
        match step {
            Step::Call { caller, words } => {
                let [w0, w1, w2, w3] = words;
                let answer = model::call(&mut s[..], caller, w0, w1, w2, w3);
                self.trace.call(caller, words, answer);
                self.pairs.push((w0 >> 16 & 63, answer));
            }
            Step::Tick => self.trace.tick(model::tick(&mut s[..])),
            Step::Poke { at, word } => {
                poke(s, at, word);
                self.trace.poke(at, word);
            }
        }
    }
}
