//! Well-formed states of every sort, to be damaged or to be written as text.

use super::generator::{poke, Generator, Step};
use super::rng::Rng;
use crate::layout::{State, SIZE};

/// So many states, at least two: the boot state, a ticked one, and what generated sessions reach.
pub fn states(rng: &mut Rng, count: usize) -> Vec<Box<State>> {
    let mut ticked = booted();
    for _ in 0..rng.within(1, 20) {
        crate::tick(&mut ticked[..]);
    }
    let mut all = vec![booted(), ticked];
    while all.len() < count {
        let steps = rng.within(20, 400);
        all.push(after_a_session(rng, steps));
    }
    all
}

pub fn booted() -> Box<State> {
    let mut s = Box::new([0; SIZE]);
    crate::boot(&mut s[..]);
    s
}

/// Some steps more than these where the last plan is not yet at its end.
fn after_a_session(rng: &mut Rng, steps: u32) -> Box<State> {
    let mut s = booted();
    let mut generator = Generator::new(rng.long());
    let mut left = steps;
    while left > 0 || !generator.at_rest() {
        left = left.saturating_sub(1);
        match generator.next(&s) {
            Step::Call { caller, words } => {
                let [w0, w1, w2, w3] = words;
                crate::call(&mut s[..], caller, w0, w1, w2, w3);
            }
            Step::Tick => {
                crate::tick(&mut s[..]);
            }
            Step::Poke { at, word } => poke(&mut s, at, word),
        }
    }
    s
}
