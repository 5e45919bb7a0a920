//! A generator of calls, ticks and direct writes, from boot: it looks at the state, makes mostly
//! valid arguments mixed with faulty ones, and aims at each answer in turn.

use super::arguments::Arguments;
use super::coverage::possible;
use super::damages;
use super::look;
use super::rng::Rng;
use crate::layout::{memory_of, put, tag, word, State, CLOCK, SIZE};
use crate::objects::table_of;
use std::collections::VecDeque;

#[derive(Clone, Debug, PartialEq, Eq)]
pub enum Step {
    Call {
        caller: u32,
        words: [u32; 4],
    },
    Tick,
    /// A word written directly into the bytes.
    Poke {
        at: usize,
        word: u32,
    },
}

/// How often each call 1..20 is made; the last is any other number.
const WEIGHTS: [usize; 21] = [
    8, 7, 20, 9, 7, 8, 7, 9, 4, 9, 4, 6, 4, 4, 4, 6, 4, 4, 5, 3, 1,
];
/// The same while a session builds up.
const OPENING: [usize; 21] = [
    8, 0, 30, 0, 0, 9, 0, 8, 2, 8, 0, 6, 0, 2, 1, 5, 0, 2, 0, 0, 0,
];
const OPENING_STEPS: usize = 60;
const TRIES: usize = 8;

pub struct Generator {
    rng: Rng,
    queue: VecDeque<Step>,
    weights: [usize; 21],
    steps: usize,
    scratch: Box<State>,
}

impl Generator {
    /// A session of its own: the seed decides every step.
    pub fn new(seed: u64) -> Generator {
        let mut rng = Rng::new(seed);
        let weights = WEIGHTS.map(|w| w * rng.pick(&[1, 1, 2, 4]));
        Generator {
            rng,
            queue: VecDeque::new(),
            weights,
            steps: 0,
            scratch: Box::new([0; SIZE]),
        }
    }

    /// The next step on a sound state (or on one that the last steps damaged on purpose).
    pub fn next(&mut self, s: &State) -> Step {
        if self.queue.is_empty() {
            self.steps += 1;
            self.plan(s);
        }
        self.queue.pop_front().unwrap_or(Step::Tick)
    }

    /// Whether the next step begins a new plan, so that the state is sound.
    pub fn at_rest(&self) -> bool {
        self.queue.is_empty()
    }

    fn plan(&mut self, s: &State) {
        match self.rng.below(1000) {
            0..=29 => {
                let ticks = self.rng.pick(&[1, 1, 2, 3, 7, 8, 8, 9]);
                (0..ticks).for_each(|_| self.queue.push_back(Step::Tick));
            }
            30..=39 => self.set_a_number(s),
            40..=47 => self.change_but_stay_sound(s),
            48..=57 => self.damage_call_repair(s),
            _ => {
                let call = self.a_call(s);
                self.queue.push_back(call);
            }
        }
    }

    /// A count at or near 2^32−1 or 2^31, or a clock near its wrap.
    fn set_a_number(&mut self, s: &State) {
        let near = [
            u32::MAX,
            u32::MAX - 1,
            u32::MAX,
            0x7FFF_FFFF,
            0x8000_0000,
            0x8000_0001,
            0,
            1,
            2,
        ];
        let endpoints = look::firsts(s, tag::ENDPOINT);
        let step = if !endpoints.is_empty() && self.rng.chance(60) {
            let at = memory_of(self.rng.pick(&endpoints));
            match self.rng.chance(85) {
                true => Step::Poke {
                    at,
                    word: self.rng.pick(&near),
                },
                // The boot mark may stand on any endpoint, or none.
                false => Step::Poke {
                    at: at + 4,
                    word: self.rng.within(0, 1),
                },
            }
        } else {
            let word = match self.rng.below(3) {
                0 => u32::MAX - self.rng.within(0, 12),
                1 => self.rng.pick(&near),
                _ => self.rng.word(),
            };
            Step::Poke { at: CLOCK, word }
        };
        self.queue.push_back(step);
    }

    /// A damage that leaves a well-formed state which calls alone may never reach.
    fn change_but_stay_sound(&mut self, s: &State) {
        for _ in 0..TRIES {
            *self.scratch = *s;
            damages::at_random(&mut self.scratch, &mut self.rng);
            if crate::check(&self.scratch[..]) {
                self.queue.extend(pokes(s, &self.scratch));
                return;
            }
        }
    }

    /// A call and a tick on a state that is not well formed, which is then mended.
    fn damage_call_repair(&mut self, s: &State) {
        *self.scratch = *s;
        damages::at_random(&mut self.scratch, &mut self.rng);
        if crate::check(&self.scratch[..]) {
            return;
        }
        let damaged: Vec<Step> = pokes(s, &self.scratch).collect();
        let mended: Vec<Step> = pokes(&self.scratch, s).collect();
        self.queue.extend(damaged);
        for _ in 0..3 {
            let call = self.a_call(s);
            self.queue.push_back(call);
        }
        self.queue.push_back(Step::Tick);
        self.queue.extend(mended);
    }

    fn a_call(&mut self, s: &State) -> Step {
        let number = self.a_number();
        let (caller, words) = self.aimed(s, number);
        let caller = match self.rng.below(200) {
            0 => self.rng.within(0, 255),
            1 => self.rng.pick(&[256, 256 + 18, 0x8000_0012, u32::MAX]),
            _ => caller,
        };
        Step::Call { caller, words }
    }

    /// A live process, mostly the one whose table holds the most; if there is none, any slot.
    fn a_caller(&mut self, s: &State) -> (u32, usize) {
        let processes = look::firsts(s, tag::PROCESS);
        let richest = processes
            .iter()
            .copied()
            .max_by_key(|&p| look::filled(s, table_of(s, p)));
        match richest {
            None => (self.rng.within(0, 300), look::firsts(s, tag::TABLE)[0]),
            Some(richest) => {
                let process = match self.rng.chance(60) {
                    true => richest,
                    false => self.rng.pick(&processes),
                };
                (process as u32, table_of(s, process))
            }
        }
    }

    fn a_number(&mut self) -> u32 {
        let weights = match self.steps <= OPENING_STEPS {
            true => &OPENING,
            false => &self.weights,
        };
        let mut left = self.rng.below(weights.iter().sum());
        let row = weights
            .iter()
            .position(|&w| match left.checked_sub(w) {
                Some(rest) => {
                    left = rest;
                    false
                }
                None => true,
            })
            .unwrap_or(20);
        match row {
            20 => self.rng.pick(&[0, 21, 22, 31, 32, 33, 52, 63]),
            _ => row as u32 + 1,
        }
    }

    /// Makes up calls until the answer is the one aimed at, or the tries are used up.
    fn aimed(&mut self, s: &State, number: u32) -> (u32, [u32; 4]) {
        let answers = possible(number);
        let (aim, faulty) = match self.rng.below(10) {
            _ if self.steps <= OPENING_STEPS => (Some(0), 0),
            0..=3 => (Some(0), 2),
            4..=8 => (Some(self.rng.pick(answers)), self.rng.pick(&[5, 15, 30])),
            _ => (None, 40),
        };
        let mut made = (0, [0; 4]);
        for _ in 0..TRIES {
            let (caller, table) = self.a_caller(s);
            let words = Arguments {
                s,
                rng: &mut self.rng,
                table,
                faulty,
            }
            .words(number);
            made = (caller, words);
            let aim = match aim {
                Some(aim) => aim,
                None => break,
            };
            *self.scratch = *s;
            let answer = crate::apply(&mut self.scratch, caller, words);
            if answer == aim || answer > 0 && aim > 0 {
                break;
            }
        }
        made
    }
}

/// The words in which one state differs from another, as writes that lead from the first.
fn pokes<'a>(from: &'a State, to: &'a State) -> impl Iterator<Item = Step> + 'a {
    (0..SIZE)
        .step_by(4)
        .filter(|&at| word(from, at) != word(to, at))
        .map(|at| Step::Poke {
            at,
            word: word(to, at),
        })
}

/// Writes a step's word, for whoever replays it.
pub fn poke(s: &mut State, at: usize, value: u32) {
    put(s, at, value);
}
