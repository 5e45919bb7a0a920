//! Console lines without end: sessions of generated calls and ticks, with `show`, comments, blank
//! lines and bad lines between them, and `save` and `load` where there are files for them. The model
//! runs along, since the generator looks at its state.

use super::bad_lines::BadLines;
use super::files::Files;
use super::generator::{Generator, Step};
use super::rng::Rng;
use super::seldom::{
    self, ASK_THE_CLOCK, BOOT_PROCESS, DELETE_BOOT_ENDPOINT, FREEZE_BOOT_ENDPOINT,
};
use super::spelling::{line, line_of, number};
use crate::console::LONGEST;
use crate::hex;
use crate::layout::{State, SIZE};
use std::collections::VecDeque;

/// The generated steps of a session, which `boot` ends.
const SESSION: std::ops::RangeInclusive<u32> = 200..=400;

pub struct Lines {
    rng: Rng,
    state: Box<State>,
    generator: Generator,
    /// Steps that the session still has.
    left: u32,
    bad: BadLines,
    files: Option<Files>,
    /// Lines made and not yet given, without their newlines.
    queue: VecDeque<Vec<u8>>,
}

impl Lines {
    /// The seed decides every byte; without files no line names one.
    pub fn new(seed: u64, files: Option<Files>) -> Lines {
        let mut lines = Lines {
            rng: Rng::new(seed),
            state: Box::new([0; SIZE]),
            generator: Generator::new(seed),
            left: 0,
            bad: BadLines::default(),
            files,
            queue: VecDeque::new(),
        };
        lines.begin();
        lines
    }

    /// A session of its own, from the boot state.
    fn begin(&mut self) {
        crate::boot(&mut self.state[..]);
        self.generator = Generator::new(self.rng.long());
        self.left = self.rng.within(*SESSION.start(), *SESSION.end());
        if self.rng.chance(12) {
            self.call(BOOT_PROCESS, ASK_THE_CLOCK);
            self.call(BOOT_PROCESS, FREEZE_BOOT_ENDPOINT);
            self.tick(8);
            self.call(BOOT_PROCESS, DELETE_BOOT_ENDPOINT);
        }
    }

    fn plan(&mut self) {
        if self.left == 0 {
            self.word("show");
            self.word("boot");
            self.begin();
            return;
        }
        match self.rng.below(100) {
            0 => self.word("show"),
            1..=3 => {
                let bad = self.bad.next(&mut self.rng);
                self.queue.push_back(bad);
            }
            4 | 5 => self.comment(),
            6 => self.line(&[]),
            7 => self.file(),
            _ => self.step(),
        }
    }

    /// The generator's next call or tick. A direct write is passed over: a console has none.
    fn step(&mut self) {
        self.left -= 1;
        loop {
            match self.generator.next(&self.state) {
                Step::Call { caller, words } => {
                    if self.call(caller, words) == 0 {
                        for words in seldom::after(&mut self.rng, words) {
                            self.call(caller, words);
                        }
                    }
                    return;
                }
                Step::Tick => return self.some_ticks(),
                Step::Poke { .. } => {}
            }
        }
    }

    /// Some calls fill a line of the greatest length.
    fn call(&mut self, caller: u32, [w0, w1, w2, w3]: [u32; 4]) -> i32 {
        let words = [caller, w0, w1, w2, w3].map(|n| number(&mut self.rng, n));
        match self.rng.below(400) {
            0 => self.line_of_greatest_length(&words),
            _ => self.line(&words),
        }
        crate::call(&mut self.state[..], caller, w0, w1, w2, w3)
    }

    /// Often one tick, since the generator makes several in a row.
    fn some_ticks(&mut self) {
        let ticks = match self.rng.below(100) {
            0 => self.rng.within(100, 900),
            1..=49 => self.rng.within(0, 20),
            _ => 1,
        };
        self.tick(ticks);
    }

    fn tick(&mut self, ticks: u32) {
        let words = [b"tick".to_vec(), number(&mut self.rng, ticks)];
        self.line(&words);
        for _ in 0..ticks {
            crate::tick(&mut self.state[..]);
        }
    }

    /// A save, or a load of whatever the file then holds.
    fn file(&mut self) {
        let files = match &mut self.files {
            Some(files) => files,
            None => return,
        };
        let (word, name) = match self.rng.chance(40) {
            true => {
                let name = files.a_name_to_save(&mut self.rng);
                files.saved(&name, hex::written(&self.state[..]));
                ("save", name)
            }
            false => {
                let name = files.a_name_to_load(&mut self.rng);
                let text = files.text(&name).unwrap_or_default();
                hex::read(text, &mut self.state[..]);
                ("load", name)
            }
        };
        self.line(&[word.into(), name]);
    }

    fn comment(&mut self) {
        let text = self.rng.pick(&[
            &b"#"[..],
            b"# boot",
            b"#show",
            b"#\t18 0x00120000 5 0 0",
            b"##\r#",
            b"# \x00\x80\xFF \xC3\xA9",
        ]);
        match self.rng.below(50) {
            0 => self.line_of_greatest_length(&[text.into()]),
            _ => self.line(&[text.into()]),
        }
    }

    fn word(&mut self, word: &str) {
        self.line(&[word.into()]);
    }

    fn line(&mut self, words: &[Vec<u8>]) {
        self.queue.push_back(line(&mut self.rng, words));
    }

    fn line_of_greatest_length(&mut self, words: &[Vec<u8>]) {
        self.queue.push_back(line_of(&mut self.rng, words, LONGEST));
    }
}

impl Iterator for Lines {
    type Item = Vec<u8>;

    /// The next line with its newline.
    fn next(&mut self) -> Option<Vec<u8>> {
        while self.queue.is_empty() {
            self.plan();
        }
        let mut made = self.queue.pop_front()?;
        made.push(b'\n');
        Some(made)
    }
}
