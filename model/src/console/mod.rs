//! The console of docs/USING.md on the model's own functions: one state, lines in, answers out.
//! It is made from that page alone, so that another console can be compared with it byte for byte.

mod answer;
pub mod files;
mod line;
mod number;
mod show;

pub use answer::{in_words, of_load, success, DONE, LOADED, SAVED};
pub use line::{read, Line, Wrong, LONGEST};
pub use show::show;

use crate::hex;
use crate::layout::{State, SIZE};
use crate::refusal::STATE;
use files::Trouble;
use std::fmt::Display;
use std::io::{BufRead, Result, Write};

pub struct Console {
    state: Box<State>,
    /// Whether each answer is followed by its meaning.
    words: bool,
    /// "N counts every line from 1".
    lines: u64,
}

impl Console {
    /// "It starts booted".
    pub fn booted(words: bool) -> Console {
        let mut state = Box::new([0; SIZE]);
        crate::boot(&mut state[..]);
        Console {
            state,
            words,
            lines: 0,
        }
    }

    /// Does what one line says, given without its newline, and answers what is printed.
    pub fn line(&mut self, bytes: &[u8]) -> String {
        self.lines += 1;
        match read(bytes) {
            Err(wrong) => self.fault(wrong),
            Ok(Line::Nothing) => String::new(),
            Ok(Line::Boot) => {
                crate::boot(&mut self.state[..]);
                String::new()
            }
            Ok(Line::Tick(ticks)) => {
                let answer = self.tick(ticks);
                self.print(answer, DONE)
            }
            Ok(Line::Call { caller, words }) => {
                let [w0, w1, w2, w3] = words;
                let answer = crate::call(&mut self.state[..], caller, w0, w1, w2, w3);
                self.print(answer, success(w0))
            }
            Ok(Line::Show) => show(&self.state),
            Ok(Line::Save(name)) => self.save(&name).unwrap_or_else(|why| self.fault(why)),
            Ok(Line::Load(name)) => self.load(&name).unwrap_or_else(|why| self.fault(why)),
        }
    }

    /// "the state's text goes into FILE, made or overwritten".
    fn save(&self, name: &[u8]) -> std::result::Result<String, Trouble> {
        files::write(name, &hex::written(&self.state[..]))?;
        Ok(self.print(0, SAVED))
    }

    /// "the state becomes the one that FILE's text gives; a refused file leaves it". A refusal that
    /// a line gives names the line.
    fn load(&mut self, name: &[u8]) -> std::result::Result<String, Trouble> {
        let text = files::read(name)?;
        let answer = hex::read(&text, &mut self.state[..]);
        let meaning = of_load(answer);
        let line = hex::lines_taken(&text) + 1;
        Ok(match (answer, self.words) {
            (0 | STATE, true) => format!("{answer} {meaning}\n"),
            (0 | STATE, false) => format!("{answer}\n"),
            (_, true) => format!("{answer} line {line}: {meaning}\n"),
            (_, false) => format!("{answer} line {line}\n"),
        })
    }

    fn fault(&self, what: impl Display) -> String {
        format!("? line {}: {what}\n", self.lines)
    }

    /// The last tick's answer; 0 where there is none, since nothing was refused.
    fn tick(&mut self, ticks: u32) -> i32 {
        let mut answer = 0;
        for _ in 0..ticks {
            answer = crate::tick(&mut self.state[..]);
        }
        answer
    }

    fn print(&self, answer: i32, success: &str) -> String {
        if self.words {
            format!("{answer} {}\n", in_words(answer, success))
        } else {
            format!("{answer}\n")
        }
    }
}

/// Runs a console from the first line to the last, which may lack its newline.
pub fn run(mut input: impl BufRead, mut output: impl Write, words: bool) -> Result<()> {
    let mut console = Console::booted(words);
    let mut line = vec![];
    while input.read_until(b'\n', &mut line)? > 0 {
        let bytes = line.strip_suffix(b"\n").unwrap_or(&line);
        output.write_all(console.line(bytes).as_bytes())?;
        line.clear();
    }
    output.flush()
}
