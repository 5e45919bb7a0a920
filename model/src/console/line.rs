//! What a console line says, or what is wrong with it (docs/USING.md, "Its lines").
//! A line is bytes, not text: every byte but space and tab is part of a word.

use super::number::{self, NoNumber};
use std::fmt;

/// "more than 1,024 bytes in the line" is too long.
pub const LONGEST: usize = 1024;

#[derive(Clone, Debug, PartialEq, Eq)]
pub enum Line {
    /// "blank, or `#` first".
    Nothing,
    Boot,
    Tick(u32),
    Call {
        caller: u32,
        words: [u32; 4],
    },
    Show,
    /// The name of the file that the state's text goes into.
    Save(Vec<u8>),
    /// The name of the file whose text gives the state.
    Load(Vec<u8>),
}

/// What is wrong with a line; the words in it count from 1.
#[derive(Clone, Debug, PartialEq, Eq)]
pub enum Wrong {
    TooLong,
    AfterBoot,
    AfterShow,
    Save,
    Load,
    Tick,
    Beginning,
    /// So many words where a call has five.
    Call(usize),
    NotANumber(usize),
    TooLarge(usize),
}

/// The texts that stand after `? line N: `.
impl fmt::Display for Wrong {
    fn fmt(&self, f: &mut fmt::Formatter) -> fmt::Result {
        match self {
            Wrong::TooLong => write!(f, "longer than {LONGEST} bytes"),
            Wrong::AfterBoot => write!(f, "boot takes nothing after it"),
            Wrong::AfterShow => write!(f, "show takes nothing after it"),
            Wrong::Save => write!(
                f,
                "save takes one file name without blanks, as in: save state.hex"
            ),
            Wrong::Load => write!(
                f,
                "load takes one file name without blanks, as in: load state.hex"
            ),
            Wrong::Tick => write!(f, "tick takes one number, as in: tick 8"),
            Wrong::Beginning => write!(
                f,
                "begin with boot, tick, show, save, load or the caller's number"
            ),
            Wrong::Call(k) => write!(
                f,
                "a call is five numbers, CALLER W0 W1 W2 W3, and here are {k}"
            ),
            Wrong::NotANumber(k) => {
                write!(f, "word {k} is not a number (decimal, or hex as in 0x1F)")
            }
            Wrong::TooLarge(k) => write!(f, "word {k} is above {}", u32::MAX),
        }
    }
}

/// Reads a line, given without its newline; of several faults "the first of these that fits". A line
/// that is too long is so whatever it says, a comment too, and a carriage return before its end,
/// which "is not read", counts there.
pub fn read(line: &[u8]) -> Result<Line, Wrong> {
    if line.len() > LONGEST {
        return Err(Wrong::TooLong);
    }
    let line = line.strip_suffix(b"\r").unwrap_or(line);
    let words: Vec<&[u8]> = line
        .split(|byte| matches!(byte, b' ' | b'\t'))
        .filter(|word| !word.is_empty())
        .collect();
    match words[..] {
        [] | [[b'#', ..], ..] => Ok(Line::Nothing),
        [b"boot"] => Ok(Line::Boot),
        [b"boot", ..] => Err(Wrong::AfterBoot),
        [b"show"] => Ok(Line::Show),
        [b"show", ..] => Err(Wrong::AfterShow),
        [b"save", name] => Ok(Line::Save(name.to_vec())),
        [b"save", ..] => Err(Wrong::Save),
        [b"load", name] => Ok(Line::Load(name.to_vec())),
        [b"load", ..] => Err(Wrong::Load),
        [b"tick", ticks] => Ok(Line::Tick(number(2, ticks)?)),
        [b"tick", ..] => Err(Wrong::Tick),
        // "begins with no digit"
        [[b'0'..=b'9', ..], ..] => call(&words),
        _ => Err(Wrong::Beginning),
    }
}

/// The form first, then "word by word from the left".
fn call(words: &[&[u8]]) -> Result<Line, Wrong> {
    let (caller, w0, w1, w2, w3) = match words {
        [caller, w0, w1, w2, w3] => (caller, w0, w1, w2, w3),
        _ => return Err(Wrong::Call(words.len())),
    };
    let caller = number(1, caller)?;
    let words = [
        number(2, w0)?,
        number(3, w1)?,
        number(4, w2)?,
        number(5, w3)?,
    ];
    Ok(Line::Call { caller, words })
}

/// Word k of the line as a number.
fn number(k: usize, word: &[u8]) -> Result<u32, Wrong> {
    number::read(word).map_err(|why| match why {
        NoNumber::Spelling => Wrong::NotANumber(k),
        NoNumber::TooLarge => Wrong::TooLarge(k),
    })
}
