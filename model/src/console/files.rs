//! The files that `save` and `load` name, and what can be wrong with them (docs/USING.md).

use std::ffi::OsStr;
use std::fmt;
use std::fs::{self, File};
use std::io::{self, Read};
use std::os::unix::ffi::OsStrExt;

/// So many bytes hold every text with one address record, in records of 1 byte and with CR LF too.
pub const LONGEST: usize = 262_144;

#[derive(Clone, Copy, Debug, PartialEq, Eq)]
pub enum Trouble {
    Write,
    Read,
    TooLong,
}

/// The texts that stand after `? line N: `.
impl fmt::Display for Trouble {
    fn fmt(&self, f: &mut fmt::Formatter) -> fmt::Result {
        match self {
            Trouble::Write => write!(
                f,
                "cannot write that file: look at its name, its folder and the room there"
            ),
            Trouble::Read => write!(
                f,
                "cannot read that file: look at its name and who may read it"
            ),
            Trouble::TooLong => write!(
                f,
                "that file is longer than {LONGEST} bytes, more than a state's text needs"
            ),
        }
    }
}

/// A name is bytes, as the line has them.
pub fn write(name: &[u8], text: &[u8]) -> Result<(), Trouble> {
    fs::write(OsStr::from_bytes(name), text).map_err(|_| Trouble::Write)
}

pub fn read(name: &[u8]) -> Result<Vec<u8>, Trouble> {
    let text = first_bytes(OsStr::from_bytes(name), LONGEST + 1).map_err(|_| Trouble::Read)?;
    match text.len() <= LONGEST {
        true => Ok(text),
        false => Err(Trouble::TooLong),
    }
}

/// So many bytes of a file, or all if it has fewer.
fn first_bytes(name: &OsStr, count: usize) -> io::Result<Vec<u8>> {
    let mut bytes = vec![];
    File::open(name)?
        .take(count as u64)
        .read_to_end(&mut bytes)?;
    Ok(bytes)
}
