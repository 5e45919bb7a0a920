//! lines [count] [seed] [folder]: writes so many console lines to standard output, for two consoles to
//! be compared on them. Where a folder is given, the files that the lines load are put into it, and
//! a console that runs in a copy of it finds them.

use model::drive::command;
use model::drive::files::Files;
use model::drive::lines::Lines;
use std::ffi::OsStr;
use std::io::{stdout, BufWriter, Result, Write};
use std::os::unix::ffi::OsStrExt;
use std::path::{Path, PathBuf};
use std::process::exit;

fn main() {
    let count = command::number(1, 50_000) as usize;
    let seed = command::number(2, 1);
    let folder = std::env::args_os().nth(3).map(PathBuf::from);
    if let Err(error) = write(count, seed, folder) {
        eprintln!("lines: {error}");
        exit(1);
    }
}

fn write(count: usize, seed: u64, folder: Option<PathBuf>) -> Result<()> {
    let files = match folder {
        Some(folder) => Some(prepare(seed, &folder)?),
        None => None,
    };
    let mut output = BufWriter::new(stdout().lock());
    for line in Lines::new(seed, files).take(count) {
        output.write_all(&line)?;
    }
    output.flush()
}

fn prepare(seed: u64, folder: &Path) -> Result<Files> {
    let files = Files::prepared(seed);
    std::fs::create_dir_all(folder)?;
    for (name, text) in files.all() {
        std::fs::write(folder.join(OsStr::from_bytes(name)), text)?;
    }
    Ok(files)
}
