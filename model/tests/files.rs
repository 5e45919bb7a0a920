//! Generated lines with files: the model's console runs them in the folder that was prepared, and
//! every answer of a load and every trouble with a file is met.

use model::console::{read, run, Line};
use model::drive::files::Files;
use model::drive::lines::Lines;
use std::collections::BTreeSet;
use std::ffi::OsStr;
use std::os::unix::ffi::OsStrExt;

const COUNT: usize = 50_000;

/// One test in this file, since it runs in another folder than the others.
#[test]
fn lines_that_save_and_load() {
    let folder = std::env::temp_dir().join(format!("model-lines-{}", std::process::id()));
    let _ = std::fs::remove_dir_all(&folder);
    std::fs::create_dir(&folder).unwrap();
    std::env::set_current_dir(&folder).unwrap();
    for (name, text) in Files::prepared(1).all() {
        std::fs::write(OsStr::from_bytes(name), text).unwrap();
    }
    let lines: Vec<Vec<u8>> = Lines::new(1, Some(Files::prepared(1)))
        .take(COUNT)
        .collect();
    assert!(
        lines
            == Lines::new(1, Some(Files::prepared(1)))
                .take(COUNT)
                .collect::<Vec<_>>()
    );
    let mut output = vec![];
    run(&lines.concat()[..], &mut output, false).unwrap();
    let output = String::from_utf8(output).unwrap();
    // Every refusal of a load, and every trouble, without the line's number.
    let met: BTreeSet<&str> = output
        .lines()
        .filter_map(|line| match line.split_once(" line ") {
            Some(("?", message)) => message.split_once(": ").map(|(_, message)| message),
            Some((refusal, _)) => Some(refusal),
            None => Some(line).filter(|&line| line == "-19"),
        })
        .collect();
    for wanted in [
        "-19",
        "-30",
        "-31",
        "-32",
        "-33",
        "cannot write that file: look at its name, its folder and the room there",
        "cannot read that file: look at its name and who may read it",
        "that file is longer than 262144 bytes, more than a state's text needs",
        "save takes one file name without blanks, as in: save state.hex",
        "load takes one file name without blanks, as in: load state.hex",
    ] {
        assert!(met.contains(wanted), "{wanted}: never met");
    }
    // A full count, which no call alone reaches.
    assert!(output.lines().any(|line| line == "-14"));
    let said: Vec<Line> = lines
        .iter()
        .filter_map(|line| read(&line[..line.len() - 1]).ok())
        .collect();
    let saves = said.iter().filter(|line| matches!(line, Line::Save(_)));
    let loads = said.iter().filter(|line| matches!(line, Line::Load(_)));
    assert!(saves.count() > COUNT / 400 && loads.count() > COUNT / 300);
    std::env::set_current_dir("/").unwrap();
    std::fs::remove_dir_all(&folder).unwrap();
}
