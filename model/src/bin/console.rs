//! console [words]: the console of docs/USING.md on the model, from standard input to standard
//! output; `words` puts the meaning behind each answer.

use std::io::{stdin, stdout};
use std::process::exit;

fn main() {
    let words = match std::env::args().nth(1).as_deref() {
        None => false,
        Some("words") => true,
        Some(other) => {
            eprintln!("console [words]: not {other}");
            exit(2)
        }
    };
    if let Err(error) = model::console::run(stdin().lock(), stdout().lock(), words) {
        eprintln!("console: {error}");
        exit(1);
    }
}
