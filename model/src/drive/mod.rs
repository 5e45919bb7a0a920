//! What the drivers share and that needs no kernel: generators of calls, of console lines and of
//! HEX texts, the table of pairs met, damages, and the two sides under one face.

pub mod api;
pub mod arguments;
pub mod bad_lines;
pub mod bad_words;
pub mod command;
pub mod coverage;
pub mod damages;
pub mod files;
pub mod generator;
pub mod hex;
pub mod lines;
pub mod look;
pub mod prepared;
pub mod rng;
pub mod seldom;
pub mod shapes;
pub mod sound;
pub mod spelling;
pub mod trace;
