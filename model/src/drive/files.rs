//! Files for generated `save` and `load` lines: HEX texts prepared before a console runs in their
//! folder, names to save under, and what each file then holds, since the generator looks at the
//! state that a load gives.

use super::damages;
use super::hex::{sorts, Draft};
use super::rng::Rng;
use super::sound;
use crate::console::files::LONGEST;
use std::collections::BTreeMap;

/// Names that can be written and read, each a file of its own.
const SAVED: [&[u8]; 12] = [
    b"saved.hex",
    b"saved-2.hex",
    b"SAVED.HEX",
    b"x",
    b"0",
    b"0x1F",
    b"#saved",
    b"-",
    b"--words",
    b"save",
    b"boot\r.hex",
    b"\xC3\xA9t\xC3\xA9.hex",
];

/// Names that can be neither: no such folder, the folder itself, a file as a folder, a NUL within.
const NEITHER: [&[u8]; 6] = [
    b"missing/saved.hex",
    b".",
    b"./",
    b"sound-0.hex/saved.hex",
    b"missing/../saved.hex",
    b"saved.hex\0",
];

/// A name longer than this cannot be had, in any folder.
const LONGEST_NAME: usize = 255;

/// Sound states, each in a style of its own.
const SOUND: usize = 14;

pub struct Files {
    texts: BTreeMap<Vec<u8>, Vec<u8>>,
    /// The names of the prepared ones.
    prepared: Vec<Vec<u8>>,
}

impl Files {
    /// The seed decides every byte. Whole texts in several styles, texts of states that are not well
    /// formed, one changed text of each sort, and texts about as long as can be read.
    pub fn prepared(seed: u64) -> Files {
        let mut rng = Rng::new(seed);
        let mut files = Files {
            texts: BTreeMap::new(),
            prepared: vec![],
        };
        let states = sound::states(&mut rng, SOUND);
        files.add(
            "written.hex",
            Draft::as_written(&states[0], &mut rng).text(),
        );
        for (i, s) in states.iter().enumerate() {
            files.add(
                &format!("sound-{i}.hex"),
                Draft::at_random(s, &mut rng).text(),
            );
            let mut damaged = s.clone();
            damages::at_random(&mut damaged, &mut rng);
            files.add(
                &format!("damaged-{i}.hex"),
                Draft::at_random(&damaged, &mut rng).text(),
            );
        }
        for (i, sort) in sorts().enumerate() {
            let s = &states[i % SOUND];
            let mut draft = Draft::at_random(s, &mut rng);
            while (sort.2)(&mut draft, &mut rng).is_none() {
                draft = Draft::at_random(s, &mut rng);
            }
            files.add(&format!("text-{i}.hex"), draft.text());
        }
        files.add_long_ones(&mut rng);
        files
    }

    /// Of the greatest length, and longer: by a byte, by one that is text behind the end record, by
    /// much.
    fn add_long_ones(&mut self, rng: &mut Rng) {
        let s = sound::booted();
        let longest = Draft::longest(&s, 3, rng).text();
        assert_eq!(longest.len(), LONGEST);
        self.add("one-record.hex", Draft::longest(&s, 1, rng).text());
        self.add("behind.hex", [&longest[..], b"\n"].concat());
        self.add("longest.hex", longest);
        self.add("too-long.hex", Draft::longest(&s, 4, rng).text());
        self.add("far-too-long.hex", vec![b':'; 2 * LONGEST]);
    }

    fn add(&mut self, name: &str, text: Vec<u8>) {
        self.texts.insert(name.into(), text);
        self.prepared.push(name.into());
    }

    /// Each file's name and text.
    pub fn all(&self) -> impl Iterator<Item = (&[u8], &[u8])> {
        self.texts.iter().map(|(name, text)| (&name[..], &text[..]))
    }

    /// What a file holds that can be loaded.
    pub fn text(&self, name: &[u8]) -> Option<&[u8]> {
        let text = self.texts.get(plain(name))?;
        (text.len() <= LONGEST).then(|| &text[..])
    }

    /// Notes what was saved under a name of `a_name_to_save`.
    pub fn saved(&mut self, name: &[u8], text: Vec<u8>) {
        if !NEITHER.contains(&name) && plain(name).len() <= LONGEST_NAME {
            self.texts.insert(plain(name).to_vec(), text);
        }
    }

    /// Mostly one under which something may have been saved before.
    pub fn a_name_to_save(&self, rng: &mut Rng) -> Vec<u8> {
        match rng.below(20) {
            0 | 1 => rng.pick(&NEITHER).to_vec(),
            2 => vec![b'n'; LONGEST_NAME + rng.below(2)],
            3 => roundabout(rng),
            4 => self.prepared[rng.below(self.prepared.len())].clone(),
            _ => rng.pick(&SAVED).to_vec(),
        }
    }

    /// Mostly one of the prepared files.
    pub fn a_name_to_load(&self, rng: &mut Rng) -> Vec<u8> {
        match rng.below(20) {
            0 => b"missing.hex".to_vec(),
            1..=6 => self.a_name_to_save(rng),
            _ => self.prepared[rng.below(self.prepared.len())].clone(),
        }
    }
}

/// A way to a file of the folder through the folder itself, up to about as long as a line can be.
fn roundabout(rng: &mut Rng) -> Vec<u8> {
    let times = rng.pick(&[1, 2, 60, 126, 127, 128, 490]);
    [&b"./".repeat(times)[..], rng.pick(&SAVED)].concat()
}

/// The name without such a way before it.
fn plain(mut name: &[u8]) -> &[u8] {
    while let Some(rest) = name.strip_prefix(b"./") {
        name = rest;
    }
    name
}
