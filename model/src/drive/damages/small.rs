//! Damages without aim, and those of clock, spare bytes, processes and endpoints.

use super::pick::{any_tagged, bit, byte, set};
use super::{Damage, Level};
use crate::drive::rng::Rng;
use crate::layout::{memory_of, tag, State, CLOCK, SIZE, SPARE};

pub const LOOSE: [Damage; 3] = [
    Damage("a bit anywhere", Level::Bit, |s, r| bit(s, r, 0, SIZE)),
    Damage("a byte anywhere", Level::Byte, |s, r| byte(s, r, 0, SIZE)),
    Damage("a word anywhere", Level::Word, |s, r| {
        let at = 4 * r.below(SIZE / 4);
        set(s, at, r.word())
    }),
];

pub const AIMED: [Damage; 7] = [
    Damage("clock", Level::Word, |s, r| set(s, CLOCK, r.word())),
    Damage("spare: a bit", Level::Bit, |s, r| bit(s, r, SPARE, SIZE)),
    Damage("process: its table", Level::Word, |s, r| {
        let at = memory_of(any_tagged(s, r, tag::PROCESS)?);
        let slot = named(s, r, tag::TABLE)?;
        set(s, at, slot)
    }),
    Damage("process: its directory", Level::Word, |s, r| {
        let at = memory_of(any_tagged(s, r, tag::PROCESS)?) + 4;
        let slot = named(s, r, tag::DIRECTORY)?;
        set(s, at, slot)
    }),
    Damage("process, endpoint: padding", Level::Bit, |s, r| {
        let tag = r.pick(&[tag::PROCESS, tag::ENDPOINT]);
        let at = memory_of(any_tagged(s, r, tag)?);
        bit(s, r, at + 8, at + 64)
    }),
    Damage("endpoint: count", Level::Word, |s, r| {
        let at = memory_of(any_tagged(s, r, tag::ENDPOINT)?);
        set(s, at, r.word())
    }),
    Damage("endpoint: boot mark", Level::Word, |s, r| {
        let at = memory_of(any_tagged(s, r, tag::ENDPOINT)?);
        set(s, at + 4, r.pick(&[0, 1, 2, 256, 257]))
    }),
];

/// A slot to name: mostly an object with the tag, else any slot or past the end.
fn named(s: &State, r: &mut Rng, wanted: u8) -> Option<u32> {
    let object = any_tagged(s, r, wanted)? as u32;
    Some(match r.below(6) {
        0 => r.within(0, 256),
        1 => object + 1,
        2 => object | 1 << r.within(8, 31),
        _ => object,
    })
}
