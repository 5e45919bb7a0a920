//! Damages of directories: the heading, the positions, the bytes between.

use super::pick::{any_tagged, bit, one_of, set};
use super::{Damage, Level};
use crate::drive::look::firsts;
use crate::drive::rng::Rng;
use crate::kinds::PAGE_FLAGS;
use crate::layout::{argument, directory_slots, holds, memory_of, position_of, tag, word, State};
use crate::objects;

pub const AIMED: [Damage; 10] = [
    Damage("directory: size order", Level::Word, |s, r| {
        let at = memory_of(any_tagged(s, r, tag::DIRECTORY)?);
        let order = match r.below(4) {
            0 => r.within(0, 33),
            1 => word(s, at) + 1,
            2 => word(s, at) - 1,
            _ => r.pick(&[5, 6, 31, 32, u32::MAX]),
        };
        set(s, at, order)
    }),
    Damage("directory: top mark", Level::Word, |s, r| {
        let at = memory_of(any_tagged(s, r, tag::DIRECTORY)?) + 4;
        set(s, at, r.pick(&[0, 1, 2, 256, 257]))
    }),
    Damage("directory: a bit of start", Level::Bit, |s, r| {
        let at = memory_of(any_tagged(s, r, tag::DIRECTORY)?) + 8;
        bit(s, r, at, at + 4)
    }),
    Damage("directory: padding", Level::Bit, |s, r| {
        let first = any_tagged(s, r, tag::DIRECTORY)?;
        let order = argument(s, first) as u32;
        let at = memory_of(first);
        let end = position_of(first, 1 << order);
        let tail = memory_of(first + directory_slots(order));
        match end < tail && r.chance(60) {
            true => bit(s, r, end, tail),
            false => bit(s, r, at + 12, at + 32),
        }
    }),
    Damage("position: a bit", Level::Bit, |s, r| {
        let (_, at) = any_position(s, r)?;
        bit(s, r, at, at + 8)
    }),
    Damage("position: what it holds", Level::Byte, |s, r| {
        let (_, at) = any_position(s, r)?;
        s[at] = r.within(0, 3) as u8;
        Some(())
    }),
    Damage("position: flags or padding", Level::Bit, |s, r| {
        let (_, at) = any_position(s, r)?;
        bit(s, r, at + 1, at + 4)
    }),
    Damage("position: a page", Level::Many, |s, r| {
        let (first, at) = any_position(s, r)?;
        let size = 1u32 << objects::size_order(s, first);
        let frame = r.word() & !(size - 1);
        let off = r.pick(&[0, 0, size / 2, 1]);
        objects::hold(s, at, holds::PAGE, r.word() & 0x7F, frame | off);
        Some(())
    }),
    Damage("position: a child", Level::Many, |s, r| {
        let (first, at) = any_position(s, r)?;
        let child = a_child(s, r, first)?;
        objects::hold(s, at, holds::CHILD, r.word() & PAGE_FLAGS, child);
        Some(())
    }),
    Damage("position: a child's slot", Level::Word, |s, r| {
        let first = any_tagged(s, r, tag::DIRECTORY)?;
        let hung = (0..objects::positions(s, first))
            .map(|i| position_of(first, i))
            .filter(|&at| s[at] == holds::CHILD)
            .collect();
        let at = one_of(r, hung)?;
        let child = a_child(s, r, first)?;
        set(s, at + 4, child)
    }),
];

/// A directory and the first byte of one of its positions, filled ones more often.
fn any_position(s: &State, r: &mut Rng) -> Option<(usize, usize)> {
    let first = any_tagged(s, r, tag::DIRECTORY)?;
    let n = objects::positions(s, first);
    let from = r.below(n);
    let filled = (0..n)
        .map(|i| position_of(first, (from + i) % n))
        .find(|&at| s[at] != holds::NOTHING);
    match filled {
        Some(at) if r.chance(60) => Some((first, at)),
        _ => Some((first, position_of(first, from))),
    }
}

/// A slot for a child: mostly of a directory whose orders fit, top or not.
fn a_child(s: &State, r: &mut Rng, parent: usize) -> Option<u32> {
    let order = objects::size_order(s, parent);
    let fitting = firsts(s, tag::DIRECTORY)
        .into_iter()
        .filter(|&d| objects::size_order(s, d) + argument(s, d) as u32 == order)
        .collect();
    let fits = one_of(r, fitting).map(|d| d as u32);
    Some(match r.below(8) {
        0 => r.within(0, 256),
        1 => any_tagged(s, r, tag::DIRECTORY)? as u32,
        2 => fits? + 1,
        3 => fits? | 1 << r.within(8, 31),
        _ => fits?,
    })
}
