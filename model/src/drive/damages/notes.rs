//! Damages of the slots' notes, of free slots, and of whole objects.

use super::pick::{any_blank, any_object, any_tagged, bit};
use super::{Damage, Level};
use crate::drive::look::{free_run, places, slot_of};
use crate::drive::rng::Rng;
use crate::entry::{blank, Entry};
use crate::kinds;
use crate::layout::{
    argument, directory_slots, memory_of, note_of, table_slots, tag, State, BASE, CLOCK, END,
    NOTES, SLOTS,
};
use crate::objects;

pub const AIMED: [Damage; 11] = [
    Damage("note: a bit", Level::Bit, |s, r| bit(s, r, NOTES, CLOCK)),
    Damage("note: a bit of an object's", Level::Bit, |s, r| {
        let at = note_of(any_object(s, r)?);
        bit(s, r, at, at + 4)
    }),
    Damage("note: padding", Level::Bit, |s, r| {
        let at = note_of(r.below(SLOTS)) + 2;
        bit(s, r, at, at + 2)
    }),
    Damage("note: tag", Level::Byte, |s, r| {
        s[note_of(r.below(SLOTS))] = r.within(0, 6) as u8;
        Some(())
    }),
    Damage("note: argument", Level::Byte, |s, r| {
        s[note_of(r.below(SLOTS)) + 1] = r.within(0, 70) as u8;
        Some(())
    }),
    Damage("note: size of an object by one", Level::Byte, |s, r| {
        let at = note_of(any_object(s, r)?) + 1;
        s[at] = r.pick(&[s[at].wrapping_add(1), s[at].wrapping_sub(1)]);
        Some(())
    }),
    Damage("free slot: a bit", Level::Bit, |s, r| {
        let at = memory_of(any_tagged(s, r, tag::FREE)?);
        bit(s, r, at, at + 64)
    }),
    Damage("object: grown over what follows", Level::Many, overlap),
    Damage("object: past the end of memory", Level::Many, past_the_end),
    Damage("object: put up, or without root", Level::Many, put_up),
    Damage("object: taken down, or in part", Level::Many, take_down),
];

/// A table or directory is noted as larger than it is, with its later slots' notes to match.
fn overlap(s: &mut State, r: &mut Rng) -> Option<()> {
    let wanted = r.pick(&[tag::TABLE, tag::DIRECTORY]);
    let first = any_tagged(s, r, wanted)?;
    let (grown, slots) = match wanted {
        tag::TABLE => {
            let n = (argument(s, first) as usize + 1 + r.below(4)).min(64);
            (n as u8, table_slots(n))
        }
        _ => {
            let n = (argument(s, first) + 1).min(8);
            (n, directory_slots(n as u32))
        }
    };
    objects::stand(s, first, slots.min(SLOTS - first), wanted, grown);
    Some(())
}

/// An object noted in the last slots that would reach past the end of kernel memory.
fn past_the_end(s: &mut State, r: &mut Rng) -> Option<()> {
    let place = any_blank(s, r)?;
    let first = SLOTS - 1 - r.below(3);
    (first..SLOTS)
        .all(|slot| tag(s, slot) == tag::FREE)
        .then_some(())?;
    let (wanted, given) = r.pick(&[(tag::TABLE, 64), (tag::TABLE, 7), (tag::DIRECTORY, 4)]);
    objects::stand(s, first, SLOTS - first, wanted, given);
    let right = match wanted {
        tag::TABLE => Entry::root(kinds::TABLE, 0, 0, first),
        _ => {
            objects::head(s, first, 10, false, 0);
            Entry::root(kinds::DIRECTORY, 0, 15, first)
        }
    };
    right.write(s, place);
    Some(())
}

/// A new object, most often with its root; its size may be out of range.
fn put_up(s: &mut State, r: &mut Rng) -> Option<()> {
    let place = any_blank(s, r)?;
    let (kind, wanted) = r.pick(&[
        (kinds::TABLE, tag::TABLE),
        (kinds::DIRECTORY, tag::DIRECTORY),
        (kinds::ENDPOINT, tag::ENDPOINT),
    ]);
    let (given, slots, high) = match kind {
        kinds::TABLE => {
            let entries = r.pick(&[0, 1, 2, 3, 64, 65, 66]);
            (entries as u8, table_slots(entries).max(1), 0)
        }
        kinds::DIRECTORY => {
            let order = r.pick(&[0, 1, 2, 3, 9]);
            (order as u8, directory_slots(order), (1 << order) - 1)
        }
        _ => (0, 1, 0),
    };
    let first = slot_of(free_run(s, r, BASE, END, slots)?);
    objects::stand(s, first, slots, wanted, given);
    if kind == kinds::DIRECTORY {
        let size = r.within(4, 32);
        objects::head(s, first, size, r.chance(50), 0);
    }
    if r.chance(80) {
        Entry::root(kind, 0, high, first).write(s, place);
    }
    Some(())
}

/// An object goes, or its rights, or both.
fn take_down(s: &mut State, r: &mut Rng) -> Option<()> {
    let first = any_object(s, r)?;
    let (kind, slots) = match tag(s, first) {
        tag::TABLE => (kinds::TABLE, table_slots(argument(s, first) as usize)),
        tag::DIRECTORY => (kinds::DIRECTORY, directory_slots(argument(s, first) as u32)),
        tag::PROCESS => (kinds::PROCESS, 1),
        _ => (kinds::ENDPOINT, 1),
    };
    let (rights, object) = r.pick(&[(true, false), (false, true), (true, true)]);
    if rights {
        for place in places(s) {
            let e = Entry::read(s, place);
            if e.kind == kind && e.object == first as u32 {
                blank(s, place);
            }
        }
    }
    if object {
        objects::free(s, first, slots);
    }
    Some(())
}
