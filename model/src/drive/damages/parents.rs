//! Damages of the relation between rights: parents, cycles, roots, moves and copies.

use super::pick::{
    any_blank, any_child, any_right, any_root, any_tagged, change, change_at, change_child, one_of,
    set,
};
use super::{Damage, Level};
use crate::drive::look::{firsts, places};
use crate::drive::rng::Rng;
use crate::entry::{blank, Entry};
use crate::kinds;
use crate::layout::{argument, memory_of, put, table_slots, tag, word, State, PLACES, SLOTS};

pub const AIMED: [Damage; 18] = [
    Damage("parent: any place", Level::Word, |s, r| {
        change(s, r, |e, r| e.parent = r.within(0, PLACES as u32 + 2))
    }),
    Damage("parent: a high bit", Level::Bit, |s, r| {
        change_child(s, r, |e, r| e.parent |= 1 << r.within(9, 31))
    }),
    Damage("parent: another of its object", Level::Word, reparent),
    Damage("parent: itself", Level::Word, |s, r| {
        let place = any_right(s, r)?;
        set(s, 32 * place + 28, place as u32 + 1)
    }),
    Damage("parent: a blank entry", Level::Word, |s, r| {
        let parent = any_blank(s, r)? as u32 + 1;
        change_child(s, r, |e, _| e.parent = parent)
    }),
    Damage("parent: a copy outside all tables", Level::Many, outside),
    Damage(
        "parent: what only looks like a right",
        Level::Many,
        lookalike,
    ),
    Damage("parents: a cycle of equals", Level::Many, cycle),
    Damage(
        "parents: a cycle in the root's stead",
        Level::Many,
        |s, r| {
            let child = any_child(s, r)?;
            let parent = Entry::read(s, child).parent as usize - 1;
            set(s, 32 * parent + 28, child as u32 + 1)
        },
    ),
    Damage("parents: a long chain", Level::Many, |s, r| {
        chain(s, r, false)
    }),
    Damage("parents: a long chain, closed", Level::Many, |s, r| {
        chain(s, r, true)
    }),
    Damage("root: a second one", Level::Many, |s, r| {
        let root = Entry::read(s, any_root(s, r)?);
        root.write(s, any_blank(s, r)?);
        Some(())
    }),
    Damage("root: a child made one", Level::Word, |s, r| {
        change_child(s, r, |e, _| e.parent = 0)
    }),
    Damage("root: a child made a whole one", Level::Many, |s, r| {
        let place = any_child(s, r)?;
        let root = root_of(s, place)?;
        root.write(s, place);
        Some(())
    }),
    Damage("root: gone", Level::Many, |s, r| {
        let place = any_root(s, r)?;
        blank(s, place);
        Some(())
    }),
    Damage("right: copied", Level::Many, |s, r| {
        let child = Entry::read(s, any_child(s, r)?);
        child.write(s, any_blank(s, r)?);
        Some(())
    }),
    Damage("right: moved, children follow", Level::Many, |s, r| {
        move_right(s, r, true)
    }),
    Damage("right: moved, children stay", Level::Many, |s, r| {
        move_right(s, r, false)
    }),
];

/// The root of the right at a place.
fn root_of(s: &State, place: usize) -> Option<Entry> {
    let e = Entry::read(s, place);
    places(s)
        .into_iter()
        .map(|p| Entry::read(s, p))
        .find(|root| root.is_root() && root.kind == e.kind && root.object == e.object)
}

/// A right's parent becomes another right of its kind and mostly of its object: sound, too narrow
/// or a cycle.
fn reparent(s: &mut State, r: &mut Rng) -> Option<()> {
    let place = any_child(s, r)?;
    let e = Entry::read(s, place);
    let stray = r.chance(10);
    let others = places(s)
        .into_iter()
        .filter(|&p| {
            let other = Entry::read(s, p);
            other.kind == e.kind && (stray || other.object == e.object)
        })
        .collect();
    let parent = one_of(r, others)?;
    set(s, 32 * place + 28, parent as u32 + 1)
}

/// The parent's bytes stand, whole, where no table has an entry.
fn outside(s: &mut State, r: &mut Rng) -> Option<()> {
    let child = any_child(s, r)?;
    let parent = Entry::read(s, Entry::read(s, child).parent as usize - 1);
    let slot = match r.below(3) {
        0 => any_tagged(s, r, tag::FREE)?,
        1 => {
            let odd = firsts(s, tag::TABLE)
                .into_iter()
                .filter(|&t| argument(s, t) % 2 == 1)
                .collect();
            let table = one_of(r, odd)?;
            table + table_slots(argument(s, table) as usize) - 1
        }
        _ => r.below(SLOTS),
    };
    let place = 2 * slot + 1;
    if Entry::read(s, place) == Entry::default() {
        parent.write(s, place);
    }
    change_at(s, r, child, |e, _| e.parent = place as u32 + 1)
}

/// An endpoint's count, or a directory's size order, reads like the kind of a root: function with
/// the range 0..0, or table 0. A child of that is put up.
fn lookalike(s: &mut State, r: &mut Rng) -> Option<()> {
    let blank = any_blank(s, r)?;
    let tagged = r.pick(&[tag::ENDPOINT, tag::DIRECTORY]);
    let slot = any_tagged(s, r, tagged)?;
    let kind = match tagged {
        tag::ENDPOINT => r.pick(&[kinds::FUNCTION, kinds::TABLE]),
        _ => kinds::FUNCTION,
    };
    put(s, memory_of(slot), kind);
    let seeming = Entry::read(s, 2 * slot);
    let child = Entry {
        parent: 2 * slot as u32 + 1,
        ..seeming
    };
    child.write(s, blank);
    Some(())
}

/// Two equal rights, each the other's parent, beside the root.
fn cycle(s: &mut State, r: &mut Rng) -> Option<()> {
    let mut e = Entry::read(s, any_right(s, r)?);
    let (one, two) = (any_blank(s, r)?, any_blank(s, r)?);
    e.parent = one as u32 + 1;
    e.write(s, two);
    e.parent = two as u32 + 1;
    e.write(s, one);
    Some(())
}

/// Copies of a right, each the child of the one before; closed, the first is the last's child.
fn chain(s: &mut State, r: &mut Rng, closed: bool) -> Option<()> {
    let start = any_right(s, r)?;
    let mut e = Entry::read(s, start);
    let mut blanks: Vec<usize> = places(s)
        .into_iter()
        .filter(|&p| Entry::read(s, p).is_blank())
        .collect();
    if r.chance(50) {
        blanks.reverse();
    }
    let first = *blanks.first()?;
    let mut before = start;
    for &place in &blanks[..1 + r.below(blanks.len())] {
        e.parent = before as u32 + 1;
        e.write(s, place);
        before = place;
    }
    match closed {
        true => set(s, 32 * first + 28, before as u32 + 1),
        false => Some(()),
    }
}

/// A right goes to a blank entry; its children's parent words follow it or not.
fn move_right(s: &mut State, r: &mut Rng, follow: bool) -> Option<()> {
    let from = any_right(s, r)?;
    let to = any_blank(s, r)?;
    Entry::read(s, from).write(s, to);
    blank(s, from);
    if follow {
        for place in places(s) {
            if word(s, 32 * place + 28) == from as u32 + 1 {
                put(s, 32 * place + 28, to as u32 + 1);
            }
        }
    }
    Some(())
}
