//! Picking what to damage, and the plainest ways to damage it.

use crate::drive::look::{entry_in, firsts, places};
use crate::drive::rng::Rng;
use crate::entry::Entry;
use crate::kinds;
use crate::layout::{place_of, put, tag, State};

pub fn set(s: &mut State, at: usize, value: u32) -> Option<()> {
    put(s, at, value);
    Some(())
}

pub fn bit(s: &mut State, r: &mut Rng, from: usize, to: usize) -> Option<()> {
    s[from + r.below(to - from)] ^= 1 << r.below(8);
    Some(())
}

pub fn byte(s: &mut State, r: &mut Rng, from: usize, to: usize) -> Option<()> {
    s[from + r.below(to - from)] = r.word() as u8;
    Some(())
}

pub fn one_of(r: &mut Rng, found: Vec<usize>) -> Option<usize> {
    (!found.is_empty()).then(|| r.pick(&found))
}

pub fn any_tagged(s: &State, r: &mut Rng, wanted: u8) -> Option<usize> {
    one_of(r, firsts(s, wanted))
}

pub fn any_object(s: &State, r: &mut Rng) -> Option<usize> {
    let wanted = r.within(tag::TABLE as u32, tag::ENDPOINT as u32) as u8;
    any_tagged(s, r, wanted)
}

/// A place that fits, of a kind chosen first so that the many do not crowd out the few.
pub fn any_place(s: &State, r: &mut Rng, fits: impl Fn(&Entry) -> bool) -> Option<usize> {
    let kind = r.within(kinds::TABLE, kinds::FUNCTION);
    let all: Vec<usize> = places(s)
        .into_iter()
        .filter(|&place| fits(&Entry::read(s, place)))
        .collect();
    let of_kind = all
        .iter()
        .copied()
        .filter(|&place| Entry::read(s, place).kind == kind)
        .collect();
    one_of(r, of_kind).or_else(|| one_of(r, all))
}

pub fn any_right(s: &State, r: &mut Rng) -> Option<usize> {
    any_place(s, r, |e| !e.is_blank())
}

pub fn any_root(s: &State, r: &mut Rng) -> Option<usize> {
    any_place(s, r, |e| !e.is_blank() && e.is_root())
}

pub fn any_child(s: &State, r: &mut Rng) -> Option<usize> {
    any_place(s, r, |e| !e.is_root())
}

pub fn any_blank(s: &State, r: &mut Rng) -> Option<usize> {
    let table = any_tagged(s, r, tag::TABLE)?;
    entry_in(s, r, table, |_, e| e.is_blank()).map(|e| place_of(table, e as usize))
}

pub fn change_at(
    s: &mut State,
    r: &mut Rng,
    place: usize,
    by: impl Fn(&mut Entry, &mut Rng),
) -> Option<()> {
    let mut e = Entry::read(s, place);
    by(&mut e, r);
    e.write(s, place);
    Some(())
}

/// Changes some right.
pub fn change(s: &mut State, r: &mut Rng, by: impl Fn(&mut Entry, &mut Rng)) -> Option<()> {
    let place = any_right(s, r)?;
    change_at(s, r, place, by)
}

/// Changes some right that has a parent.
pub fn change_child(s: &mut State, r: &mut Rng, by: impl Fn(&mut Entry, &mut Rng)) -> Option<()> {
    let place = any_child(s, r)?;
    change_at(s, r, place, by)
}
