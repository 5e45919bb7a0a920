//! Calls 1 to 5: create table, delete table, delegate, freeze, remove.

use super::words::{d0, d1, Words};
use super::{table_named, table_to_create_in, table_to_delete_in};
use crate::entry::{blank, Entry};
use crate::grant::unpack;
use crate::kinds::{self, memory, table};
use crate::layout::{clock, table_slots, tag, State};
use crate::lookup::{
    address, capability, place_in_use, place_to_delete, place_to_fill, place_to_remove,
};
use crate::objects::{entries, free, is_empty_table, stand};
use crate::refusal::{unless, EXIST, FLAG, RANGE};

/// Call 1: "C table CRT; P1.D1 memory CAPTBL; P1.D0 place; P3 entries; P2 address".
pub fn create(s: &mut State, t: usize, w: &Words) -> Result<i32, i32> {
    let into = table_to_create_in(s, t, w)?;
    let right = capability(s, t, d1(w.p1), kinds::MEMORY, memory::CAPTBL)?;
    let place = place_to_fill(s, into, d0(w.p1))?;
    // "entries not 1..64"
    unless((1..=64).contains(&w.p3), RANGE)?;
    let slots = table_slots(w.p3 as usize);
    let first = address(s, &right, w.p2, slots)?;
    stand(s, first, slots, tag::TABLE, w.p3 as u8);
    Entry::root(kinds::TABLE, 0, 0, first).write(s, place);
    Ok(0)
}

/// Call 2: "C table DEL; P1 place".
pub fn delete(s: &mut State, t: usize, w: &Words) -> Result<i32, i32> {
    let holder = table_to_delete_in(s, t, w)?;
    let (place, right) = place_to_delete(s, holder, w.p1, kinds::TABLE)?;
    let object = right.object as usize;
    // "table to delete not empty"
    unless(is_empty_table(s, object), EXIST)?;
    blank(s, place);
    free(s, object, table_slots(entries(s, object)));
    Ok(0)
}

/// Call 3: "P1.D1 table ADD_DST; P2.D1 table ADD_SRC; P1.D0 place to; P2.D0 place from; P3 flags".
pub fn delegate(s: &mut State, t: usize, w: &Words) -> Result<i32, i32> {
    let into = table_named(s, t, d1(w.p1), table::ADD_DST)?;
    let from = table_named(s, t, d1(w.p2), table::ADD_SRC)?;
    let to = place_to_fill(s, into, d0(w.p1))?;
    let (source_place, source) = place_in_use(s, from, d0(w.p2))?;
    let granted = Entry {
        parent: source_place as u32 + 1,
        ..asked(&source, w)
    };
    unless(grantable(&granted, &source), FLAG)?;
    granted.write(s, to);
    Ok(0)
}

/// What the words ask for, of the source's kind and object.
fn asked(source: &Entry, w: &Words) -> Entry {
    let (low, high, flags) = match source.kind {
        // "For memory (M): upper address = P3.D1 over N[15:6] and six zeros, ..."
        kinds::MEMORY => unpack(w.nc, w.p3),
        // "lowest position in bits 19..8, highest in 31..20"
        kinds::DIRECTORY => (w.p3 >> 8 & 0xFFF, w.p3 >> 20, w.p3 & 0xFF),
        // "lowest number in bits 15..0, highest in 31..16"; "a function has none"
        kinds::FUNCTION => (d0(w.p3), d1(w.p3), 0),
        _ => (0, 0, w.p3),
    };
    Entry {
        flags,
        low,
        high,
        ..*source
    }
}

/// "new flags (a function has none) are non-empty and a subset, the range non-empty and inside".
fn grantable(new: &Entry, source: &Entry) -> bool {
    let flags = new.flags != 0 || new.kind == kinds::FUNCTION;
    let range = match new.kind {
        // "the upper is excluded"
        kinds::MEMORY => new.low < new.high,
        _ => new.low <= new.high,
    };
    let inside = source.low <= new.low && new.high <= source.high;
    flags && new.flags & !source.flags == 0 && range && inside
}

/// Call 4: "C table FRZ; P1 place".
pub fn freeze(s: &mut State, t: usize, w: &Words) -> Result<i32, i32> {
    let holder = table_named(s, t, w.c, table::FRZ)?;
    let (place, right) = place_in_use(s, holder, w.p1)?;
    let frozen = Entry {
        frozen: 1,
        stamp: clock(s),
        ..right
    };
    frozen.write(s, place);
    Ok(0)
}

/// Call 5: "C table REM; P1 place".
pub fn remove(s: &mut State, t: usize, w: &Words) -> Result<i32, i32> {
    let holder = table_named(s, t, w.c, table::REM)?;
    let place = place_to_remove(s, holder, w.p1)?;
    blank(s, place);
    Ok(0)
}
