//! Arguments judged one by one: capability numbers, places, and a creation's address.
//! Each answers what was found or the refusal that stops the call.

use crate::entry::{kind_at, Entry};
use crate::kinds;
use crate::layout::{clock, place_of, tag, State, BASE, SLOT_BYTES};
use crate::objects::{entries, has_children, has_users};
use crate::refusal::{unless, EXIST, FLAG, FROZEN, KOTBL, NULL, QUIE, RANGE, REFCNT, TYPE};

/// "A capability argument: RANGE, FROZEN, TYPE, FLAG, at each step of a two-step number".
pub fn capability(
    s: &State,
    callers_table: usize,
    number: u32,
    kind: u32,
    flag: u32,
) -> Result<Entry, i32> {
    let found = of_kind(s, callers_table, number, kind)?;
    unless(found.flags & flag == flag, FLAG)?;
    Ok(found)
}

/// The same without the flag: for a function, which has none, and for receive, where −15 stands
/// between the kind and the flag.
pub fn of_kind(s: &State, callers_table: usize, number: u32, kind: u32) -> Result<Entry, i32> {
    if number < 128 {
        // "A capability number v below 128 is an entry of the caller's table."
        one_step(s, callers_table, number, kind)
    } else if number < 32768 && number & 128 != 0 {
        // "entry v/256 must be a table, and v mod 128 is the entry in it"; "the first step needs
        // no flag".
        let middle = one_step(s, callers_table, number / 256, kinds::TABLE)?;
        one_step(s, middle.object as usize, number % 128, kind)
    } else {
        // "Anything else is out of range."
        Err(RANGE)
    }
}

fn one_step(s: &State, table: usize, entry: u32, kind: u32) -> Result<Entry, i32> {
    let found = Entry::read(s, in_table(s, table, entry)?);
    unless(!found.is_frozen(), FROZEN)?;
    unless(found.kind == kind, TYPE)?;
    Ok(found)
}

/// "number or place beyond the table".
fn in_table(s: &State, table: usize, entry: u32) -> Result<usize, i32> {
    unless((entry as usize) < entries(s, table), RANGE)?;
    Ok(place_of(table, entry as usize))
}

/// "A place to fill: RANGE, FROZEN, EXIST".
pub fn place_to_fill(s: &State, table: usize, entry: u32) -> Result<usize, i32> {
    let place = in_table(s, table, entry)?;
    let there = Entry::read(s, place);
    unless(!there.is_frozen(), FROZEN)?;
    unless(there.is_blank(), EXIST)?;
    Ok(place)
}

/// The start of every other place: RANGE, NULL.
fn filled(s: &State, table: usize, entry: u32) -> Result<usize, i32> {
    let place = in_table(s, table, entry)?;
    unless(kind_at(s, place) != kinds::BLANK, NULL)?;
    Ok(place)
}

/// "Freeze: RANGE, NULL, FROZEN. Delegation's source place: RANGE, NULL, FROZEN".
pub fn place_in_use(s: &State, table: usize, entry: u32) -> Result<(usize, Entry), i32> {
    let place = filled(s, table, entry)?;
    let there = Entry::read(s, place);
    unless(!there.is_frozen(), FROZEN)?;
    Ok((place, there))
}

/// "A place to delete: RANGE, NULL, FROZEN, TYPE, QUIE, REFCNT"; what follows belongs to the kind.
pub fn place_to_delete(
    s: &State,
    table: usize,
    entry: u32,
    kind: u32,
) -> Result<(usize, Entry), i32> {
    let place = filled(s, table, entry)?;
    let there = Entry::read(s, place);
    // "or, to delete or remove, not frozen"
    unless(there.is_frozen(), FROZEN)?;
    unless(there.kind == kind, TYPE)?;
    quiescent(s, &there)?;
    // "has children or users; ... child to delete"
    unless(there.is_root(), REFCNT)?;
    unless(!has_children(s, place), REFCNT)?;
    unless(!has_users(s, kind, there.object), REFCNT)?;
    Ok((place, there))
}

/// "Remove: RANGE, NULL, FROZEN, QUIE, REFCNT".
pub fn place_to_remove(s: &State, table: usize, entry: u32) -> Result<usize, i32> {
    let place = filled(s, table, entry)?;
    let there = Entry::read(s, place);
    unless(there.is_frozen(), FROZEN)?;
    quiescent(s, &there)?;
    // "root to remove"
    unless(!there.is_root(), REFCNT)?;
    unless(!has_children(s, place), REFCNT)?;
    Ok(place)
}

/// "frozen for fewer than 8 ticks"; "Age = (clock − stamp) mod 2^32".
fn quiescent(s: &State, there: &Entry) -> Result<(), i32> {
    unless(clock(s).wrapping_sub(there.stamp) >= 8, QUIE)
}

/// "A creation's address: CAP_FLAG if misaligned or not wholly in the memory right, then KOTBL".
/// Answers the first slot.
pub fn address(s: &State, memory: &Entry, address: u32, slots: usize) -> Result<usize, i32> {
    let end = address as u64 + (SLOT_BYTES * slots) as u64;
    unless(address % SLOT_BYTES as u32 == 0, FLAG)?;
    // "the upper is excluded"
    unless(memory.low <= address && end <= memory.high as u64, FLAG)?;
    let first = (address - BASE) as usize / SLOT_BYTES;
    // "some needed slot is occupied"
    let free = (first..first + slots).all(|slot| tag(s, slot) == tag::FREE);
    unless(free, KOTBL)?;
    Ok(first)
}
