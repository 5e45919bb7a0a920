//! Looking about in a sound state: what stands where. Nothing here judges.

use super::rng::Rng;
use crate::entry::{kind_at, Entry};
use crate::kinds;
use crate::layout::{place_of, position_of, tag, State, BASE, SLOTS, SLOT_BYTES};
use crate::objects;

/// First slots of the objects with a tag.
pub fn firsts(s: &State, wanted: u8) -> Vec<usize> {
    (0..SLOTS).filter(|&slot| tag(s, slot) == wanted).collect()
}

/// Place numbers of all entries, blank ones too.
pub fn places(s: &State) -> Vec<usize> {
    firsts(s, tag::TABLE)
        .into_iter()
        .flat_map(|t| (0..objects::entries(s, t)).map(move |e| place_of(t, e)))
        .collect()
}

/// An entry of the table that fits, sought from a random one on.
pub fn entry_in(
    s: &State,
    rng: &mut Rng,
    table: usize,
    fits: impl Fn(usize, &Entry) -> bool,
) -> Option<u32> {
    let n = objects::entries(s, table);
    let from = rng.below(n);
    (0..n)
        .map(|i| (from + i) % n)
        .find(|&e| {
            let place = place_of(table, e);
            fits(place, &Entry::read(s, place))
        })
        .map(|e| e as u32)
}

/// How many entries of a table are filled.
pub fn filled(s: &State, table: usize) -> usize {
    (0..objects::entries(s, table))
        .filter(|&e| kind_at(s, place_of(table, e)) != kinds::BLANK)
        .count()
}

/// An entry of a table, if the table is long enough.
pub fn entry_at(s: &State, table: usize, entry: u32) -> Option<Entry> {
    ((entry as usize) < objects::entries(s, table))
        .then(|| Entry::read(s, place_of(table, entry as usize)))
}

/// The right under a number, whatever its kind, flags and marks.
pub fn under(s: &State, table: usize, number: u32) -> Option<Entry> {
    if number < 128 {
        return entry_at(s, table, number);
    }
    let middle = entry_at(s, table, (number / 256) & 127)?;
    match middle.kind {
        kinds::TABLE => entry_at(s, middle.object as usize, number % 128),
        _ => None,
    }
}

/// A position of the directory that fits, sought from a random one on; the test is on the byte that
/// says what it holds.
pub fn position_in(
    s: &State,
    rng: &mut Rng,
    directory: usize,
    fits: impl Fn(u32, u8) -> bool,
) -> Option<u32> {
    let n = objects::positions(s, directory);
    let from = rng.below(n);
    (0..n)
        .map(|i| (from + i) % n)
        .find(|&i| fits(i as u32, s[position_of(directory, i)]))
        .map(|i| i as u32)
}

/// The slot at a kernel address.
pub fn slot_of(address: u32) -> usize {
    (address - BASE) as usize / SLOT_BYTES
}

/// A run of free slots within `low..high` (addresses), sought from a random one on.
pub fn free_run(s: &State, rng: &mut Rng, low: u32, high: u32, slots: usize) -> Option<u32> {
    let (low, high) = (slot_of(low), slot_of(high));
    let n = (high + 1).checked_sub(low + slots).filter(|&n| n > 0)?;
    let from = rng.below(n);
    (0..n)
        .map(|i| low + (from + i) % n)
        .find(|&first| (first..first + slots).all(|slot| tag(s, slot) == tag::FREE))
        .map(objects::address_of)
}
