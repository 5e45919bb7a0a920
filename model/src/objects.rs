//! Objects in their slots: standing up, filling in, freeing, and who names whom.

use crate::entry::{kind_at, parent_at};
use crate::kinds;
use crate::layout::{
    argument, holds, memory_of, note_of, place_of, position_of, put, tag, word, State, BASE, SLOTS,
    SLOT_BYTES,
};

/// The number of entries of the table at a slot.
pub fn entries(s: &State, table: usize) -> usize {
    argument(s, table) as usize
}

/// The number order of the directory at a slot.
pub fn number_order(s: &State, directory: usize) -> u32 {
    argument(s, directory) as u32
}

/// The number of positions of the directory at a slot.
pub fn positions(s: &State, directory: usize) -> usize {
    1 << number_order(s, directory)
}

pub fn size_order(s: &State, directory: usize) -> u32 {
    word(s, memory_of(directory))
}

pub fn is_top(s: &State, directory: usize) -> bool {
    word(s, memory_of(directory) + 4) == 1
}

/// Writes the notes of a new object; its slots are zero already.
pub fn stand(s: &mut State, first: usize, slots: usize, tag: u8, argument: u8) {
    s[note_of(first)] = tag;
    s[note_of(first) + 1] = argument;
    for slot in first + 1..first + slots {
        s[note_of(slot)] = tag::LATER;
        s[note_of(slot) + 1] = first as u8;
    }
}

/// "Freed slots are zeroed and may be used at once".
pub fn free(s: &mut State, first: usize, slots: usize) {
    s[memory_of(first)..memory_of(first + slots)].fill(0);
    s[note_of(first)..note_of(first + slots)].fill(0);
}

pub fn head(s: &mut State, directory: usize, size_order: u32, top: bool, start: u32) {
    let at = memory_of(directory);
    put(s, at, size_order);
    put(s, at + 4, top as u32);
    put(s, at + 8, start);
}

/// Fills a position: a page with its frame, or a child with its first slot.
pub fn hold(s: &mut State, at: usize, what: u8, flags: u32, value: u32) {
    s[at] = what;
    s[at + 1] = flags as u8;
    put(s, at + 4, value);
}

pub fn name_table(s: &mut State, process: usize, table: usize) {
    put(s, memory_of(process), table as u32);
}

pub fn name_directory(s: &mut State, process: usize, directory: usize) {
    put(s, memory_of(process) + 4, directory as u32);
}

/// The first slot of the table that a process names.
pub fn table_of(s: &State, process: usize) -> usize {
    word(s, memory_of(process)) as usize
}

pub fn mark_as_boot(s: &mut State, endpoint: usize) {
    put(s, memory_of(endpoint) + 4, 1);
}

/// "the boot endpoint bears a mark that no call sets".
pub fn is_boot_endpoint(s: &State, endpoint: usize) -> bool {
    word(s, memory_of(endpoint) + 4) == 1
}

pub fn address_of(slot: usize) -> u32 {
    BASE + (SLOT_BYTES * slot) as u32
}

fn firsts(s: &State, wanted: u8) -> impl Iterator<Item = usize> + '_ {
    (0..SLOTS).filter(move |&slot| tag(s, slot) == wanted)
}

/// Whether an entry of any table has this place as its parent ("Children counted in one table
/// only" is the slip).
pub fn has_children(s: &State, place: usize) -> bool {
    let parent = place as u32 + 1;
    firsts(s, tag::TABLE).any(|table| {
        (0..entries(s, table)).any(|entry| parent_at(s, place_of(table, entry)) == parent)
    })
}

/// "Users of a root: processes that name its object".
pub fn has_users(s: &State, kind: u32, object: u32) -> bool {
    let named_at = match kind {
        kinds::TABLE => 0,
        kinds::DIRECTORY => 4,
        _ => return false,
    };
    firsts(s, tag::PROCESS).any(|process| word(s, memory_of(process) + named_at) == object)
}

/// "table to delete not empty".
pub fn is_empty_table(s: &State, table: usize) -> bool {
    (0..entries(s, table)).all(|entry| kind_at(s, place_of(table, entry)) == kinds::BLANK)
}

/// The first slots of the children that hang in a directory.
fn children(s: &State, directory: usize) -> impl Iterator<Item = usize> + '_ {
    (0..positions(s, directory))
        .map(move |i| position_of(directory, i))
        .filter(|&at| s[at] == holds::CHILD)
        .map(|at| word(s, at + 4) as usize)
}

/// "directory has a child or is one".
pub fn hangs(s: &State, directory: usize) -> bool {
    children(s, directory).next().is_some()
        || firsts(s, tag::DIRECTORY).any(|other| children(s, other).any(|c| c == directory))
}
