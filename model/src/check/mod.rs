//! The check of a state: "Well formed means: ...", in one pass over the slots and one over the
//! parent chains. Nothing is written and nothing allocated.

mod chains;
mod fault;
mod objects;
mod rights;

use crate::layout::{
    argument, directory_slots, memory_of, note_of, table_slots, tag, State, CLOCK, NOTES, SLOTS,
    SPARE,
};
use fault::ensure;
pub use fault::Fault;
use rights::Rights;

/// "the check says yes exactly when −19 would not be given".
pub fn check(s: &[u8]) -> bool {
    verdict(s).is_ok()
}

/// The same, naming the first clause that fails.
pub fn verdict(s: &[u8]) -> Result<(), Fault> {
    let s = <&State>::try_from(s).map_err(|_| Fault::Length)?;
    // "free and unused bytes are zero"
    ensure(is_zero(&s[SPARE..]), Fault::Spare)?;
    ensure(is_zero_high(&s[NOTES..CLOCK]), Fault::NotePadding)?;
    let mut rights = Rights::none();
    let mut slot = 0;
    while slot < SLOTS {
        slot += object(s, slot, &mut rights)?;
    }
    rights.all_have_roots(s)?;
    chains::reach_roots(&rights.parents)
}

/// Checks the object, or the free slot, that begins here, and answers its number of slots.
fn object(s: &State, first: usize, rights: &mut Rights) -> Result<usize, Fault> {
    let given = argument(s, first);
    match tag(s, first) {
        tag::FREE => {
            ensure(given == 0, Fault::NoteArgument)?;
            ensure(is_zero(slots(s, first, 1)), Fault::FreeSlot)?;
            Ok(1)
        }
        tag::TABLE => {
            // "table of 1..64 entries"
            ensure((1..=64).contains(&given), Fault::NoteArgument)?;
            let n = table_slots(given as usize);
            later_slots(s, first, n)?;
            rights.of_table(s, first, slots(s, first, n), given as usize)?;
            Ok(n)
        }
        tag::DIRECTORY => {
            // "2^k entries, k from 1 to 8"
            ensure((1..=8).contains(&given), Fault::NoteArgument)?;
            let n = directory_slots(given as u32);
            later_slots(s, first, n)?;
            objects::directory(s, slots(s, first, n), given as u32)?;
            Ok(n)
        }
        tag::PROCESS => {
            ensure(given == 0, Fault::NoteArgument)?;
            objects::process(s, slots(s, first, 1))?;
            Ok(1)
        }
        tag::ENDPOINT => {
            ensure(given == 0, Fault::NoteArgument)?;
            objects::endpoint(slots(s, first, 1))?;
            Ok(1)
        }
        _ => Err(Fault::NoteTag),
    }
}

/// "objects lie in kernel memory and don't overlap": the slots after the first are all there and
/// all noted as this object's.
fn later_slots(s: &State, first: usize, n: usize) -> Result<(), Fault> {
    ensure(first + n <= SLOTS, Fault::OutsideMemory)?;
    let noted = (first + 1..first + n)
        .all(|slot| tag(s, slot) == tag::LATER && argument(s, slot) as usize == first);
    ensure(noted, Fault::LaterSlot)
}

/// The bytes of an object's slots.
fn slots(s: &State, first: usize, n: usize) -> &[u8] {
    &s[memory_of(first)..memory_of(first + n)]
}

/// The tag of the object whose first slot a stored word names, if it names a slot.
fn stands(s: &State, slot: u32, wanted: u8) -> bool {
    slot < SLOTS as u32 && s[note_of(slot as usize)] == wanted
}

fn is_zero(bytes: &[u8]) -> bool {
    bytes.iter().fold(0, |all, byte| all | byte) == 0
}

/// Bytes 2 and 3 of every note are 0.
fn is_zero_high(notes: &[u8]) -> bool {
    notes
        .chunks_exact(4)
        .fold(0, |all, note| all | note[2] | note[3])
        == 0
}
