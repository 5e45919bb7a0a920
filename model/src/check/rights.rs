//! The rights in the tables: each by itself, each against its parent, and one root for each object.

use super::fault::{ensure, Fault};
use super::{is_zero, stands};
use crate::entry::Entry;
use crate::kinds::{self, all_flags, object_tag};
use crate::layout::{
    argument, place_of, tag, State, BASE, END, ENTRY_BYTES, PLACES, SLOTS, SLOT_BYTES,
};

/// What the pass over the tables has gathered.
pub struct Rights {
    /// For each place number the parent word of the right there, 0 for a root or no right.
    pub parents: [u16; PLACES],
    /// For each slot whether a root of the object there was seen.
    rooted: [bool; SLOTS],
    memory_rooted: bool,
    function_rooted: bool,
}

impl Rights {
    pub fn none() -> Rights {
        Rights {
            parents: [0; PLACES],
            rooted: [false; SLOTS],
            memory_rooted: false,
            function_rooted: false,
        }
    }

    /// Checks the entries of one table; `bytes` are its slots.
    pub fn of_table(
        &mut self,
        s: &State,
        first: usize,
        bytes: &[u8],
        entries: usize,
    ) -> Result<(), Fault> {
        let (filled, rest) = bytes.split_at(ENTRY_BYTES * entries);
        ensure(is_zero(rest), Fault::TablePadding)?;
        for (entry, bytes) in filled.chunks_exact(ENTRY_BYTES).enumerate() {
            if bytes[0] == 0 && is_zero(bytes) {
                continue;
            }
            let place = place_of(first, entry);
            let right = Entry::read(s, place);
            ensure(!right.is_blank(), Fault::BlankEntry)?;
            fields(s, &right)?;
            if right.is_root() {
                self.root(s, &right)?;
            } else {
                child(s, &right)?;
                self.parents[place] = right.parent as u16;
            }
        }
        Ok(())
    }

    /// "exactly one root, with all its flags and whole range": this one is whole and the first.
    fn root(&mut self, s: &State, right: &Entry) -> Result<(), Fault> {
        ensure(right.flags == all_flags(right.kind), Fault::RootFlags)?;
        let whole = match right.kind {
            kinds::MEMORY => (BASE, END),
            kinds::FUNCTION => (0, 0xFFFF),
            // "a directory's root ranges over exactly its positions"
            kinds::DIRECTORY => (0, positions(s, right.object) - 1),
            _ => (0, 0),
        };
        ensure((right.low, right.high) == whole, Fault::RootRange)?;
        let seen = match right.kind {
            kinds::MEMORY => &mut self.memory_rooted,
            kinds::FUNCTION => &mut self.function_rooted,
            _ => &mut self.rooted[right.object as usize],
        };
        ensure(!*seen, Fault::SecondRoot)?;
        *seen = true;
        Ok(())
    }

    /// "each object, and the kinds memory and function, has exactly one root": none lacks one.
    pub fn all_have_roots(&self, s: &State) -> Result<(), Fault> {
        ensure(self.memory_rooted && self.function_rooted, Fault::NoRoot)?;
        let objects = (0..SLOTS).filter(|&slot| tag(s, slot) >= tag::TABLE);
        for slot in objects {
            ensure(self.rooted[slot], Fault::NoRoot)?;
        }
        Ok(())
    }
}

/// "every field is in range", and "each right, memory and function apart, names by its first slot
/// an object of its kind that stands there".
fn fields(s: &State, right: &Entry) -> Result<(), Fault> {
    ensure(right.kind <= kinds::FUNCTION, Fault::Kind)?;
    ensure(right.flags & !all_flags(right.kind) == 0, Fault::Flags)?;
    let there = match object_tag(right.kind) {
        Some(wanted) => stands(s, right.object, wanted),
        None => right.object == 0,
    };
    ensure(there, Fault::Object)?;
    let (low, high) = (right.low, right.high);
    let in_range = match right.kind {
        // Kernel addresses at a slot; the high end may be the end of memory (docs/DECISIONS.md).
        kinds::MEMORY => {
            low % SLOT_BYTES as u32 == 0
                && high % SLOT_BYTES as u32 == 0
                && (BASE..END).contains(&low)
                && (BASE..=END).contains(&high)
        }
        kinds::FUNCTION => low <= 0xFFFF && high <= 0xFFFF,
        kinds::DIRECTORY => {
            let end = positions(s, right.object);
            low < end && high < end
        }
        _ => low == 0 && high == 0,
    };
    ensure(in_range, Fault::Range)?;
    ensure(right.frozen <= 1, Fault::FrozenMark)?;
    ensure(right.is_frozen() || right.stamp == 0, Fault::Stamp)
}

/// "a child has its parent's kind and object, flags and range inside the parent's".
fn child(s: &State, right: &Entry) -> Result<(), Fault> {
    ensure(right.parent as usize <= PLACES, Fault::ParentNumber)?;
    let place = right.parent as usize - 1;
    ensure(is_entry(s, place), Fault::ParentNoEntry)?;
    let parent = Entry::read(s, place);
    ensure(parent.kind == right.kind, Fault::ParentKind)?;
    ensure(parent.object == right.object, Fault::ParentObject)?;
    ensure(right.flags & !parent.flags == 0, Fault::ParentFlags)?;
    let inside = parent.low <= right.low && right.high <= parent.high;
    ensure(inside, Fault::ParentRange)
}

/// Whether a place number is that of an entry of some table, by the notes of its slot.
fn is_entry(s: &State, place: usize) -> bool {
    let slot = place / 2;
    let table = match tag(s, slot) {
        tag::TABLE => slot,
        tag::LATER => argument(s, slot) as usize,
        _ => return false,
    };
    tag(s, table) == tag::TABLE
        && table <= slot
        && place - place_of(table, 0) < argument(s, table) as usize
}

/// The number of positions of a directory whose own note may not have been checked yet.
fn positions(s: &State, directory: u32) -> u32 {
    1 << argument(s, directory as usize).min(8)
}
