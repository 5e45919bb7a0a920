//! States built by calls on which the bench measures: the boot state, the same with a table ripe
//! for deletion, and one full of rights.

use super::look;
use crate::entry::Entry;
use crate::kinds;
use crate::layout::{place_of, tag, State, SIZE};
use crate::objects::{address_of, entries};

pub struct Timed {
    pub name: &'static str,
    pub words: [u32; 4],
}

pub struct Prepared {
    pub name: &'static str,
    pub bytes: Box<State>,
    pub calls: Vec<Timed>,
}

impl Prepared {
    /// The boot process.
    pub const CALLER: u32 = 18;

    /// How many entries are filled.
    pub fn rights(&self) -> usize {
        look::firsts(&self.bytes, tag::TABLE)
            .into_iter()
            .map(|t| look::filled(&self.bytes, t))
            .sum()
    }
}

fn booted() -> Box<State> {
    let mut s = Box::new([0; SIZE]);
    assert_eq!(crate::boot(&mut s[..]), 0);
    s
}

fn done(s: &mut State, words: [u32; 4]) {
    assert_eq!(crate::apply(s, Prepared::CALLER, words), 0, "{words:#x?}");
}

fn create_table(place: u32, slot: usize, entries: u32) -> [u32; 4] {
    [0x0001_0000, 4 << 16 | place, address_of(slot), entries]
}

/// Freezes the root of a table that is to be deleted, and lets it ripen.
fn ripen(s: &mut State, place: u32) {
    done(s, [0x0004_0000, place, 0, 0]);
    for _ in 0..8 {
        assert_eq!(crate::tick(&mut s[..]), 0);
    }
}

/// The timed calls, with an empty table ripe at place 6, place 31 blank and slot 255 free.
fn calls() -> Vec<Timed> {
    vec![
        Timed {
            name: "send",
            words: [0x0012_0000, 5, 0, 0],
        },
        Timed {
            name: "create endpoint",
            words: [0x0010_0000, 4, 31, address_of(255)],
        },
        Timed {
            name: "delegate",
            words: [0x0003_0000, 31, 5, 1],
        },
        Timed {
            name: "delete table",
            words: [0x0002_0000, 6, 0, 0],
        },
    ]
}

/// The boot state itself, which has no table to delete.
pub fn boot() -> Prepared {
    let mut calls = calls();
    calls.retain(|call| call.name != "delete table");
    Prepared {
        name: "boot state",
        bytes: booted(),
        calls,
    }
}

pub fn small() -> Prepared {
    let mut s = booted();
    done(&mut s, create_table(6, 20, 1));
    ripen(&mut s, 6);
    Prepared {
        name: "boot state with an empty table",
        bytes: s,
        calls: calls(),
    }
}

/// Tables of 64 entries as long as there is room, every entry but place 31 filled by delegation,
/// each right the child of one given shortly before, so that parent chains are long.
pub fn full() -> Prepared {
    let mut s = booted();
    // Slot 20 for the table to delete, 21..244 for seven tables, 245..254 for one of 20 entries.
    done(&mut s, create_table(6, 20, 1));
    for i in 0..7 {
        done(&mut s, create_table(7 + i, 21 + 32 * i as usize, 64));
    }
    done(&mut s, create_table(14, 245, 20));
    ripen(&mut s, 6);
    for place in 15..31 {
        delegate_into(&mut s, 0, place);
    }
    for table in 7..15 {
        let first = Entry::read(&s, table as usize).object as usize;
        for entry in 0..entries(&s, first) as u32 {
            delegate_into(&mut s, table, entry);
        }
    }
    Prepared {
        name: "state full of rights",
        bytes: s,
        calls: calls(),
    }
}

/// Fills one entry with a grant of all that the right eight entries before holds, or, at a table's
/// beginning, of one of the boot roots in turn; table and directory, process and endpoint, memory
/// and function all take part.
fn delegate_into(s: &mut State, table: u32, entry: u32) {
    let first = Entry::read(s, table as usize).object as usize;
    let (from_table, from) = match entry {
        e if e >= 8 && (table != 0 || e >= 23) => (table, e - 8),
        e => (0, e % 6),
    };
    let from_first = Entry::read(s, from_table as usize).object as usize;
    let source = Entry::read(s, place_of(from_first, from as usize));
    let (w0, p3) = match source.kind {
        kinds::MEMORY => match crate::pack(source.low, source.high, source.flags) {
            Ok(words) => words,
            Err(_) => unreachable!("a right's ends are multiples of 64"),
        },
        kinds::DIRECTORY => (
            0x0003_0000,
            source.high << 20 | source.low << 8 | source.flags,
        ),
        kinds::FUNCTION => (0x0003_0000, source.high << 16 | source.low),
        _ => (0x0003_0000, source.flags),
    };
    let to = table << 16 | entry;
    done(s, [w0, to, from_table << 16 | from, p3]);
    debug_assert!(!Entry::read(s, place_of(first, entry as usize)).is_blank());
}
