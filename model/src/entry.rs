//! One table entry: a capability, or blank. Eight words, in the order of docs/LAYOUT.md.

use crate::kinds;
use crate::layout::{put, word, State, ENTRY_BYTES};

/// "A capability has a kind, flags, a range where the kind has one, the object, a frozen mark with
/// its stamp, and a parent, unless it is a root".
#[derive(Clone, Copy, Debug, Default, PartialEq, Eq)]
pub struct Entry {
    pub kind: u32,
    pub flags: u32,
    pub low: u32,
    pub high: u32,
    pub object: u32,
    pub frozen: u32,
    pub stamp: u32,
    /// 0 for a root, else the parent's place number + 1.
    pub parent: u32,
}

impl Entry {
    pub fn read(s: &State, place: usize) -> Entry {
        let e = &s[ENTRY_BYTES * place..ENTRY_BYTES * (place + 1)];
        Entry {
            kind: word(e, 0),
            flags: word(e, 4),
            low: word(e, 8),
            high: word(e, 12),
            object: word(e, 16),
            frozen: word(e, 20),
            stamp: word(e, 24),
            parent: word(e, 28),
        }
    }

    pub fn write(&self, s: &mut State, place: usize) {
        let e = &mut s[ENTRY_BYTES * place..ENTRY_BYTES * (place + 1)];
        put(e, 0, self.kind);
        put(e, 4, self.flags);
        put(e, 8, self.low);
        put(e, 12, self.high);
        put(e, 16, self.object);
        put(e, 20, self.frozen);
        put(e, 24, self.stamp);
        put(e, 28, self.parent);
    }

    /// "Creation makes the one root of an object, with every flag of its kind".
    pub fn root(kind: u32, low: u32, high: u32, object: usize) -> Entry {
        Entry {
            kind,
            flags: kinds::all_flags(kind),
            low,
            high,
            object: object as u32,
            ..Entry::default()
        }
    }

    pub fn is_blank(&self) -> bool {
        self.kind == kinds::BLANK
    }

    pub fn is_frozen(&self) -> bool {
        self.frozen != 0
    }

    pub fn is_root(&self) -> bool {
        self.parent == 0
    }

    /// Whether a position or number lies in the range, "both included".
    pub fn covers(&self, number: u32) -> bool {
        self.low <= number && number <= self.high
    }
}

/// The kind alone, for searches over many entries.
pub fn kind_at(s: &State, place: usize) -> u32 {
    word(s, ENTRY_BYTES * place)
}

/// The parent word alone.
pub fn parent_at(s: &State, place: usize) -> u32 {
    word(s, ENTRY_BYTES * place + 28)
}

/// "A blank entry is 32 zero bytes" (docs/LAYOUT.md).
pub fn blank(s: &mut State, place: usize) {
    s[ENTRY_BYTES * place..ENTRY_BYTES * (place + 1)].fill(0);
}
