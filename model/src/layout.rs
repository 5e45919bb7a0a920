//! Where each byte of a state stands (docs/LAYOUT.md), and words read and written there.
//! All words are little-endian.

/// "A state is a lent buffer of exactly 17,472 bytes".
pub const SIZE: usize = 17_472;
pub type State = [u8; SIZE];

/// "256 slots of 64 bytes".
pub const SLOTS: usize = 256;
pub const SLOT_BYTES: usize = 64;

/// "Kernel addresses run from 0x20000000 to below 0x20004000".
pub const BASE: u32 = 0x2000_0000;
pub const END: u32 = 0x2000_4000;

pub const NOTES: usize = 16_384;
pub const CLOCK: usize = 17_408;
pub const SPARE: usize = 17_412;

/// "table of 1..64 entries, 32 bytes each": at most 512 of them fit kernel memory.
pub const ENTRY_BYTES: usize = 32;
pub const PLACES: usize = 512;

/// A directory's positions follow 32 bytes of heading and take 8 bytes each.
pub const HEADING_BYTES: usize = 32;
pub const POSITION_BYTES: usize = 8;

/// The tags of a slot's note.
pub mod tag {
    pub const FREE: u8 = 0;
    pub const LATER: u8 = 1;
    pub const TABLE: u8 = 2;
    pub const DIRECTORY: u8 = 3;
    pub const PROCESS: u8 = 4;
    pub const ENDPOINT: u8 = 5;
}

/// What a directory's position holds.
pub mod holds {
    pub const NOTHING: u8 = 0;
    pub const PAGE: u8 = 1;
    pub const CHILD: u8 = 2;
}

pub fn word(s: &[u8], at: usize) -> u32 {
    let bytes = &s[at..at + 4];
    u32::from_le_bytes([bytes[0], bytes[1], bytes[2], bytes[3]])
}

pub fn put(s: &mut [u8], at: usize, word: u32) {
    s[at..at + 4].copy_from_slice(&word.to_le_bytes());
}

pub fn clock(s: &State) -> u32 {
    word(s, CLOCK)
}

/// First byte of a slot in kernel memory.
pub fn memory_of(slot: usize) -> usize {
    SLOT_BYTES * slot
}

/// First byte of a slot's note.
pub fn note_of(slot: usize) -> usize {
    NOTES + 4 * slot
}

pub fn tag(s: &State, slot: usize) -> u8 {
    s[note_of(slot)]
}

pub fn argument(s: &State, slot: usize) -> u8 {
    s[note_of(slot) + 1]
}

/// The place number of an entry of the table at a slot.
pub fn place_of(table: usize, entry: usize) -> usize {
    2 * table + entry
}

/// First byte of a position of the directory at a slot.
pub fn position_of(directory: usize, position: usize) -> usize {
    memory_of(directory) + HEADING_BYTES + POSITION_BYTES * position
}

/// "entries·32 bytes, rounded up to slots".
pub fn table_slots(entries: usize) -> usize {
    slots_of(ENTRY_BYTES * entries)
}

/// "(32 + 8·2^k) bytes, rounded up".
pub fn directory_slots(number_order: u32) -> usize {
    slots_of(HEADING_BYTES + (POSITION_BYTES << number_order))
}

/// Bytes "rounded up to slots".
fn slots_of(bytes: usize) -> usize {
    (bytes + SLOT_BYTES - 1) / SLOT_BYTES
}
