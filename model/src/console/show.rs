//! The state in text, a fact a line (docs/USING.md, "What `show` prints").

use crate::entry::Entry;
use crate::kinds;
use crate::layout::{
    argument, clock, holds, memory_of, place_of, position_of, tag, word, State, SLOTS,
};
use crate::objects::{entries, is_boot_endpoint, is_top, number_order, positions, size_order};

/// "First the clock, then each object by rising slot".
pub fn show(s: &State) -> String {
    let mut text = format!("clock {}\n", clock(s));
    for slot in 0..SLOTS {
        match tag(s, slot) {
            tag::TABLE => table(s, slot, &mut text),
            tag::DIRECTORY => directory(s, slot, &mut text),
            tag::PROCESS => text += &process(s, slot),
            tag::ENDPOINT => text += &endpoint(s, slot),
            _ => {}
        }
    }
    text
}

/// "under a table its filled entries".
fn table(s: &State, slot: usize, text: &mut String) {
    *text += &format!("slot {slot}: table of {}\n", entries(s, slot));
    for entry in 0..entries(s, slot) {
        let right = Entry::read(s, place_of(slot, entry));
        if !right.is_blank() {
            *text += &format!("  {entry}: {}{}\n", what(&right), whence(s, &right));
        }
    }
}

/// Kind, object, flags and range of a right.
fn what(right: &Entry) -> String {
    let Entry {
        flags,
        low,
        high,
        object,
        ..
    } = right;
    match right.kind {
        kinds::TABLE => format!("table {object}, flags {flags:02x}"),
        kinds::DIRECTORY => {
            format!("directory {object}, flags {flags:02x}, positions {low}..{high}")
        }
        kinds::MEMORY => format!("memory {low:08x}..{high:08x}, flags {flags:02x}"),
        kinds::PROCESS => format!("process {object}, flags {flags:02x}"),
        kinds::ENDPOINT => format!("endpoint {object}, flags {flags:02x}"),
        // The last kind; "a function has none" of the flags.
        _ => format!("function {low}..{high}"),
    }
}

/// "A right ends with `root`, or with `from T:E`, entry E of the table at slot T, its parent; before
/// that stands `frozen at S` where it is frozen".
fn whence(s: &State, right: &Entry) -> String {
    let frozen = match right.is_frozen() {
        true => format!(", frozen at {}", right.stamp),
        false => String::new(),
    };
    if right.is_root() {
        return format!("{frozen}, root");
    }
    let place = right.parent as usize - 1;
    let table = table_around(s, place);
    format!("{frozen}, from {table}:{}", place - place_of(table, 0))
}

/// The first slot of the table in which a place number lies, by the note of its slot.
fn table_around(s: &State, place: usize) -> usize {
    let slot = place / 2;
    match tag(s, slot) {
        tag::LATER => argument(s, slot) as usize,
        _ => slot,
    }
}

/// "under a directory its filled positions".
fn directory(s: &State, slot: usize, text: &mut String) {
    let top = if is_top(s, slot) { ", top" } else { "" };
    *text += &format!(
        "slot {slot}: directory{top}, start {:08x}, size order {}, number order {}\n",
        word(s, memory_of(slot) + 8),
        size_order(s, slot),
        number_order(s, slot)
    );
    for position in 0..positions(s, slot) {
        let at = position_of(slot, position);
        let (flags, value) = (s[at + 1], word(s, at + 4));
        match s[at] {
            holds::PAGE => *text += &format!("  {position}: page {value:08x}, flags {flags:02x}\n"),
            holds::CHILD => *text += &format!("  {position}: child {value}, flags {flags:02x}\n"),
            _ => {}
        }
    }
}

fn process(s: &State, slot: usize) -> String {
    let at = memory_of(slot);
    let (table, directory) = (word(s, at), word(s, at + 4));
    format!("slot {slot}: process, table {table}, directory {directory}\n")
}

fn endpoint(s: &State, slot: usize) -> String {
    let boot = if is_boot_endpoint(s, slot) {
        ", boot"
    } else {
        ""
    };
    let count = word(s, memory_of(slot));
    format!("slot {slot}: endpoint, count {count}{boot}\n")
}
