//! The other objects: directories with their positions, processes, endpoints.

use super::fault::{ensure, Fault};
use super::{is_zero, stands};
use crate::kinds::PAGE_FLAGS;
use crate::layout::{argument, holds, memory_of, tag, word, State, HEADING_BYTES, POSITION_BYTES};

/// A directory in its slots, with the number order from its note.
pub fn directory(s: &State, bytes: &[u8], number_order: u32) -> Result<(), Fault> {
    let (size_order, top, start) = (word(bytes, 0), word(bytes, 4), word(bytes, 8));
    // "size order 6..31, number order 1..8, sum at most 32, start a multiple of 2^sum"
    let spanned = size_order.saturating_add(number_order);
    let geometry =
        (6..=31).contains(&size_order) && spanned <= 32 && start as u64 % (1 << spanned) == 0;
    ensure(geometry, Fault::Geometry)?;
    ensure(top <= 1, Fault::TopMark)?;
    let end = HEADING_BYTES + (POSITION_BYTES << number_order);
    ensure(
        is_zero(&bytes[12..HEADING_BYTES]) && is_zero(&bytes[end..]),
        Fault::DirectoryPadding,
    )?;
    bytes[HEADING_BYTES..end]
        .chunks_exact(POSITION_BYTES)
        .try_for_each(|p| position(s, p, size_order))
}

fn position(s: &State, p: &[u8], size_order: u32) -> Result<(), Fault> {
    let value = word(p, 4);
    match p[0] {
        holds::NOTHING => return ensure(is_zero(p), Fault::EmptyPosition),
        // "a page's frame is a multiple of its size"
        holds::PAGE => ensure(value % (1 << size_order) == 0, Fault::Frame)?,
        holds::CHILD => child(s, value, size_order)?,
        _ => return Err(Fault::PositionTag),
    }
    ensure(p[1] as u32 & !PAGE_FLAGS == 0, Fault::PageFlags)?;
    ensure(p[2] == 0 && p[3] == 0, Fault::PositionPadding)
}

/// "a child directory satisfies the construct rule": it stands, "the child's size order plus number
/// order" is this size order, and it is not top.
fn child(s: &State, slot: u32, size_order: u32) -> Result<(), Fault> {
    ensure(stands(s, slot, tag::DIRECTORY), Fault::ChildSlot)?;
    let slot = slot as usize;
    let its_order = word(s, memory_of(slot));
    let spanned = its_order.saturating_add(argument(s, slot) as u32);
    ensure(spanned == size_order, Fault::ChildOrder)?;
    ensure(word(s, memory_of(slot) + 4) == 0, Fault::ChildTop)
}

/// "a process names a live table and a live top directory".
pub fn process(s: &State, bytes: &[u8]) -> Result<(), Fault> {
    let (table, directory) = (word(bytes, 0), word(bytes, 4));
    ensure(stands(s, table, tag::TABLE), Fault::ProcessTable)?;
    let is_top =
        stands(s, directory, tag::DIRECTORY) && word(s, memory_of(directory as usize) + 4) == 1;
    ensure(is_top, Fault::ProcessDirectory)?;
    ensure(is_zero(&bytes[8..]), Fault::ProcessPadding)
}

/// A count, which may be any word, and the boot mark.
pub fn endpoint(bytes: &[u8]) -> Result<(), Fault> {
    ensure(word(bytes, 4) <= 1, Fault::BootMark)?;
    ensure(is_zero(&bytes[8..]), Fault::EndpointPadding)
}
