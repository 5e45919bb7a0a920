//! Calls 6 to 11: create and delete directory, map and remove page, construct, destruct.

use super::words::{d0, d1, Words};
use super::{table_to_create_in, table_to_delete_in};
use crate::entry::{blank, Entry};
use crate::kinds::{self, directory, memory, PAGE_FLAGS};
use crate::layout::{directory_slots, holds, position_of, tag, word, State, POSITION_BYTES};
use crate::lookup::{address, capability, place_to_delete, place_to_fill};
use crate::objects::{free, hangs, head, hold, is_top, number_order, positions, size_order, stand};
use crate::refusal::{unless, FLAG, PGT_ADDR, PGT_HW, PGT_MAP, PGT_PERM};

/// Call 6: "C table CRT; P1.D1 memory PGTBL; Q1 place; Q0 size order, N[15:8] number order, P3
/// start with top mark in bit 0; P2 address".
pub fn create(s: &mut State, t: usize, w: &Words) -> Result<i32, i32> {
    let into = table_to_create_in(s, t, w)?;
    let right = capability(s, t, d1(w.p1), kinds::MEMORY, memory::PGTBL)?;
    // "Q1 and Q0 are the high and low byte of P1.D0"
    let place = place_to_fill(s, into, w.p1 >> 8 & 0xFF)?;
    let size = w.p1 & 0xFF;
    let number = w.n >> 8;
    let start = w.p3 & !1;
    unless(geometry(size, number, start), PGT_HW)?;
    let slots = directory_slots(number);
    let first = address(s, &right, w.p2, slots)?;
    stand(s, first, slots, tag::DIRECTORY, number as u8);
    head(s, first, size, w.p3 & 1 == 1, start);
    // "a directory's root ranges over exactly its positions"
    Entry::root(kinds::DIRECTORY, 0, (1 << number) - 1, first).write(s, place);
    Ok(0)
}

/// "size order 6..31, number order 1..8, sum at most 32, start a multiple of 2^sum".
pub fn geometry(size: u32, number: u32, start: u32) -> bool {
    (6..=31).contains(&size)
        && (1..=8).contains(&number)
        && size + number <= 32
        && start as u64 % (1 << (size + number)) == 0
}

/// Call 7: "C table DEL; P1 place".
pub fn delete(s: &mut State, t: usize, w: &Words) -> Result<i32, i32> {
    let holder = table_to_delete_in(s, t, w)?;
    let (place, right) = place_to_delete(s, holder, w.p1, kinds::DIRECTORY)?;
    let object = right.object as usize;
    // "PGT_HW (directory has a child or is one)"
    unless(!hangs(s, object), PGT_HW)?;
    blank(s, place);
    free(s, object, directory_slots(number_order(s, object)));
    Ok(0)
}

/// Call 8: "P1.D1 directory ADD_DST; P2.D1 directory ADD_SRC; P1.D0, P2.D0 positions; P3.D0 index;
/// P3.D1 page flags".
pub fn map(s: &mut State, t: usize, w: &Words) -> Result<i32, i32> {
    let target = capability(s, t, d1(w.p1), kinds::DIRECTORY, directory::ADD_DST)?;
    let source = capability(s, t, d1(w.p2), kinds::DIRECTORY, directory::ADD_SRC)?;
    let (to, from) = (d0(w.p1), d0(w.p2));
    let (index, flags) = (d0(w.p3), d1(w.p3));
    let target_order = size_order(s, target.object as usize);
    let source_order = size_order(s, source.object as usize);
    // "PGT_ADDR if the target's size order exceeds the source's, a position is past the end, or
    // index ≥ 2^difference"
    unless(target_order <= source_order, PGT_ADDR)?;
    let target_at = position(s, &target, to)?;
    let source_at = position(s, &source, from)?;
    unless(index < 1 << (source_order - target_order), PGT_ADDR)?;
    // "then ranges, target first (−5)"
    unless(target.covers(to), FLAG)?;
    unless(source.covers(from), FLAG)?;
    // "PGT_HW if the source holds no page; PGT_MAP if the target is filled; PGT_PERM"
    unless(s[source_at] == holds::PAGE, PGT_HW)?;
    unless(s[target_at] == holds::NOTHING, PGT_MAP)?;
    unless(flags & !(s[source_at + 1] as u32) == 0, PGT_PERM)?;
    // "Frame = source frame + index·2^(target order)."
    let frame = word(s, source_at + 4) + (index << target_order);
    hold(s, target_at, holds::PAGE, flags, frame);
    Ok(0)
}

/// The first byte of a position of the directory that a right names, if it is not "past the end".
fn position(s: &State, right: &Entry, position: u32) -> Result<usize, i32> {
    let directory = right.object as usize;
    unless((position as usize) < positions(s, directory), PGT_ADDR)?;
    Ok(position_of(directory, position as usize))
}

/// Call 10: "P1.D1 parent CON_PARENT; P1.D0 child CON_CHILD; P2 position; P3[5:0] page flags".
pub fn construct(s: &mut State, t: usize, w: &Words) -> Result<i32, i32> {
    let parent = capability(s, t, d1(w.p1), kinds::DIRECTORY, directory::CON_PARENT)?;
    let child = capability(s, t, d0(w.p1), kinds::DIRECTORY, directory::CON_CHILD)?;
    // "PGT_ADDR if the position is past the end or the child's size order plus number order is not
    // the parent's size order"
    let at = position(s, &parent, w.p2)?;
    let hanging = child.object as usize;
    let spanned = size_order(s, hanging) + number_order(s, hanging);
    unless(spanned == size_order(s, parent.object as usize), PGT_ADDR)?;
    // "then range; PGT_MAP if filled or the child is top"
    unless(parent.covers(w.p2), FLAG)?;
    unless(s[at] == holds::NOTHING, PGT_MAP)?;
    unless(!is_top(s, hanging), PGT_MAP)?;
    hold(s, at, holds::CHILD, w.p3 & PAGE_FLAGS, child.object);
    Ok(0)
}

/// Call 9: "P1 directory REM; P2 position".
pub fn remove_page(s: &mut State, t: usize, w: &Words) -> Result<i32, i32> {
    clear(s, t, w, directory::REM, holds::PAGE)
}

/// Call 11: "P1 directory DES; P2 position".
pub fn destruct(s: &mut State, t: usize, w: &Words) -> Result<i32, i32> {
    clear(s, t, w, directory::DES, holds::CHILD)
}

/// "Calls 9 and 11: PGT_ADDR, range, PGT_MAP unless a page, or a child, is there."
fn clear(s: &mut State, t: usize, w: &Words, flag: u32, wanted: u8) -> Result<i32, i32> {
    let right = capability(s, t, w.p1, kinds::DIRECTORY, flag)?;
    let at = position(s, &right, w.p2)?;
    unless(right.covers(w.p2), FLAG)?;
    unless(s[at] == wanted, PGT_MAP)?;
    s[at..at + POSITION_BYTES].fill(0);
    Ok(0)
}
