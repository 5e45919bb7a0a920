//! Calls 12 to 15: create and delete process, change its table, change its directory.

use super::words::{d0, d1, Words};
use super::{table_named, table_to_create_in, table_to_delete_in};
use crate::entry::{blank, Entry};
use crate::kinds::{self, directory, memory, process, table};
use crate::layout::{tag, State};
use crate::lookup::{address, capability, place_to_delete, place_to_fill};
use crate::objects::{free, is_top, name_directory, name_table, stand};
use crate::refusal::{unless, PGT_HW};

/// Call 12: "C table CRT; P1.D1 memory PROC; P2.D1 table PROC_CRT; P2.D0 directory PROC_CRT; P1.D0
/// place; P3 address".
pub fn create(s: &mut State, t: usize, w: &Words) -> Result<i32, i32> {
    let into = table_to_create_in(s, t, w)?;
    let right = capability(s, t, d1(w.p1), kinds::MEMORY, memory::PROC)?;
    let its_table = table_named(s, t, d1(w.p2), table::PROC_CRT)?;
    let its_directory = top_directory(s, t, d0(w.p2), directory::PROC_CRT)?;
    let place = place_to_fill(s, into, d0(w.p1))?;
    let first = address(s, &right, w.p3, 1)?;
    stand(s, first, 1, tag::PROCESS, 0);
    name_table(s, first, its_table);
    name_directory(s, first, its_directory);
    Entry::root(kinds::PROCESS, 0, 0, first).write(s, place);
    Ok(0)
}

/// "A process's directory must be top, else PGT_HW, checked after that argument."
fn top_directory(s: &State, t: usize, number: u32, flag: u32) -> Result<usize, i32> {
    let right = capability(s, t, number, kinds::DIRECTORY, flag)?;
    unless(is_top(s, right.object as usize), PGT_HW)?;
    Ok(right.object as usize)
}

/// Call 13: "C table DEL; P1 place".
pub fn delete(s: &mut State, t: usize, w: &Words) -> Result<i32, i32> {
    let holder = table_to_delete_in(s, t, w)?;
    let (place, right) = place_to_delete(s, holder, w.p1, kinds::PROCESS)?;
    blank(s, place);
    free(s, right.object as usize, 1);
    Ok(0)
}

/// Call 14: "P1 process CPT; ... P2 table PROC_CPT".
pub fn change_table(s: &mut State, t: usize, w: &Words) -> Result<i32, i32> {
    let right = capability(s, t, w.p1, kinds::PROCESS, process::CPT)?;
    let its_table = table_named(s, t, w.p2, table::PROC_CPT)?;
    name_table(s, right.object as usize, its_table);
    Ok(0)
}

/// Call 15: "P1 process ... PGT; P2 ... directory PROC_PGT".
pub fn change_directory(s: &mut State, t: usize, w: &Words) -> Result<i32, i32> {
    let right = capability(s, t, w.p1, kinds::PROCESS, process::PGT)?;
    let its_directory = top_directory(s, t, w.p2, directory::PROC_PGT)?;
    name_directory(s, right.object as usize, its_directory);
    Ok(0)
}
