//! Calls 16 to 19: create and delete endpoint, send, receive.

use super::words::Words;
use super::{table_to_create_in, table_to_delete_in};
use crate::entry::{blank, Entry};
use crate::kinds::{self, endpoint, memory};
use crate::layout::{memory_of, put, tag, word, State};
use crate::lookup::{address, capability, of_kind, place_to_delete, place_to_fill};
use crate::objects::{free, is_boot_endpoint, stand};
use crate::refusal::{unless, FLAG, SIV_ACT, SIV_CONFLICT, SIV_FULL};

/// Call 16: "C table CRT; P1 memory SIG; P2 place; P3 address".
pub fn create(s: &mut State, t: usize, w: &Words) -> Result<i32, i32> {
    let into = table_to_create_in(s, t, w)?;
    let right = capability(s, t, w.p1, kinds::MEMORY, memory::SIG)?;
    let place = place_to_fill(s, into, w.p2)?;
    let first = address(s, &right, w.p3, 1)?;
    stand(s, first, 1, tag::ENDPOINT, 0);
    Entry::root(kinds::ENDPOINT, 0, 0, first).write(s, place);
    Ok(0)
}

/// Call 17: "C table DEL; P1 place".
pub fn delete(s: &mut State, t: usize, w: &Words) -> Result<i32, i32> {
    let holder = table_to_delete_in(s, t, w)?;
    let (place, right) = place_to_delete(s, holder, w.p1, kinds::ENDPOINT)?;
    let object = right.object as usize;
    // "deleting the boot endpoint"
    unless(!is_boot_endpoint(s, object), SIV_CONFLICT)?;
    blank(s, place);
    free(s, object, 1);
    Ok(0)
}

/// Call 18: "P1 endpoint SND".
pub fn send(s: &mut State, t: usize, w: &Words) -> Result<i32, i32> {
    let right = capability(s, t, w.p1, kinds::ENDPOINT, endpoint::SND)?;
    let at = memory_of(right.object as usize);
    // "count is 2^32−1 (M)"
    let more = word(s, at).checked_add(1).ok_or(SIV_FULL)?;
    put(s, at, more);
    Ok(0)
}

/// Call 19: "P1 endpoint ... flag of its option; 19 has P2 option 0..3 = BS, BM, NS, NM".
pub fn receive(s: &mut State, t: usize, w: &Words) -> Result<i32, i32> {
    let right = of_kind(s, t, w.p1, kinds::ENDPOINT)?;
    // "Receive: −15 before the flag, after the kind"; "option 0, 1 or above 3".
    // "Receive NS takes min(1, count), NM takes min(count, 2^31−1)"
    let (flag, most) = match w.p2 {
        2 => (endpoint::RCV_NS, 1),
        3 => (endpoint::RCV_NM, i32::MAX as u32),
        _ => return Err(SIV_ACT),
    };
    unless(right.flags & flag != 0, FLAG)?;
    let at = memory_of(right.object as usize);
    let count = word(s, at);
    let taken = count.min(most);
    // "the rest stays"
    put(s, at, count - taken);
    Ok(taken as i32)
}
