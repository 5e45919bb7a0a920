//! Reading a call: −19, −18, −17, then the call's own arguments.

mod directories;
mod endpoints;
mod processes;
mod tables;
mod words;

use crate::check::check;
use crate::kinds::{self, table};
use crate::layout::{clock, tag, State, SLOTS};
use crate::lookup::of_kind;
use crate::objects::table_of;
use crate::refusal::{unless, CALLER, FLAG, NULL, NUMBER, STATE};
use words::{d0, Words};

/// One call on a state. "Order: −19, −18, −17, then the arguments left to right."
pub fn call(s: &mut [u8], caller: u32, w0: u32, w1: u32, w2: u32, w3: u32) -> i32 {
    if !check(s) {
        return STATE;
    }
    match <&mut State>::try_from(s) {
        Ok(s) => apply(s, caller, [w0, w1, w2, w3]),
        Err(_) => STATE,
    }
}

/// One call on a state known to be well formed.
pub fn apply(s: &mut State, caller: u32, words: [u32; 4]) -> i32 {
    match run(s, caller, Words::read(words)) {
        Ok(answer) | Err(answer) => answer,
    }
}

fn run(s: &mut State, caller: u32, w: Words) -> Result<i32, i32> {
    // "caller is not a live process's slot"
    let caller = caller as usize;
    unless(caller < SLOTS && tag(s, caller) == tag::PROCESS, CALLER)?;
    let t = table_of(s, caller);
    match w.call_number() {
        1 => tables::create(s, t, &w),
        2 => tables::delete(s, t, &w),
        3 => tables::delegate(s, t, &w),
        4 => tables::freeze(s, t, &w),
        5 => tables::remove(s, t, &w),
        6 => directories::create(s, t, &w),
        7 => directories::delete(s, t, &w),
        8 => directories::map(s, t, &w),
        9 => directories::remove_page(s, t, &w),
        10 => directories::construct(s, t, &w),
        11 => directories::destruct(s, t, &w),
        12 => processes::create(s, t, &w),
        13 => processes::delete(s, t, &w),
        14 => processes::change_table(s, t, &w),
        15 => processes::change_directory(s, t, &w),
        16 => endpoints::create(s, t, &w),
        17 => endpoints::delete(s, t, &w),
        18 => endpoints::send(s, t, &w),
        19 => endpoints::receive(s, t, &w),
        20 => function(s, t, &w),
        // "call number not 1..20"
        _ => Err(NUMBER),
    }
}

/// The table that C names, for a creation.
fn table_to_create_in(s: &State, t: usize, w: &Words) -> Result<usize, i32> {
    table_named(s, t, w.c, table::CRT)
}

/// The table that C names, for a deletion.
fn table_to_delete_in(s: &State, t: usize, w: &Words) -> Result<usize, i32> {
    table_named(s, t, w.c, table::DEL)
}

/// The first slot of a table argument.
fn table_named(s: &State, t: usize, number: u32, flag: u32) -> Result<usize, i32> {
    let right = crate::lookup::capability(s, t, number, kinds::TABLE, flag)?;
    Ok(right.object as usize)
}

/// Call 20: "C function; P1.D0 number".
fn function(s: &State, t: usize, w: &Words) -> Result<i32, i32> {
    let right = of_kind(s, t, w.c, kinds::FUNCTION)?;
    let number = d0(w.p1);
    // "A function number outside the range is −5, any other but 0 is −4."
    unless(right.covers(number), FLAG)?;
    unless(number == 0, NULL)?;
    // "Function 0 answers clock mod 2^31."
    Ok((clock(s) & 0x7FFF_FFFF) as i32)
}
