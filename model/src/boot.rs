//! Making the boot state, and the clock tick.

use crate::check::check;
use crate::entry::Entry;
use crate::kinds::{self, PAGE_FLAGS};
use crate::layout::{clock, holds, place_of, position_of, put, tag, State, BASE, CLOCK, END, SIZE};
use crate::objects;
use crate::refusal::STATE;

const TABLE: usize = 0;
const DIRECTORY: usize = 16;
const PROCESS: usize = 18;
const ENDPOINT: usize = 19;

/// "Boot refuses only a wrong length ... with −19".
pub fn boot(s: &mut [u8]) -> i32 {
    let s = match <&mut State>::try_from(s) {
        Ok(s) => s,
        Err(_) => return STATE,
    };
    *s = [0; SIZE];
    // "a 32-entry table at slot 0"
    objects::stand(s, TABLE, 16, tag::TABLE, 32);
    // "a top directory at slot 16 (size order 29, number order 3, start 0"
    objects::stand(s, DIRECTORY, 2, tag::DIRECTORY, 3);
    objects::head(s, DIRECTORY, 29, true, 0);
    // "position i holding frame i·2^29 with all page flags)"
    for i in 0..8 {
        objects::hold(
            s,
            position_of(DIRECTORY, i),
            holds::PAGE,
            PAGE_FLAGS,
            (i as u32) << 29,
        );
    }
    // "a process at 18 with both; an endpoint at 19"
    objects::stand(s, PROCESS, 1, tag::PROCESS, 0);
    objects::name_table(s, PROCESS, TABLE);
    objects::name_directory(s, PROCESS, DIRECTORY);
    objects::stand(s, ENDPOINT, 1, tag::ENDPOINT, 0);
    objects::mark_as_boot(s, ENDPOINT);
    // "Table entries 0..5: roots of table, directory, process, functions 0..65535, all memory,
    // endpoint"
    let roots = [
        Entry::root(kinds::TABLE, 0, 0, TABLE),
        Entry::root(kinds::DIRECTORY, 0, 7, DIRECTORY),
        Entry::root(kinds::PROCESS, 0, 0, PROCESS),
        Entry::root(kinds::FUNCTION, 0, 0xFFFF, 0),
        Entry::root(kinds::MEMORY, BASE, END, 0),
        Entry::root(kinds::ENDPOINT, 0, 0, ENDPOINT),
    ];
    for (entry, root) in roots.iter().enumerate() {
        root.write(s, place_of(TABLE, entry));
    }
    0
}

/// "a tick adds 1 mod 2^32"; it refuses "what a call would ... with −19".
pub fn tick(s: &mut [u8]) -> i32 {
    if !check(s) {
        return STATE;
    }
    let s = match <&mut State>::try_from(s) {
        Ok(s) => s,
        Err(_) => return STATE,
    };
    let next = clock(s).wrapping_add(1);
    put(s, CLOCK, next);
    0
}
