//! Answers in words: the texts of docs/USING.md, "Answers in words" and "Refusals".

/// Success of a tick, and of every call but two.
pub const DONE: &str = "done";

pub const SAVED: &str = "done: the state's text is in the file";
pub const LOADED: &str = "done: the state is the file's";

/// What success means after a call with this first word; N[5:0] is the call number.
pub fn success(w0: u32) -> &'static str {
    match w0 >> 16 & 0x3F {
        19 => "done: the signals taken",
        20 => "done: the clock mod 2^31",
        _ => DONE,
    }
}

/// The words behind an answer: the refusal's, or those for success.
pub fn in_words(answer: i32, success: &str) -> &str {
    match answer {
        -1 => "CAP_RANGE: a capability number or place is beyond the table, or the entries are not 1 to 64",
        -2 => "CAP_FROZEN: a capability or place used is frozen, or one to delete or remove is not",
        -3 => "CAP_TYPE: a right of another kind is there, or none where a kind is needed",
        -4 => "CAP_NULL: the place is blank, or the function's number is not 0",
        -5 => "CAP_FLAG: the right lacks a flag or range, the address is not a multiple of 64, or the grant is empty or inverted",
        -6 => "CAP_EXIST: the place is filled, or the table to delete is not empty",
        -7 => "CAP_KOTBL: a slot that is needed is occupied",
        -8 => "CAP_QUIE: frozen for fewer than 8 ticks",
        -9 => "CAP_REFCNT: it has children or users, or it is a root to remove or a child to delete",
        -10 => "PGT_HW: no such directory can be, it must be top, it has a child or is one, or the source holds no page",
        -11 => "PGT_ADDR: a position is past the end, or the size orders or the index do not fit",
        -12 => "PGT_MAP: the position is filled, or holds nothing of the sort, or the child is a top directory",
        -13 => "PGT_PERM: page flags that the source page lacks",
        -14 => "SIV_FULL: the endpoint's count is 4294967295",
        -15 => "SIV_ACT: the option is not 2 (NS) or 3 (NM)",
        -16 => "SIV_CONFLICT: the boot endpoint cannot be deleted",
        -17 => "no such call: the call number is not 1 to 20",
        -18 => "no such caller: it is not the slot of a live process",
        -19 => "no such state: the buffer is not 17472 bytes or not well formed",
        _ => success,
    }
}

/// The words behind the answer of a `load`.
pub fn of_load(answer: i32) -> &'static str {
    match answer {
        -19 => "no such state: the lines are right, but what they give is not well formed; save a state anew",
        -30 => "no record stands here: a character, the line's end, the length or the type is wrong; make the file anew",
        -31 => "the record's sum is wrong: the line was altered; fetch the file again",
        -32 => "bytes outside 20000000..20004440 or given twice, or at the end record bytes that no line gave; place the state at 0x20000000",
        -33 => "the file ends here without its end record, or goes on behind it; fetch the file again",
        _ => LOADED,
    }
}
