//! The entries that model and kernel both have, under one face.

pub struct Api {
    pub boot: fn(&mut [u8]) -> i32,
    pub tick: fn(&mut [u8]) -> i32,
    pub check: fn(&[u8]) -> bool,
    /// Caller, then the four words.
    pub call: fn(&mut [u8], u32, [u32; 4]) -> i32,
    /// Text, then the state that it is read into.
    pub read_hex: fn(&[u8], &mut [u8]) -> i32,
    /// State, then the output.
    pub write_hex: fn(&[u8], &mut [u8]) -> i32,
    /// How many lines of a text are taken before the first faulty one.
    pub hex_lines: fn(&[u8]) -> usize,
}

pub const MODEL: Api = Api {
    boot: crate::boot,
    tick: crate::tick,
    check: crate::check,
    call: |s, caller, [w0, w1, w2, w3]| crate::call(s, caller, w0, w1, w2, w3),
    read_hex: crate::hex::read,
    write_hex: crate::hex::write,
    hex_lines: crate::hex::lines_taken,
};
