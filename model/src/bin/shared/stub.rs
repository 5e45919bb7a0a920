//! The kernel's functions answered by the model, for the drivers' self-test without archive.

use std::slice::{from_raw_parts, from_raw_parts_mut};

#[no_mangle]
unsafe extern "C" fn kernel_boot(s: *mut u8, length: usize) -> i32 {
    model::boot(from_raw_parts_mut(s, length))
}

#[no_mangle]
unsafe extern "C" fn kernel_tick(s: *mut u8, length: usize) -> i32 {
    model::tick(from_raw_parts_mut(s, length))
}

#[no_mangle]
unsafe extern "C" fn kernel_check(s: *const u8, length: usize) -> bool {
    model::check(from_raw_parts(s, length))
}

#[no_mangle]
unsafe extern "C" fn kernel_call(
    s: *mut u8,
    length: usize,
    caller: u32,
    w0: u32,
    w1: u32,
    w2: u32,
    w3: u32,
) -> i32 {
    model::call(from_raw_parts_mut(s, length), caller, w0, w1, w2, w3)
}

#[no_mangle]
unsafe extern "C" fn kernel_read_hex(
    text: *const u8,
    text_length: usize,
    s: *mut u8,
    length: usize,
) -> i32 {
    model::hex::read(
        from_raw_parts(text, text_length),
        from_raw_parts_mut(s, length),
    )
}

#[no_mangle]
unsafe extern "C" fn kernel_write_hex(
    s: *const u8,
    length: usize,
    text: *mut u8,
    text_length: usize,
) -> i32 {
    model::hex::write(
        from_raw_parts(s, length),
        from_raw_parts_mut(text, text_length),
    )
}

#[no_mangle]
unsafe extern "C" fn kernel_hex_lines(text: *const u8, text_length: usize) -> usize {
    model::hex::lines_taken(from_raw_parts(text, text_length))
}
