//! The proved kernel behind one face: the only place where foreign functions are named.

use model::drive::api::Api;

extern "C" {
    fn kernel_boot(s: *mut u8, length: usize) -> i32;
    fn kernel_tick(s: *mut u8, length: usize) -> i32;
    fn kernel_check(s: *const u8, length: usize) -> u8;
    fn kernel_call(
        s: *mut u8,
        length: usize,
        caller: u32,
        w0: u32,
        w1: u32,
        w2: u32,
        w3: u32,
    ) -> i32;
    fn kernel_read_hex(text: *const u8, text_length: usize, s: *mut u8, length: usize) -> i32;
    fn kernel_write_hex(s: *const u8, length: usize, text: *mut u8, text_length: usize) -> i32;
    fn kernel_hex_lines(text: *const u8, text_length: usize) -> usize;
}

pub const KERNEL: Api = Api {
    boot: |s| unsafe { kernel_boot(s.as_mut_ptr(), s.len()) },
    tick: |s| unsafe { kernel_tick(s.as_mut_ptr(), s.len()) },
    check: |s| match unsafe { kernel_check(s.as_ptr(), s.len()) } {
        0 => false,
        1 => true,
        other => panic!("kernel_check answered the byte {other}, which is no bool"),
    },
    call: |s, caller, [w0, w1, w2, w3]| unsafe {
        kernel_call(s.as_mut_ptr(), s.len(), caller, w0, w1, w2, w3)
    },
    read_hex: |text, s| unsafe {
        kernel_read_hex(text.as_ptr(), text.len(), s.as_mut_ptr(), s.len())
    },
    write_hex: |s, text| unsafe {
        kernel_write_hex(s.as_ptr(), s.len(), text.as_mut_ptr(), text.len())
    },
    hex_lines: |text| unsafe { kernel_hex_lines(text.as_ptr(), text.len()) },
};

/// Says which kernel is linked, so that no self-test is taken for a comparison.
pub fn announce() {
    if cfg!(feature = "stub") {
        println!("STUB: no archive was linked; the model is compared with itself.");
    } else {
        println!("kernel: the archive that build.sh was given");
    }
}
