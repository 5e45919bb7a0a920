//! Hands a state to a firmware loader as Intel HEX and takes it back, and is refused what came back damaged. Each line printed is what
//! was asked and the answer; examples/c/firmware.c prints the same.

/// The kernel behind safe functions: a slice is passed as its pointer and length, and every buffer is judged by the kernel itself.
mod kernel {
    pub const STATE_LENGTH: usize = 17472;
    pub const TEXT_LENGTH: usize = 48076;
    pub const BOOT_PROCESS: u32 = 18;

    mod c {
        extern "C" {
            pub fn kernel_boot(s: *mut u8, length: usize) -> i32;
            pub fn kernel_call(s: *mut u8, length: usize, caller: u32, w0: u32, w1: u32, w2: u32, w3: u32) -> i32;
            pub fn kernel_write_hex(s: *const u8, length: usize, text: *mut u8, room: usize) -> i32;
            pub fn kernel_read_hex(text: *const u8, text_length: usize, s: *mut u8, length: usize) -> i32;
            pub fn kernel_hex_lines(text: *const u8, text_length: usize) -> usize;
        }
    }

    pub fn boot(s: &mut [u8]) -> i32 {
        unsafe { c::kernel_boot(s.as_mut_ptr(), s.len()) }
    }

    pub fn call(s: &mut [u8], caller: u32, [w0, w1, w2, w3]: [u32; 4]) -> i32 {
        unsafe { c::kernel_call(s.as_mut_ptr(), s.len(), caller, w0, w1, w2, w3) }
    }

    pub fn write_hex(s: &[u8], text: &mut [u8]) -> i32 {
        unsafe { c::kernel_write_hex(s.as_ptr(), s.len(), text.as_mut_ptr(), text.len()) }
    }

    pub fn read_hex(text: &[u8], s: &mut [u8]) -> i32 {
        unsafe { c::kernel_read_hex(text.as_ptr(), text.len(), s.as_mut_ptr(), s.len()) }
    }

    pub fn hex_lines(text: &[u8]) -> usize {
        unsafe { c::kernel_hex_lines(text.as_ptr(), text.len()) }
    }
}

fn say(what: &str, answer: i32) {
    println!("{what}: {answer}");
}

fn same(what: &str, same: bool) {
    println!("  {what}: {}", if same { "yes" } else { "no" });
}

fn meaning(answer: i32) -> &'static str {
    match answer {
        -30 => "no record stands here",
        -31 => "the record's sum is wrong, so the line was altered",
        -32 => "bytes outside the state or given twice, or at the end record bytes that no line gave",
        -33 => "the text ends without its end record, or goes on behind it",
        _ => "what the lines give is no state",
    }
}

/// Reads a text that is to be refused into `second`, which must stay.
fn refused(what: &str, text: &[u8], second: &mut [u8]) {
    let before = second.to_vec();
    let answer = kernel::read_hex(text, second);
    say(what, answer);
    println!("  line {}: {}", kernel::hex_lines(text) + 1, meaning(answer));
    same("the buffer stayed", before == second);
}

fn main() {
    // Create an endpoint (call 16): memory right 4, place 6, address. Send to it (call 18).
    let (state, second) = (&mut [0u8; kernel::STATE_LENGTH], &mut [0u8; kernel::STATE_LENGTH]);
    say("boot", kernel::boot(state));
    say("endpoint at 0x20000500", kernel::call(state, kernel::BOOT_PROCESS, [0x00100000, 4, 6, 0x20000500]));
    say("send to it", kernel::call(state, kernel::BOOT_PROCESS, [0x00120000, 6, 0, 0]));

    let text = &mut [0u8; kernel::TEXT_LENGTH];
    say("write the text", kernel::write_hex(state, text));
    let lines: Vec<&[u8]> = text.split_inclusive(|&b| b == b'\n').collect();
    for line in [lines[0], lines[1], lines[lines.len() - 1]] {
        print!("  {}", String::from_utf8_lossy(line));
    }
    println!("  {} bytes in {} lines", text.len(), kernel::hex_lines(text));

    say("read it into a second buffer", kernel::read_hex(text, second));
    same("the same state", state == second);

    // From here on the second buffer holds the boot state, so that a text that was taken would show.
    kernel::boot(second);
    let mut damaged = text.to_vec();
    let digit = lines[..16].concat().len() + 9;
    damaged[digit] = b'E';
    refused("a digit of line 17 altered", &damaged, second);
    damaged[digit] = b'G';
    refused("a letter there that is no digit", &damaged, second);
    refused("line 17 left out", &[&lines[..16], &lines[17..]].concat().concat(), second);
    refused("the end record cut off", &lines[..lines.len() - 1].concat(), second);

    let room = &mut [b'-'; kernel::TEXT_LENGTH - 1];
    say("room for a byte less than the text", kernel::write_hex(state, room));
    same("the buffer stayed", room.iter().all(|&b| b == b'-'));
}
