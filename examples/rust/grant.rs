//! Boots a kernel, grants a part of its memory, builds inside the grant and is refused outside of it. Each line printed is what was
//! asked and the answer; examples/c/grant.c prints the same.

/// The kernel behind safe functions: a slice is passed as its pointer and length, and every buffer is judged by the kernel itself.
mod kernel {
    pub const STATE_LENGTH: usize = 17472;
    pub const BOOT_PROCESS: u32 = 18;
    pub const CLOCK: u32 = 0xFFFF_FFFF;

    mod c {
        extern "C" {
            pub fn kernel_boot(s: *mut u8, length: usize) -> i32;
            pub fn kernel_tick(s: *mut u8, length: usize) -> i32;
            pub fn kernel_check(s: *const u8, length: usize) -> bool;
            pub fn kernel_call(s: *mut u8, length: usize, caller: u32, w0: u32, w1: u32, w2: u32, w3: u32) -> i32;
            pub fn kernel_run(s: *mut u8, length: usize, script: *const u32, events: usize, answers: *mut i32, room: usize) -> i32;
            pub fn kernel_pack(lower: u32, upper: u32, flags: u32, words: *mut u32, room: usize) -> i32;
            pub fn kernel_unpack(nc: u32, p3: u32, words: *mut u32, room: usize) -> i32;
        }
    }

    pub fn boot(s: &mut [u8]) -> i32 {
        unsafe { c::kernel_boot(s.as_mut_ptr(), s.len()) }
    }

    pub fn tick(s: &mut [u8]) -> i32 {
        unsafe { c::kernel_tick(s.as_mut_ptr(), s.len()) }
    }

    pub fn check(s: &[u8]) -> bool {
        unsafe { c::kernel_check(s.as_ptr(), s.len()) }
    }

    pub fn call(s: &mut [u8], caller: u32, [w0, w1, w2, w3]: [u32; 4]) -> i32 {
        unsafe { c::kernel_call(s.as_mut_ptr(), s.len(), caller, w0, w1, w2, w3) }
    }

    pub fn run(s: &mut [u8], script: &[u32], answers: &mut [i32]) -> i32 {
        unsafe { c::kernel_run(s.as_mut_ptr(), s.len(), script.as_ptr(), script.len(), answers.as_mut_ptr(), answers.len()) }
    }

    pub fn pack(lower: u32, upper: u32, flags: u32, words: &mut [u32]) -> i32 {
        unsafe { c::kernel_pack(lower, upper, flags, words.as_mut_ptr(), words.len()) }
    }

    pub fn unpack(nc: u32, p3: u32, words: &mut [u32]) -> i32 {
        unsafe { c::kernel_unpack(nc, p3, words.as_mut_ptr(), words.len()) }
    }
}

fn say(what: &str, answer: i32) {
    println!("{what}: {answer}");
}

fn call(state: &mut [u8], words: [u32; 4]) -> i32 {
    kernel::call(state, kernel::BOOT_PROCESS, words)
}

fn yes_or_no(yes: bool) -> &'static str {
    if yes {
        "yes"
    } else {
        "no"
    }
}

fn main() {
    let mut buffer = [0u8; kernel::STATE_LENGTH];
    let state = &mut buffer[..];
    say("tick before the boot", kernel::tick(state));
    say("boot of a short buffer", kernel::boot(&mut state[1..]));
    say("boot", kernel::boot(state));

    // Flag SIG, 0x10, on 0x20000400 to below 0x20000800: the memory right at place 4 lends it to place 6.
    let mut grant = [0u32; 2];
    let mut back = [0u32; 3];
    say("pack an address off 64", kernel::pack(0x20000401, 0x20000800, 0x10, &mut grant));
    say("pack", kernel::pack(0x20000400, 0x20000800, 0x10, &mut grant));
    say("unpack", kernel::unpack(grant[0], grant[1], &mut back));
    println!("  {:08x}..{:08x}, flags {:02x}", back[0], back[1], back[2]);
    say("delegate it to place 6", call(state, [grant[0], 6, 4, grant[1]]));

    // Create an endpoint (call 16): memory right 6, place 7, address.
    say("endpoint at 0x20000800, outside", call(state, [0x00100000, 6, 7, 0x20000800]));
    say("endpoint at 0x200007C0, inside", call(state, [0x00100000, 6, 7, 0x200007C0]));
    say("send to it", call(state, [0x00120000, 7, 0, 0]));
    say("send to it", call(state, [0x00120000, 7, 0, 0]));
    say("receive all (NM)", call(state, [0x00130000, 7, 3, 0]));

    // Freeze its right (call 4), then eight ticks and the deletion (call 17) in one script.
    say("freeze", call(state, [0x00040000, 7, 0, 0]));
    let mut script = [[kernel::CLOCK, 0, 0, 0, 0]; 8].concat();
    script.extend([kernel::BOOT_PROCESS, 0x00110000, 7, 0, 0]);
    let mut answers = [0i32; 9];
    say("run eight ticks and a deletion", kernel::run(state, &script, &mut answers));
    say("  the deletion", answers[8]);
    say("  a cut script", kernel::run(state, &script[..44], &mut answers));

    println!("check: {}", yes_or_no(kernel::check(state)));
    state[17471] = 1;
    println!("check with a spare byte set: {}", yes_or_no(kernel::check(state)));
    say("call on it", call(state, [0x00140003, 0, 0, 0]));
}
