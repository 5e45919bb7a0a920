//! Calls to make beside the generator's own, for what its chance seldom meets when no byte can be
//! set directly: the clock at 0, the boot endpoint ripe for deletion, an occupied slot, a count of
//! two digits.

use super::rng::Rng;

/// The boot process's slot.
pub const BOOT_PROCESS: u32 = 18;

/// Function 0 by entry 3, which answers 0 only before the first tick.
pub const ASK_THE_CLOCK: [u32; 4] = [0x0014_0003, 0, 0, 0];

/// Entry 5 holds the boot endpoint's root. Frozen at the beginning of a session, before it has
/// children, and deleted eight ticks later, it gives −16.
pub const FREEZE_BOOT_ENDPOINT: [u32; 4] = [0x0004_0000, 5, 0, 0];
pub const DELETE_BOOT_ENDPOINT: [u32; 4] = [0x0011_0000, 5, 0, 0];

/// What the caller does next after a call that was answered with 0; mostly nothing.
pub fn after(rng: &mut Rng, [w0, p1, p2, p3]: [u32; 4]) -> Vec<[u32; 4]> {
    if !rng.chance(8) {
        return vec![];
    }
    // The same creation at another place meets its own object: "some needed slot is occupied".
    let place = rng.within(0, 31);
    match w0 >> 16 & 0x3F {
        1 | 12 => vec![[w0, p1 & 0xFFFF_0000 | place, p2, p3]],
        6 => vec![[w0, p1 & 0xFFFF_00FF | place << 8, p2, p3]],
        16 => vec![[w0, p1, place, p3]],
        18 => vec![[w0, p1, p2, p3]; rng.within(8, 40) as usize],
        _ => vec![],
    }
}
