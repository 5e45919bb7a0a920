//! The refusals by number ("Refusals by number, and when").

pub const RANGE: i32 = -1;
pub const FROZEN: i32 = -2;
pub const TYPE: i32 = -3;
pub const NULL: i32 = -4;
pub const FLAG: i32 = -5;
pub const EXIST: i32 = -6;
pub const KOTBL: i32 = -7;
pub const QUIE: i32 = -8;
pub const REFCNT: i32 = -9;
pub const PGT_HW: i32 = -10;
pub const PGT_ADDR: i32 = -11;
pub const PGT_MAP: i32 = -12;
pub const PGT_PERM: i32 = -13;
pub const SIV_FULL: i32 = -14;
pub const SIV_ACT: i32 = -15;
pub const SIV_CONFLICT: i32 = -16;
pub const NUMBER: i32 = -17;
pub const CALLER: i32 = -18;
pub const STATE: i32 = -19;

/// "character, line end, length or type other than 00, 01, 04".
pub const HEX_LINE: i32 = -30;
/// "record sum".
pub const HEX_SUM: i32 = -31;
/// "address overlap or outside, and a gap".
pub const HEX_ADDRESS: i32 = -32;
/// "no end record or text after it".
pub const HEX_END: i32 = -33;
/// "output under 48,076 bytes".
pub const HEX_ROOM: i32 = -34;

/// `Ok(())` if the refusal is not due.
pub fn unless(holds: bool, refusal: i32) -> Result<(), i32> {
    if holds {
        Ok(())
    } else {
        Err(refusal)
    }
}
