//! Packing and unpacking of memory grants: the first and last word of a delegation of memory.

use crate::refusal::FLAG;

/// Lower address, upper address (excluded), flags → the words N:C and P3.
/// "Packing writes call number 3 and gives −5 for an address off 64 or flags above 63".
pub fn pack(lower: u32, upper: u32, flags: u32) -> Result<(u32, u32), i32> {
    if lower % 64 != 0 || upper % 64 != 0 || flags > 63 {
        return Err(FLAG);
    }
    let n = (upper & 0xFFC0) | 3;
    let c = (lower & 0xFFC0) | flags;
    Ok((n << 16 | c, (upper & 0xFFFF_0000) | lower >> 16))
}

/// "upper address = P3.D1 over N[15:6] and six zeros, lower = P3.D0 over C[15:6] and six zeros,
/// flags = C[5:0]"; "unpacking takes every pair of words".
pub fn unpack(nc: u32, p3: u32) -> (u32, u32, u32) {
    let upper = (p3 & 0xFFFF_0000) | (nc >> 16 & 0xFFC0);
    let lower = p3 << 16 | (nc & 0xFFC0);
    (lower, upper, nc & 63)
}
