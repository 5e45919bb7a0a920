//! "its parent chain reaches a root": parents are followed once each, with one mark per place.

use super::fault::{ensure, Fault};
use crate::layout::PLACES;

/// Every child's parent is known to be a right; a chain fails only by coming back to itself.
pub fn reach_roots(parents: &[u16; PLACES]) -> Result<(), Fault> {
    // The walk that first came by a place, counted from 1. An earlier walk's mark means that a
    // root is reached from there.
    let mut walked = [0u16; PLACES];
    for start in 0..PLACES {
        let walk = start as u16 + 1;
        let mut at = start;
        while parents[at] != 0 && walked[at] == 0 {
            walked[at] = walk;
            at = parents[at] as usize - 1;
        }
        ensure(walked[at] != walk, Fault::Cycle)?;
    }
    Ok(())
}
