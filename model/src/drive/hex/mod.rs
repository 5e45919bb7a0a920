//! HEX texts of states: one in any accepted style, and changes of it, most of which make a fault.
//! Each sort of change names the answers that reading gives after it.

mod accepted;
mod addresses;
mod characters;
mod draft;
mod ends;
mod forms;
mod loose;
pub mod recorded;
mod several;
mod spelling;
mod sums;
mod tally;

use super::rng::Rng;
pub use draft::Draft;
pub use spelling::Style;
pub use tally::Tally;

/// Changes a draft, or answers None if nothing there fits; the draft is of no use then.
pub type Change = fn(&mut Draft, &mut Rng) -> Option<()>;

/// Its name, the answers that should be met, and how it is done.
pub struct Sort(pub &'static str, pub &'static [i32], pub Change);

static SORTS: [&[Sort]; 8] = [
    &accepted::SORTS,
    &characters::SORTS,
    &forms::SORTS,
    &sums::SORTS,
    &addresses::SORTS,
    &ends::SORTS,
    &several::SORTS,
    &loose::SORTS,
];

/// Every sort of change, those that are accepted first.
pub fn sorts() -> impl Iterator<Item = &'static Sort> + Clone {
    SORTS.iter().flat_map(|group| group.iter())
}
