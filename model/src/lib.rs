//! An independent model of the capability kernel, written from document 01 and docs/LAYOUT.md, and
//! of its text for the firmware loader, from request 102 of document 02.
//! It works on the bytes of a state and is what the proved kernel is compared with.
#![forbid(unsafe_code)]

mod boot;
mod calls;
mod check;
pub mod console;
pub mod drive;
mod entry;
mod grant;
pub mod hex;
pub mod kinds;
pub mod layout;
mod lookup;
mod objects;
pub mod refusal;

pub use boot::{boot, tick};
pub use calls::{apply, call};
pub use check::{check, verdict, Fault};
pub use entry::Entry;
pub use grant::{pack, unpack};
pub use layout::{State, SIZE};
