//! The kernel that the drivers are linked with: the archive, or the stub in its stead.

pub mod kernel;
#[cfg(feature = "stub")]
mod stub;
