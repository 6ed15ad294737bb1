//! The library beside the Rust crate crdts: what both are asked, and what the crate answers.

pub mod calls;
pub mod crdts_answers;
#[cfg(feature = "library")]
pub mod gatelichen;
pub mod image;
pub mod random;
pub mod worlds;
