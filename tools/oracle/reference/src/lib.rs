//! The Rust as it was given, with what its three files lack around them.

pub mod digest;
pub mod model;
pub mod unit_derivation;
