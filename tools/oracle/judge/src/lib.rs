//! The Rust, the model and who else is held to it, on the same bytes.

pub mod compare;
pub mod differences;
pub mod listing;
pub mod measured;
pub mod rust;
pub mod sides;
pub mod translate;
pub mod trial;
