//! The module that holds the three files.

#[allow(clippy::all)]
pub mod compile;
#[allow(clippy::all)]
pub mod evaluate;
pub mod interface;
#[allow(clippy::all)]
pub mod types;
pub mod unchecked;

/// The host keeps the version string; any fixed one serves.
pub const EXPERIMENTAL_SEMANTICS_VERSION: &str = "stage2";
