include!("../../unit_derivation/evaluate.rs");

// A child sees its parent's private items: the file itself stays as it was given.
pub mod reach;
