//! The examples: what they are made of, how they are printed and drawn.

pub mod allotments;
pub mod camp;
pub mod choir;
pub mod club;
pub mod example;
pub mod files;
pub mod first;
pub mod guide;
pub mod kitchen;
pub mod nursery;
pub mod printed;
pub mod roster_picture;
pub mod rowing;
pub mod svg;
pub mod tree_picture;

use example::{Example, Fault};

/// All examples, in the order in which a reader meets them.
pub fn all() -> Result<Vec<Example>, Fault> {
    Ok(vec![
        first::example()?,
        nursery::example()?,
        kitchen::example()?,
        club::example()?,
        allotments::example()?,
        choir::example()?,
        rowing::example()?,
        camp::example()?,
    ])
}

/// The Rust of the guide is compiled and run.
#[cfg(doctest)]
#[doc = include_str!("../../../docs/GUIDE.md")]
pub struct Guide;
